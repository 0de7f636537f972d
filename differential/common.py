"""What the checks share: where things are, how a driver is asked and its answers are compared, how bytes are
damaged, LEB numbers."""

import os
import subprocess
import sys

HERE = os.path.dirname(os.path.abspath(__file__))
ROOT = os.path.dirname(HERE)
OUT = os.path.join(ROOT, "target", "differential")
DEKVOZ = os.path.join(ROOT, "target", "cli", "release", "dekvoz")
# What a damaged byte is changed by: each bit, and all of them.
FLIPS = (1, 2, 4, 8, 16, 32, 64, 128, 255)


class Failed(Exception):
    pass


def run(program, text):
    """The lines that a program prints of a text, the last one empty."""
    done = subprocess.run([program], input=text, capture_output=True, text=True)
    if done.returncode:
        raise Failed(done.stderr[:2000] or f"{program} ended with {done.returncode}")
    return done.stdout.split("\n")


def ask(driver, lines):
    """What a driver of drivers/ answers: a line for each question."""
    text = "".join(f"{line}\n" for line in lines)
    done = subprocess.run([os.path.join(OUT, driver)], input=text, capture_output=True, text=True, check=True)
    return done.stdout.splitlines()


def numbers_of(line):
    return list(map(int, line.split()))


def agreed(check, judged, printed):
    """The numbers that a driver printed, a line for each of (what was asked, what the judge says of it); the
    check ends where they are not the same."""
    for (what, want), line in zip(judged, printed, strict=True):
        got = numbers_of(line)
        if got != want:
            sys.exit(f"{check}: {what}: {want} is expected, ours is {got}")
        yield got


def flipped(data):
    """A copy for each byte and each way to change it."""
    for at in range(len(data)):
        for flip in FLIPS:
            yield data[:at] + bytes([data[at] ^ flip]) + data[at + 1 :]


def beginnings(data):
    """The beginnings of some bytes."""
    return (data[:end] for end in range(len(data)))


def uleb(n):
    out = bytearray()
    while n >= 128:
        out.append(n % 128 + 128)
        n //= 128
    return bytes([*out, n])


def sleb(n):
    out = bytearray()
    while not -64 <= n < 64:
        out.append(n % 128 + 128)
        n >>= 7
    return bytes([*out, n % 128])
