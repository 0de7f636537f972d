"""The time of unwind_arm64 on 10,000 functions beside the Rust's: arm64.py. Lists of packed functions, of records with one epilogue and with five, and of
all three in turn; medians of 41 calls. Both write the same. Not in the gate."""
import os
import subprocess
import sys

sys.path.insert(0, os.path.dirname(os.path.dirname(os.path.abspath(__file__))))

from checks import arm64_writer  # noqa: E402
from checks.arm64_writer import code  # noqa: E402
from common import OUT  # noqa: E402

COUNT = 10000
PROLOGUE = [code("R19R20X", 0, 32), code("Regp", 21, 16), code("FplrX", 0, 64), code("SetFp")]
UNDONE = [code("FplrX", 0, 64), code("Regp", 21, 16), code("R19R20X", 0, 32)]
OTHER = [code("RegpX", 19, 48), code("Reg", 21, 16), code("Fplr", 0, 32), code("AddFp", 0, 32), code("Alloc", 0, 256)]


def kinds():
    packed = arm64_writer.at_end(PROLOGUE, UNDONE)
    record = arm64_writer.at_end(OTHER, OTHER[:3][::-1])
    five = arm64_writer.one(800, OTHER, [(100 * i + 40, OTHER[:3][::-1] if i % 2 else OTHER[::-1]) for i in range(5)])
    return {"packed": [packed], "records": [record], "records with five epilogues": [five], "in turn": [packed, record, five]}


def took(program, text):
    program = os.path.join(OUT, program)
    return float(subprocess.run([program, "time"], input=text, capture_output=True, text=True, check=True).stdout)


for name, functions in kinds().items():
    lists = arm64_writer.many([functions[k % len(functions)] for k in range(COUNT)])
    assert arm64_writer.parsed(arm64_writer.asked("arm64_writer", [lists])[0]) == arm64_writer.parsed(arm64_writer.asked("release/arm64_harness", [lists])[0])
    text = ";".join(" ".join(map(str, part)) for part in lists) + "\n"
    ours, rust = took("arm64_writer", text), took("release/arm64_harness", text)
    print(f"arm64: {COUNT} functions, {name}: ours {ours:.0f} us, the Rust {rust:.0f} us, ratio {ours / rust:.2f}")
