#!/usr/bin/env python3
"""The command `dekvoz` as people and scripts use it: statuses, errors, every command on ELF files, raw bytes and standard input, JSON, damage.

What the listing says of rules is compared with readelf's by dump.py; here the answers of the commands are compared with one another."""

import hashlib
import json
import os
import re
import subprocess
import sys

sys.path.insert(0, os.path.dirname(os.path.dirname(os.path.abspath(__file__))))

from common import DEKVOZ, OUT, ROOT  # noqa: E402

SECTION, DAMAGED, OBJECT = (os.path.join(OUT, f"command.{end}") for end in ("section", "damaged", "o"))
# Two functions: one with a handler, and one that calls it.
SOURCE = """
__attribute__((noinline)) int sum(int *p, int n) { int s = 0; for (int i = 0; i < n; i++) s += p[i] * s; return s; }
void cleaned(int *p); void thrower(void);
int caller(void) { __attribute__((cleanup(cleaned))) int n = 3; thrower(); return sum(&n, 1); }
"""
# A header (CIE) and two records (FDE) of 16 bytes of function, one with an advance, one without a caller, by LSB 5.0, section 10.6.1.
CIE = bytes.fromhex("14000000 00000000 01 7a5200 01 78 10 01 1b 0c0708 9001 0000".replace(" ", ""))
FDE = bytes.fromhex("14000000 1c000000 e0ffffff 10000000 00 41 0e10 8602 0000".replace(" ", ""))
RESET = bytes.fromhex("14000000 34000000 00000000 10000000 00 0710 000000 0000".replace(" ", ""))


def run(*words, stdin=b"", status=0, stdout=subprocess.PIPE):
    done = subprocess.run([DEKVOZ, *words], input=stdin, stdout=stdout, stderr=subprocess.PIPE)
    assert done.returncode == status, f"{words}: status {done.returncode}, not {status}: {done.stderr.decode()}"
    assert not done.stderr or all(line.startswith("dekvoz: ") for line in done.stderr.decode().splitlines()), done.stderr
    assert status == 0 or done.stderr, f"{words}: status {status} without a word"
    return (done.stdout or b"").decode(), done.stderr.decode()


def usage():
    for words in ([], ["lists"], ["dump"], ["rules", "a", "b", "--address=1"], ["walk", "a", "b"], ["dump", "--nothing", "a"], ["dump", "--word"], ["dump", "-", "--word=3"],
                  ["dump", "-", "--kind", "x"], ["rules", "-"], ["rules", "-", "--record", "1"], ["rules", "-", "--record=x", "--at=0"],
                  ["rules", "-", "--address=1", "--record=1", "--at=1"], ["dump", "-", "--json=1"], ["check", "-", "--record", "1"],
                  ["dump", "-", "--word", "8", "--word", "8"], ["dump", "-", "--machine=vax"], ["handler", "-"], ["handler", "-", "--at", "1"],
                  ["walk", "-"], ["walk", "-", "--fault=x", "--pc=1"], ["walk", "-", "--fault=x", "--pc=1", "--stack=-1"], ["dump", "-", "--pc=1"],
                  ["rules", "-", "--record=-1", "--at=0"], ["rules", "-", "--record=0x1ffffffffffffffff", "--at=0"], ["example", "x"],
                  ["arm64"], ["arm64", "--packed=0"], ["arm64", "--packed=0x100000001"], ["arm64", "-", "--packed=1"], ["arm64", "--packed=1", "--place=1"],
                  ["dump", "-", "--load-base=1"], ["dump", "-", "--readelf", "--json"], ["handler", "-", "--base=1", "--at=1"], ["example", "-", "-"]):
        run(*words, status=2)
    for words in (["--help"], ["-h"], ["help"], ["help", "dump"], ["dump", "--help"], ["--help", "dump", "x", "--word=1"]):
        assert "dekvoz dump FILE" in run(*words)[0]
    for word in ("--version", "-V"):
        assert re.fullmatch(r"dekvoz \d+\.\d+\.\d+\n", run(word)[0])


def files():
    for command in ("dump", "check"):
        assert "No such file" in run(command, "/nonexistent", status=1)[1]
        assert "empty" in run(command, "/dev/null", status=1)[1]
        assert "empty" in run(command, "-", status=1)[1]
        assert "no ELF file" in run(command, "-", stdin=b"#!/bin/sh\n", status=1)[1]
        run(command, "-", stdin=b"\x7fELF", status=1)
        run(command, "-", stdin=b"\x7fELF\2\1\1" + bytes(40), status=1)
    assert "standard output" in run("dump", "-", stdin=CIE + FDE, status=1, stdout=open("/dev/full", "wb"))[1]


def raw():
    """A section by hand: listed, with a terminator, with bytes behind it, cut off at every place."""
    section = CIE + FDE
    text = run("dump", "-", stdin=section, status=0)[0]
    assert "00000018 0000000000000014 0000001c FDE cie=00000000 pc=0000000000000000..0000000000000010 record 0" in text, text
    assert "0000000000000001 r7+16    c-16  c-8" in text, text
    assert "r7+16" in run("rules", "-", "--record=0", "--at=1", stdin=section)[0]
    assert "rsp+16" in run("rules", "--machine", "x86-64", "--at", "1", "-", "--record", "0", stdin=section)[0]
    assert "rbp: saved at CFA-16" in run("rules", "-", "--record=0", "--at=1", "--machine=x86-64", "--register=rbp", stdin=section)[0]
    assert "rbp: saved" in run("rules", "-", "--base=0x100", "--address=0x10f", "--machine=x86-64", "--register=6", stdin=section)[0]
    assert "65" in run("rules", "-", "--record=0", "--at=16", stdin=section, status=1)[1]
    assert "no record 1" in run("rules", "-", "--record=1", "--at=0", stdin=section, status=1)[1]
    assert "0x110" in run("rules", "-", "--base=0x100", "--address=0x110", stdin=section, status=1)[1]
    run("check", "-", stdin=section)
    assert "ZERO terminator" in run("dump", "-", stdin=section + bytes(4))[0]
    run("check", "-", stdin=section + bytes(4))
    for command in ("dump", "check"):
        run(command, "-", stdin=section + bytes(8))
        run(command, "-", stdin=section + bytes(37))
        assert "behind the terminator" in run(command, "-", stdin=section + bytes(8) + b"\1", status=1)[1]
    for cut in range(1, len(section)):
        if cut != len(CIE):
            listed, why = run("dump", "-", stdin=section[:cut], status=1)
            assert ("CIE" in listed) == (cut > len(CIE)) and "61" in why, (cut, listed, why)
            run("check", "-", stdin=section[:cut], status=1)
    foreign = section[:-4] + bytes.fromhex("0f010000")
    assert "DW_CFA_def_cfa_expression" in run("check", "-", stdin=foreign, status=1)[0]
    # A status of 1 wherever something is refused, of an entry or of all.
    for json_too in ([], ["--json"]):
        said, why = run("dump", "-", "--operations", *json_too, stdin=foreign, status=1)
        assert json_too or "passed over" in said, said
        assert "1 of 2 entries are refused" in why, why
        said, why = run("dump", "-", *json_too, stdin=section.replace(b"\1\x78\x10", b"\4\x78\x10"), status=1)
        assert "alignment factor" in said and "2 of 2 entries are refused" in why, (said, why)


def empty_functions():
    """A record of length 0 is read at no offset, and its header and fields are to be readable nevertheless."""
    empty = FDE[:12] + bytes(4) + FDE[16:]
    assert "every record can be read" in run("check", "-", stdin=CIE + empty)[0]
    for wrong in (CIE[:8] + b"\7" + CIE[9:], CIE[:8] + b"\7" + b"\xff" * (len(CIE) - 9)):
        said, why = run("check", "-", stdin=wrong + empty, status=1)
        assert "1 record refused with 64: the header's version is not 1" in said and "every record" not in said, said
        assert "1 of 1 records cannot be read" in why, why
        assert json.loads(run("check", "-", "--json", stdin=wrong + empty, status=1)[0])["causes"][0]["count"] == 1
    assert "2 of 3 records" in run("check", "-", stdin=CIE + FDE + CIE[:8] + b"\7" + CIE[9:] + (empty[:4] + b"\x1c" + empty[5:]) + (empty[:4] + b"\x34" + empty[5:]), status=1)[1]


def spellings():
    """DW_CFA_def_cfa_offset 16 spelled in two bytes: told from the step on that it stands behind."""
    long = CIE + FDE[:-7] + bytes.fromhex("410e9000860200")
    for section, said in ((CIE + FDE, False), (long, True)):
        for p, there in ((0, False), (1, said)):
            words = ["rules", "-", "--record=0", f"--at={p}"]
            assert ("long spellings" in run(*words, stdin=section)[0]) == there, (said, p)
            assert json.loads(run(*words, "--json", stdin=section)[0])["shortest"] != there, (said, p)
        assert ("record 0, long spellings\n" in run("dump", "-", stdin=section)[0]) == said
        entry = json.loads(run("dump", "-", "--json", stdin=section)[0])["entries"][1]
        assert entry["long_spellings"] == said, entry
        assert ("1 record has long spellings" in run("check", "-", stdin=section)[0]) == said
        assert json.loads(run("check", "-", "--json", stdin=section)[0])["long_spellings"]["count"] == said


def debug():
    """debug_frame: 63 without relocations, by the field with --linked."""
    cie = bytes.fromhex("0c000000 ffffffff 01 00 01 78 10 0c0708".replace(" ", ""))
    fde = bytes.fromhex("14000000 00000000 0010000000000000 1000000000000000".replace(" ", ""))
    section = cie + fde
    assert "63" in run("check", "-", "--kind", "debug", stdin=section, status=1)[0]
    assert "--linked" in run("check", "-", "--kind", "debug", stdin=section, status=1)[1]
    for kind in ("debug", "debug_frame", ".debug_frame"):
        run("check", "-", "--kind", kind, "--linked", stdin=section)
    assert "r7+8" in run("rules", "-", "--kind=debug", "--linked", "--address=0x1000", stdin=section)[0]
    wrong = cie + fde[:4] + b"\4" + fde[5:]
    assert "63" in run("check", "-", "--kind", "debug", "--linked", stdin=wrong, status=1)[0]


def objects():
    """A file that gcc made, by name and by its section; the JSON of each command; the handler of a call."""
    source = OBJECT[:-1] + "c"
    with open(source, "w") as file:
        file.write(SOURCE)
    flags = ["-O2", "-fexceptions", "-fPIC", "-shared", "-w"]
    if subprocess.run(["gcc", *flags, "-o", OBJECT, source], capture_output=True).returncode:
        return
    refused = int("refused" in subprocess.run([DEKVOZ, "dump", OBJECT], capture_output=True, text=True).stdout)
    listed = json.loads(run("dump", OBJECT, "--json", "--operations", status=refused)[0])
    records = [entry for entry in listed["entries"] if entry["entry"] == "FDE"]
    checked = json.loads(run("check", OBJECT, "--json", status=1 if any("refused" in r for e in records for r in e["rows"]) else 0)[0])
    assert checked["records"] == len(records)
    handled = 0
    for entry in records:
        pc, k = int(entry["pc"], 16), entry["record"]
        for row in entry["rows"]:
            if "refused" in row:
                continue
            offset = int(row["location"], 16) - pc
            by_address = json.loads(run("rules", OBJECT, "--address", row["location"], "--json")[0])
            by_record = json.loads(run("rules", OBJECT, "--record", str(k), "--at", str(offset), "--json")[0])
            assert by_address == by_record, (by_address, by_record)
            assert (by_record["cfa"], by_record["registers"]) == (row["cfa"], row["registers"]), (by_record, row)
            said = json.loads(run("handler", OBJECT, "--record", str(k), "--at", str(offset), "--json")[0])
            handled += "site" in said
    assert json.loads(run("dump", OBJECT, "--json", "--section=.eh_frame", status=refused)[0])["entries"]
    assert "without .nothing" in run("dump", OBJECT, "--section", ".nothing", status=1)[1]
    sites = [json.loads(run("handler", OBJECT, "--record", str(e["record"]), "--at", str(p), "--json")[0]) for e in records for p in range(0, e["size"])]
    assert any(s.get("site", {}).get("pad") for s in sites), "no call of the object has a handler"
    with open(OBJECT, "rb") as file:
        whole = file.read()
    piped = json.loads(run("dump", "-", "--json", stdin=whole, status=refused)[0])
    assert piped["entries"] == json.loads(run("dump", OBJECT, "--json", status=refused)[0])["entries"]
    # Loaded elsewhere, as /proc/PID/maps says; the address of raw bytes is another option.
    pc = int(records[-1]["pc"], 16)
    moved = run("rules", OBJECT, f"--load-base={0x7f0000000000:#x}", f"--address={0x7f0000000000 + pc:#x}")[0]
    assert moved.splitlines()[1:] == run("rules", OBJECT, f"--address={pc:#x}")[0].splitlines()[1:] and f"pc=0x7f00{pc:08x}" in moved, moved
    assert "--load-base" in run("dump", OBJECT, "--base=0x1000", status=2)[1]
    # No table says anything behind its function.
    assert "not below the function's length" in run("handler", OBJECT, f"--record={records[-1]['record']}", f"--at={records[-1]['size']}", status=1)[1]
    # Several files, each under its name.
    text, why = run("check", OBJECT, "/nonexistent", OBJECT, status=1)
    assert text.count(f"{OBJECT}:\n") == 2 and "/nonexistent:\n" in text and "No such file" in why, (text, why)
    unlinked(source)
    sections(source)


def unlinked(source):
    """A file that is not linked: addresses are counted from sections, and a pointer to call sites is its relocation."""
    made = OBJECT + ".unlinked"
    assert not subprocess.run(["gcc", "-O2", "-fexceptions", "-ffunction-sections", "-w", "-c", "-o", made, source], capture_output=True).returncode
    listed = json.loads(run("dump", made, "--json")[0])
    records = [entry for entry in listed["entries"] if entry["entry"] == "FDE"]
    assert [(r["pc"], r["in"]) for r in records][:2] == [("0x0", ".text.sum"), ("0x0", ".text.caller")], records
    assert "record 1, in .text.caller\n" in run("dump", made)[0]
    told = [run("handler", made, "--record=1", f"--at={p}")[0] for p in range(records[1]["size"])]
    assert any("landing pad" in words for words in told) and not any("no table" in words for words in told), told
    assert "no table" in run("handler", made, "--record=0", "--at=0")[0]
    assert "not linked" in run("rules", made, "--address=0", status=1)[1]
    if not subprocess.run(["readelf", "--version"], capture_output=True).returncode:
        assert run("dump", made, "--readelf")[0] == readelf(made)


def readelf(*paths):
    return subprocess.run(["readelf", "--debug-dump=frames-interp", *paths], capture_output=True, text=True).stdout


def sections(source):
    """.debug_frame where .eh_frame does not hold the address; an empty section; --readelf as readelf."""
    made, data, debug = (OBJECT + end for end in (".both", ".data", ".debug"))
    flags = ["-O2", "-g", "-fPIC", "-shared", "-w", "-nostdlib"]
    assert not subprocess.run(["gcc", *flags, "-fno-asynchronous-unwind-tables", "-c", "-o", debug, source], capture_output=True).returncode
    with open(data + ".c", "w") as file:
        file.write("int other(int n) { return n + 1; }")
    subprocess.run(["gcc", *flags, "-o", made, debug, data + ".c"], check=True)
    functions = {line.split()[2]: int(line.split()[0], 16) for line in subprocess.run(["nm", made], capture_output=True, text=True).stdout.splitlines() if " T " in line}
    assert "of .debug_frame" in run("rules", made, f"--address={functions['sum']}")[0]
    assert "of .debug_frame" not in run("rules", made, f"--address={functions['other']}")[0]
    assert json.loads(run("rules", made, f"--address={functions['caller']}", "--json")[0])["section"] == ".debug_frame"
    # A PLT's record, where the linker makes one, is refused.
    for words, there in ([], True), (["--section=.eh_frame"], False):
        said = subprocess.run([DEKVOZ, "check", made, *words], capture_output=True, text=True).stdout
        assert (".debug_frame is there too, and was not looked at" in said) == there, said
    why = run("rules", made, "--address=1", status=1)[1]
    assert ".eh_frame holds 0x1" in why and ".debug_frame holds 0x1" in why, why
    assert json.loads(run("rules", made, "--load-base=0x10000", f"--address={0x10000 + functions['sum']}", "--json")[0])["pc"] == hex(0x10000 + functions["sum"])
    if not subprocess.run(["readelf", "--version"], capture_output=True).returncode:
        for path in (made, debug, OBJECT):
            assert run("dump", path, "--readelf")[0] == readelf(path), path
        assert run("dump", made, OBJECT, "--readelf")[0] == readelf(made, OBJECT)
    # Two sections of one name: one of them is no answer about the file.
    with open(data + ".s", "w") as file:
        for group in ("a", "b"):
            file.write(f'.section .eh_frame,"aG",@progbits,{group},comdat\n.byte {",".join(map(str, CIE))}\n')
    subprocess.run(["gcc", "-c", "-o", data, data + ".s"], check=True)
    for words in (["dump"], ["check"], ["rules", "--record=0", "--at=0"], ["handler", "--record=0", "--at=0"]):
        assert "2 sections .eh_frame" in run(words[0], data, *words[1:], status=1)[1], words
    # A section of a file without functions: nothing, and no failure.
    with open(data + ".s", "w") as file:
        file.write('.data\n.long 1\n.section .eh_frame,"a",@unwind\n')
    subprocess.run(["gcc", "-c", "-o", data, data + ".s"], check=True)
    assert "0 headers (CIE), 0 records" in run("check", data)[0] and run("dump", data)[0] == ""
    if not subprocess.run(["readelf", "--version"], capture_output=True).returncode:
        assert run("dump", data, "--readelf")[0] == readelf(data)


def elf(machine, frame, relocations, symbols):
    """An unlinked ELF file of 64 bits: .text, .eh_frame, its relocations of (place, kind, symbol, addend), symbols of .text or, by None, of none."""
    names = b"\0.text\0.eh_frame\0.rela.eh_frame\0.symtab\0.strtab\0"
    number = lambda n, size: (n % 2 ** (8 * size)).to_bytes(size, "little")
    rela = b"".join(number(place, 8) + number(symbol << 32 | kind, 8) + number(addend, 8) for place, kind, symbol, addend in relocations)
    table = bytes(24) + b"".join(number(0, 4) + b"\0\0" + number(0 if at is None else 1, 2) + number(at or 0, 8) + bytes(8) for at in symbols)
    parts = [(b"", 0, b"", 0, 0), (b".text", 1, bytes(64), 0, 0), (b".eh_frame", 1, frame, 0, 0), (b".rela.eh_frame", 4, rela, 4, 2), (b".symtab", 2, table, 5, 1), (b".strtab", 3, names, 0, 0)]
    body, heads = b"", b""
    for name, kind, data, link, info in parts:
        at = 64 + len(body)
        heads += number(names.index(name), 4) + number(kind, 4) + bytes(16) + number(at, 8) + number(len(data), 8) + number(link, 4) + number(info, 4) + bytes(16)
        body += data
    head = b"\x7fELF\2\1\1" + bytes(9) + number(1, 2) + number(machine, 2) + number(1, 4) + bytes(16) + number(64 + len(body), 8)
    return head + number(0, 4) + number(64, 2) + bytes(4) + number(64, 2) + number(len(parts), 2) + number(5, 2) + body + heads


def relocations():
    """Relocations of records: RISC-V's lengths and steps, one of a kind that is not known, one to a symbol of another file."""
    # A length of 0 and a step of 0 that relocations fill in; RISC-V ELF psABI: 32_PCREL 57, ADD32 35, SUB32 39, SET6 53, SUB6 52.
    fde = FDE[:8] + bytes(8) + bytes.fromhex("00 40 0e10 8602 0000".replace(" ", ""))
    filled = [(32, 57, 1, 0), (36, 35, 3, 0), (36, 39, 1, 0), (41, 53, 2, 0), (41, 52, 1, 0)]
    made = elf(243, CIE + fde, filled, [8, 12, 28])
    listed = json.loads(run("dump", "-", "--json", stdin=made)[0])["entries"][1]
    assert (listed["pc"], listed["size"], listed["in"]) == ("0x8", 20, ".text"), listed
    assert [row["location"] for row in listed["rows"]] == ["0x8", "0xc"], listed
    assert "every record" in run("check", "-", stdin=made)[0]
    for kind, symbols in ((9, [8, 12, 28]), (35, [8, 12, None])):
        made = elf(243, CIE + fde, [(place, kind if at == 35 else at, symbol, addend) for place, at, symbol, addend in filled], symbols)
        said, why = run("dump", "-", stdin=made, status=1)
        assert "not read: it is not linked, and relocations" in said and "1 of 2 entries" in why and "pc=" not in said, (said, why)
        assert "1 record not read: it is not linked" in run("check", "-", stdin=made, status=1)[0]
        assert "not linked" in run("rules", "-", "--record=0", "--at=0", stdin=made, status=1)[1]
        assert json.loads(run("dump", "-", "--json", stdin=made, status=1)[0])["entries"][1]["refused"]["number"] == 0


def call_sites():
    table = bytes.fromhex("ffff01 08 10 04 28 00 20 08 00 00".replace(" ", ""))
    assert "landing pad at offset 40" in run("handler", "-", "--place=0", "--at=16", stdin=table)[0]
    assert "no call site" in run("handler", "-", "--place=0", "--at=20", stdin=table)[0]
    assert "no handler" in run("handler", "-", "--place=0", "--at=32", stdin=table)[0]
    assert "71" in run("handler", "-", "--place=1", "--at=16", stdin=table, status=1)[1]
    assert "72" in run("handler", "-", "--place=0", "--at=16", stdin=table[:3] + b"\7" + table[4:11], status=1)[1]


def x64():
    # push rbp; mov rbp, rsp; sub rsp, 32 (Microsoft, "x64 exception handling")
    record = bytes.fromhex("01 08 03 05 08 32 04 03 01 50 00 00".replace(" ", ""))
    text = run("x64", "-", stdin=record + record)[0]
    assert text.count("push rbp") == 2 and "take 32 bytes" in text and "the frame register rbp is rsp+0" in text, text
    assert len(json.loads(run("x64", "-", "--json", stdin=record + record)[0])["records"]) == 2
    assert run("x64", "-", "--place=12", stdin=record + record)[0].startswith("0000000c")
    assert "76" in run("x64", "-", "--place=1", stdin=record, status=1)[1]
    run("x64", "/dev/null", status=1)


def word(*numbers):
    return b"".join(n.to_bytes(4, "little") for n in numbers)


def coff(sections, symbols, image=False):
    """A COFF object of (name, bytes, relocations) and (name, section, value), or a PE image of (name, bytes, address): the PE/COFF specification, 2.1 to 5."""
    head = b"MZ" + bytes(58) + word(64) + b"PE\0\0" if image else b""
    at = len(head) + 20 + 40 * len(sections)
    table = body = b""
    for name, data, more in sections:
        held = data + bytes(-len(data) % 512) if image else data
        links = b"" if image else b"".join(word(place, symbol) + (2).to_bytes(2, "little") for place, symbol in more)
        table += name.encode().ljust(8, b"\0") + word(len(data) if image else 0, more if image else 0, len(held), at + len(body))
        table += word(at + len(body) + len(held), 0) + (0 if image else len(more)).to_bytes(2, "little") + bytes(6)
        body += held + links
    strings, entries = b"", b""
    for name, section, value in symbols:
        entries += name.encode().ljust(8, b"\0") if len(name) <= 8 else word(0, 4 + len(strings))
        strings += name.encode() + b"\0" if len(name) > 8 else b""
        entries += word(value) + section.to_bytes(2, "little") + bytes([0, 0, 2, 0])
    header = (0xaa64).to_bytes(2, "little") + len(sections).to_bytes(2, "little") + word(0, at + len(body), len(symbols)) + bytes(4)
    return head + header + table + body + entries + word(4 + len(strings)) + strings


def arm64():
    # stp x19, x20, [sp, -16]!; stp x29, lr, [sp, -16]!; mov x29, sp, undone 12 bytes before the end (Microsoft, "ARM64 exception handling").
    packed, record = 0x01620029, bytes.fromhex("0a006008e18122e4")
    told = ["stp x19, x20, [sp, -16]!", "stp x29, lr, [sp, -16]!", "mov x29, sp"], ["ldp x29, lr, [sp], 16", "ldp x19, x20, [sp], 16"]
    body = "  prologue\n    " + "\n    ".join(told[0]) + "\n  epilogue at 28\n    " + "\n    ".join(told[1]) + "\n\n"
    assert run("arm64", "--packed", hex(packed))[0] == "00000000 40 bytes, packed, 0x01620029\n" + body
    assert run("arm64", "-", stdin=record + record)[0] == "".join(f"{at:08x} 40 bytes, a record\n" + body for at in (0, 8))
    assert run("arm64", "-", "--place=8", stdin=record + record)[0].startswith("00000008")
    assert "refused with 76" in run("arm64", "-", "--place=12", stdin=record + record, status=1)[1]
    assert "refused with 77" in run("arm64", "--packed=3", status=1)[1]
    assert "a packed fragment, 0x" in run("arm64", "--packed", str(packed + 1))[0]
    run("arm64", "/dev/null", status=1)
    # An object with a packed entry, a record and a record that is not there; an image with the same and its padding.
    symbols = [("f", 1, 0), ("$unwind$g_of_long_name", 3, 8), ("g_of_long_name", 1, 40), ("lost", 0, 0)]
    entries = word(0, packed, 0, 0, 4, 0)
    made = coff([(".text", bytes(80), []), (".pdata", entries, [(0, 0), (8, 2), (12, 1), (16, 2), (20, 3)]), (".xdata", record * 2, [])], symbols)
    text, why = run("arm64", "-", stdin=made, status=1)
    assert text.startswith("00000000 function f, 40 bytes, packed, 0x01620029\n" + body + "00000008 function g_of_long_name, 40 bytes, a record at 0x8\n" + body), text
    assert "00000010 function g_of_long_name+0x4, a record at 0x0: refused with 76" in text and "g_of_long_name+0x4: refused with 76" in why, (text, why)
    assert len(run("arm64", "-", "--section=.xdata", stdin=made)[0].split("a record\n")) == 3
    answer = json.loads(run("arm64", "-", "--json", stdin=made, status=1)[0])["functions"]
    assert [f.get("length") for f in answer] == [40, 40, None] and answer[2]["refused"]["number"] == 76, answer
    assert answer[0]["packed"] == hex(packed) and (answer[1]["place"], answer[1]["symbol"]) == (8, "g_of_long_name"), answer
    for function in answer[:2]:
        assert [c["words"] for c in function["prologue"]] == told[0] and function["epilogues"][0]["start"] == 28, function
        codes = [{key: code[key] for key in code if key != "words"} for code in function["epilogues"][0]["codes"]]
        assert codes == [{"code": "save_fplr_x", "offset": 16}, {"code": "save_r19r20_x", "offset": 16}], function
    made = coff([(".text", bytes(80), 0x1000), (".rdata", bytes(4) + record, 0x2000), (".pdata", word(0x1000, packed, 0x1028, 0x2004), 0x3000)], [], image=True)
    text = run("arm64", "-", stdin=made)[0]
    assert text == "00000000 function 0x1000, 40 bytes, packed, 0x01620029\n" + body + "00000008 function 0x1028, 40 bytes, a record at 0x4\n" + body, text
    assert "another machine" in run("x64", "-", stdin=made, status=1)[1]
    assert "another machine" in run("arm64", "-", stdin=b"\x64\x86" + coff([], [])[2:], status=1)[1]
    # Every kind of code, in words and undone.
    kinds = (
        ("02", "sub sp, sp, 32", "add sp, sp, 32"), ("c0ff", "sub sp, sp, 4080", "add sp, sp, 4080"), ("28", "stp x19, x20, [sp, -64]!", "ldp x19, x20, [sp], 64"),
        ("42", "stp x29, lr, [sp, 16]", "ldp x29, lr, [sp, 16]"), ("83", "stp x29, lr, [sp, -32]!", "ldp x29, lr, [sp], 32"),
        ("c841", "stp x20, x21, [sp, 8]", "ldp x20, x21, [sp, 8]"), ("cc41", "stp x20, x21, [sp, -16]!", "ldp x20, x21, [sp], 16"),
        ("e6", "stp of the next pair, two registers on and 16 bytes up", "ldp of the next pair, two registers on and 16 bytes up"),
        ("d040", "str x20, [sp]", "ldr x20, [sp]"), ("d4e1", "str x26, [sp, -16]!", "ldr x26, [sp], 16"), ("d641", "stp x21, lr, [sp, 8]", "ldp x21, lr, [sp, 8]"),
        ("d841", "stp d9, d10, [sp, 8]", "ldp d9, d10, [sp, 8]"), ("da41", "stp d9, d10, [sp, -16]!", "ldp d9, d10, [sp], 16"),
        ("dc41", "str d9, [sp, 8]", "ldr d9, [sp, 8]"), ("dec1", "str d14, [sp, -16]!", "ldr d14, [sp], 16"), ("e1", "mov x29, sp", "mov sp, x29"),
        ("e201", "add x29, sp, 8", "sub sp, x29, 8"), ("e3", "nop", "nop"), ("fc", "pacibsp", "autibsp"),
    )
    codes = bytes.fromhex("".join(spelled for spelled, *_ in kinds)) + b"\xe4"
    codes += b"\xe3" * (-len(codes) % 4)
    text = run("arm64", "-", stdin=word(100 | 1 << 21 | len(codes) // 4 << 27) + codes)[0]
    lines = [said for _, said, _ in kinds[::-1]], [undone for *_, undone in kinds]
    named = "alloc alloc save_r19r20_x save_fplr save_fplr_x save_regp save_regp_x save_next save_reg save_reg_x save_lrpair save_fregp save_fregp_x save_freg save_freg_x"
    said = json.loads(run("arm64", "-", "--json", stdin=word(100 | 1 << 21 | len(codes) // 4 << 27) + codes)[0])["functions"][0]["epilogues"][0]["codes"]
    assert [code["code"] for code in said] == [*named.split(), "set_fp", "add_fp", "nop", "pac_sign_lr"], said
    assert (said[5]["register"], said[5]["offset"], said[11]["register"], said[0]["size"]) == ("x20", 8, "d9", 32), said
    assert text == "00000000 400 bytes, a record\n  prologue\n    " + "\n    ".join(lines[0]) + "\n  epilogue at 320\n    " + "\n    ".join(lines[1]) + "\n\n", text
    handled = word(10 | 1 << 20 | 1 << 27) + bytes.fromhex("e1e4e3e3") + word(0x1234, 0x5678)
    text, why = run("arm64", "-", stdin=handled, status=1)
    assert "with a handler" in text and "at 0xc: a handler's data" in why, (text, why)
    for cut in range(1, len(made)):
        done = subprocess.run([DEKVOZ, "arm64", "-"], input=made[:cut], capture_output=True)
        assert done.returncode in (0, 1) and (done.returncode == 0 or done.stderr), cut


def proportion():
    """A record of 24 KB of operations is listed without being held up; a pipe that nobody reads ends the command without a word."""
    operations = bytes.fromhex("410e10") * 8000
    fde = bytes.fromhex("1c000000e0ffffff0000010000") + operations
    fde = (len(fde)).to_bytes(4, "little") + fde
    done = subprocess.run([DEKVOZ, "dump", "-"], input=CIE + fde, capture_output=True, timeout=20)
    assert done.stdout.count(b"\n") > 8000
    closed = subprocess.run(f"{DEKVOZ} dump - | head -1", shell=True, input=CIE + fde, capture_output=True)
    assert not closed.stderr, closed.stderr


def recorded(stack, registers):
    """A record file: the stack, the registers, a trailer."""
    trailer = (8 * len(registers)).to_bytes(8, "little") + len(registers).to_bytes(4, "little") + len(stack).to_bytes(4, "little")
    return stack + b"".join(n.to_bytes(8, "little") for n in registers) + trailer


def walk():
    """A recorded fault: the chain and its grounds, every ending, every kind of refusal with its frame, JSON and the page."""
    names = {name: os.path.join(OUT, f"command.{name}") for name in ("fault", "section", "functions", "page")}

    def go(*more, section=CIE + FDE + RESET, stack=(0x2005,), registers=(0,) * 7 + (0x8000,), status=0, machine="x86-64", listed="0x1000 16 leaf\n8192 16 <main>\n", beside={}):
        with open(names["section"], "wb") as file:
            file.write(section)
        with open(names["fault"], "wb") as file:
            file.write(recorded(b"".join(n.to_bytes(8, "little") for n in stack), registers))
        with open(names["functions"], "w") as file:
            file.write(listed)
        lent = ["--functions", names["functions"], "--pc=0x1000", "--stack", "0x8000", f"--machine={machine}"]
        for name, text in beside.items():
            with open(names["fault"] + name, "w") as file:
                file.write(text)
        words = [word for word in lent if not any(word.split("=")[0] == given.split("=")[0] for given in more)]
        return run("walk", names["section"], "--fault", names["fault"], *words, *more, status=status)

    text = go()[0]
    assert "#0  leaf+0\n#1  <main>+5\nThe chain ends with #1: its rules leave the return address undefined" in text, text
    assert "saved at CFA-8: at 0x8000 stands 0x2005\n              by DW_CFA_offset (header, 0x14)" in text, text
    assert "looked up at 0x2004, one byte before" in text and "by DW_CFA_undefined (record, 0x" in text, text
    inside = go("--pc=0x1001", stack=(9, 0x2005))[0]
    assert "CFA        rsp+16 = 0x8000+16 = 0x8010" in inside and "and DW_CFA_def_cfa_offset (record, 0x2a, from offset 1 on)" in inside, inside
    assert "rbp        saved at CFA-16: at 0x8000 stands 0x9" in inside, inside
    # A chain that does not end where its rules say so is not whole.
    for words, more, said in (
        ([], dict(stack=(0x3000,)), "no function holds its return address 0x3000 (looked up at 0x2fff)"),
        ([], dict(stack=(0,)), "it returns to 0"),
        (["--pc=0x3000"], {}, "There is no chain: no function holds the pc 0x3000"),
        ([], dict(stack=(0x1001,) * 80), "cut after 64 frames"),
    ):
        text, why = go(*words, status=1, **more)
        assert said in text and "the chain is not whole" in why, (text, why)
        assert "another module" in text or more.get("stack") in ((0,), (0x1001,) * 80), text
        answer = json.loads(go(*words, "--json", status=1, **more)[0])
        assert not answer["whole"] and ("missing" in answer) == ("cut" not in said), answer
    assert "give the same chain" not in go("--pc=0x3000", status=1)[0]
    for more, number in ((dict(stack=()), 74), (dict(registers=()), 75), (dict(registers=(0,) * 7 + (2**64 - 8,)), 74)):
        said, why = go(status=1, **more)
        assert f"frame #0: refused with {number}" in why and f"Frame #0 is refused with {number}" in said, (said, why)
        assert f"refused    with {number}, asked for " in said and "lists no frame" in said and "The chain is refused" in said, said
        # The frame that was found before the refusal is shown.
        assert said.count("#0  leaf+0") == 1, said
    said, why = go(section=CIE + FDE + RESET[:-4] + bytes.fromhex("0f010000"), status=1)
    assert "frame #1: refused with 66" in why and "the rules at offset 4 of record 1" in said, (said, why)
    assert "73" in go(registers=(0,) * 129, status=1)[1]
    assert "refused with 12" in go("--machine=arm", status=1)[1]
    assert "61" in go(section=CIE + FDE[:-1], status=1)[1]
    answer = json.loads(go("--json")[0])
    assert [(frame["position"], frame["pc"]) for frame in answer["frames"]] == [(0, "0x1000"), (1, "0x2005")] and answer["ending"] == 1, answer
    assert answer["frames"][0]["registers"][0]["by"][0]["in"] == "header" and answer["whole"], answer
    assert json.loads(go("--json", stack=(), status=1)[0])["refused"]["number"] == 74
    tied(go, names["fault"])
    page(go, names["page"])
    with open(names["functions"], "w") as file:
        file.write("0x1000\n")
    assert "a line" in run("walk", names["section"], "--fault", names["fault"], "--pc=1", "--stack=1", "--machine=x86-64", "--functions", names["functions"], status=1)[1]


def tied(go, fault):
    """A list of functions that is not the table's; a record that is not the program's."""
    for listed, why in (
        ("0x1000 16\n", "lists 1 functions, and the table has 2 records"),
        ("0x1000 16\n8192 16\n1 1\n", "lists 3 functions"),
        ("0x1000 16\n8192 17\n", "function 1 has 17 bytes, and its record says 16"),
        ("0x1000 15\n8192 16\n", "function 0 has 15 bytes"),
    ):
        assert why in go(listed=listed, status=1)[1], listed
    placed = CIE + FDE[:8] + (0x1000 - 0x8000 - 0x20).to_bytes(4, "little", signed=True) + FDE[12:] + RESET[:8] + (0x2000 - 0x8000 - 0x38).to_bytes(4, "little", signed=True) + RESET[12:]
    assert "#1  <main>+5" in go("--base=0x8000", section=placed)[0]
    assert "function 0 starts at 0x1000, and its record says 0xff0" in go("--base=0x7ff0", section=placed, status=1)[1]
    assert "build id not compared: nothing says" in go()[0]
    assert json.loads(go("--json")[0])["fault"]["build_id_compared"] is False
    assert "0a1b of the record not compared" in go("--build-id=0A1B")[0]
    assert "hexadecimal" in go("--build-id=xyz", status=1)[1]
    beside = {".build-id": "0a1b\n"}
    try:
        assert "0a1b of the record not compared: the file has no" in go(beside=beside)[0]
        assert json.loads(go("--json")[0])["fault"]["build_id"] == "0a1b"
    finally:
        os.remove(fault + ".build-id")
    program = OBJECT + ".tied"
    with open(program + ".c", "w") as file:
        file.write("int f(int n) { return n + 1; }")
    if subprocess.run(["gcc", "-O2", "-shared", "-nostdlib", "-Wl,--build-id=0x0a1b2c", "-o", program, program + ".c"], capture_output=True).returncode:
        return
    walk = ["walk", program, "--fault", fault, "--pc=1", "--stack=0x8000"]
    assert "build id 0a1b2c, of the record and of the file alike" in run(*walk, "--build-id=0a1b2c", status=1)[0]
    said, why = run(*walk, "--build-id=0a1b2d", status=1)
    assert not said and "recorded of a program with the build id 0a1b2d" in why and "has 0a1b2c" in why, (said, why)
    assert "--load-base, since it can be loaded anywhere" in run(*walk, status=1)[0]
    assert "another --load-base" in run(*walk, "--load-base=0x5000", status=1)[0]
    assert "another machine" in run(*walk, "--machine=aarch64", status=1)[1]


def page(go, path):
    """The page: one file, well-formed, nothing loaded, every link inside it to a place that is there."""
    # Records of 80 to 240 bytes: every way in which a digest's last block is filled.
    lengths = [dict(registers=(0,) * 7 + (0x8000,) + (1,) * n) for n in range(16)]
    open_ended = dict(stack=(0x1001,) * 80, status=1), dict(stack=(0,) * 200, status=1), dict(stack=(0x3000,), status=1)
    for more in ({}, *lengths, dict(stack=(), status=1), *open_ended):
        go("--html", path, **more)
        with open(path) as file:
            text = file.read()
        # Green only where the rules say that the chain ends, red on a refusal.
        colour = "open" if more in open_ended else "bad" if "status" in more else "good"
        assert re.findall(r'class="result (\w+)"', text) == [colour], (more, colour)
        assert "&lt;main&gt;" in text or more, text
        with open(os.path.join(OUT, "command.fault"), "rb") as file:
            assert hashlib.sha256(file.read()).hexdigest() in text, "the page names another record"
        assert not re.search(r"<script|src=|https?:|@import|url\(", text), "the page loads something"
        places, links = re.findall(r'id="([^"]+)"', text), set(re.findall(r'href="#([^"]+)"', text))
        assert len(places) == len(set(places)) and links <= set(places), (links - set(places), len(places))
        tags = [tag for tag in re.findall(r"<(/?[a-z0-9]+)", text) if tag.strip("/") not in ("meta",)]
        open_tags = []
        for tag in tags:
            if tag.startswith("/"):
                assert open_tags.pop() == tag[1:], tag
            else:
                open_tags.append(tag)
        assert not open_tags, open_tags
    go("--html", path, "--pc=0x3000", status=1)
    with open(path) as file:
        text = file.read()
    assert 'class="result open"' in text and "No chain" in text and "another module" in text, text
    assert "No such file" in go("--html", "/nonexistent/page", status=1)[1]


def example():
    path = os.path.join(OUT, "command.page")
    text = run("example", "--html", path)[0]
    with open(path) as file:
        assert "#4 reset+20" in file.read()
    assert text == run("example")[0]
    chain = re.findall(r"^#\d (\w+)\+(\d+), (?:pc|return address) 0x[0-9a-f]+\n.*looked up at ([^;]*);", text, re.M)
    assert [name for name, *_ in chain] == ["report", "vector", "sample", "control", "reset"], chain
    assert ["one byte before" in asked for *_, asked in chain] == [False, True, False, True, True], chain
    assert "the two differ 0 times" in text and "every record can be read" in text and "landing pad at offset 44" in text
    assert "The chain ends with #4: its rules leave the return address undefined" in text


def completion():
    """Every option and command that the help names is completed, and every one that is completed is the command's."""
    script = os.path.join(ROOT, "cli", "dekvoz.bash")

    def completed(*words):
        asked = f'source {script}; COMP_WORDS=({" ".join(words)}); COMP_CWORD={len(words) - 1}; _dekvoz; printf "%s\\n" "${{COMPREPLY[@]}}"'
        return subprocess.run(["bash", "-c", asked], capture_output=True, text=True).stdout.split()

    text = run("help")[0]
    commands = set(re.findall(r"^  dekvoz (\w+)", text, re.M))
    assert set(completed("dekvoz", '""')) == commands | {"help", "--help", "--version"}, completed("dekvoz", '""')
    offered = {command: completed("dekvoz", command, "--") for command in commands}
    for command, options in offered.items():
        for option in options:
            why = subprocess.run([DEKVOZ, command, option, "1"], capture_output=True, text=True, cwd=OUT).stderr
            assert f"no option {option}" not in why, (command, option, why)
    named = set(re.findall(r"--[a-z0-9-]+", text)) - {"--help", "--version", "--debug-dump"}
    assert named <= {option for options in offered.values() for option in options}, named
    assert completed("dekvoz", "dump", "--kind", "d") == ["debug"]


def main():
    os.makedirs(OUT, exist_ok=True)
    tests = (usage, completion, files, raw, empty_functions, spellings, debug, relocations, call_sites, x64, arm64, objects, proportion, walk, example)
    for test in tests:
        try:
            test()
        except AssertionError as why:
            sys.exit(f"command: {test.__name__}: {why}")
    print("command: usage, completion, files, raw bytes, functions without a byte, long spellings, debug_frame, relocations, call sites, x64 records, ARM64 unwind data, files of gcc linked and not, a long record, the walk, its build ids and lists, and the example are as they should be")


if __name__ == "__main__":
    main()
