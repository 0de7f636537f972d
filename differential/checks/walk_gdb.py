#!/usr/bin/env python3
"""The library's unwind_walk on real programs: the chain at every instruction against gdb's.

    walk_gdb.py     needs gcc, objcopy and gdb

Programs for x86-64, compiled with a frame pointer and without, call down a recursion of 70 frames, and run into a trap: a signal handler
puts a frame with a signal mark on the stack, as firmware does, and the trapping instruction is the first of its function. gdb steps through
them and tells at each instruction its own chain, the registers and the stack. These are written as a record file; the functions come from
the records of .eh_frame by unwind_function_at. The chain must be gdb's up to the first frame that is not in the program's own code. At some
stops the command, where it is built, is asked too: `dekvoz walk` of the program must name gdb's functions. So it must of a program that is
loaded anywhere, of its core file, and of one for AArch64 under qemu, recorded by examples/gdb/record.py; and refuse the record with another
program."""

import json
import os
import shutil
import subprocess
import sys
import tempfile
import time

sys.path.insert(0, os.path.dirname(os.path.dirname(os.path.abspath(__file__))))

from checks import walk as judged  # noqa: E402
from common import DEKVOZ, ROOT, ask, numbers_of  # noqa: E402
from judges.walk import HELD_BY_NONE, MOST_FRAMES, TOO_MANY, Case, recorded  # noqa: E402

FLAGS = [["-O0"], ["-O2", "-fomit-frame-pointer"], ["-O2", "-fno-omit-frame-pointer"], ["-O1", "-fomit-frame-pointer", "-mno-red-zone"]]
DEPTH, STEPS = 70, 900
BETWEEN = 60

SOURCE = r"""
#define _GNU_SOURCE
#include <signal.h>
#include <ucontext.h>

extern void probe(void);
extern void entered(void);
volatile long sink;

__attribute__((noinline)) long leaf(long a, long b) {
    volatile long kept[4] = {a, b, a + b, a - b};
    return kept[a & 3] + sink;
}

__attribute__((noinline)) long middle(long a, long b, long c) {
    long x = leaf(a, b), y = leaf(b, c), z = leaf(c, a);
    return x * y + z + a * b * c;
}

__attribute__((noinline)) long down(long n) {
    return n ? down(n - 1) + n : leaf(n, 1);
}

__attribute__((noinline)) void report(void) {
    sink = middle(1, 2, 3);
}

__attribute__((noinline)) void begin(void) {
    sink = middle(4, 5, 6);
    probe();
    sink += down(DEPTH);
    sink += 1;
}

/* rip, rbp and rbx 256 bytes below the stack pointer, and on at `entered`, which does as a trap's vector does. */
static void trapped(int signal, siginfo_t *about, void *context) {
    greg_t *r = ((ucontext_t *)context)->uc_mcontext.gregs;
    long *frame = (long *)(r[REG_RSP] - 256);
    (void)signal;
    (void)about;
    frame[0] = r[REG_RIP];
    frame[1] = r[REG_RBP];
    frame[2] = r[REG_RBX];
    r[REG_RSP] = (greg_t)frame;
    r[REG_RIP] = (greg_t)entered;
}

int main(void) {
    struct sigaction action = {0};
    action.sa_sigaction = trapped;
    action.sa_flags = SA_SIGINFO | SA_NODEFER;
    sigaction(SIGILL, &action, 0);
    begin();
    return 0;
}

__asm__(
    ".text\n.globl probe\n.type probe, @function\nprobe:\n.cfi_startproc\nud2\nret\n.cfi_endproc\n.size probe, . - probe\n"
    ".globl entered\n.type entered, @function\nentered:\n.cfi_startproc simple\n.cfi_signal_frame\n"
    ".cfi_def_cfa %rsp, 256\n.cfi_offset %rip, -256\n.cfi_offset %rbp, -248\n.cfi_offset %rbx, -240\n"
    "subq $8, %rsp\n.cfi_def_cfa_offset 264\ncall report\naddq $8, %rsp\n.cfi_def_cfa_offset 256\n"
    "movq 8(%rsp), %rbp\n.cfi_same_value %rbp\nmovq 16(%rsp), %rbx\n.cfi_same_value %rbx\nmovq (%rsp), %rax\n.cfi_register %rip, %rax\n"
    "leaq 256(%rsp), %rsp\n.cfi_def_cfa_offset 0\n.cfi_same_value %rbx\n"
    "addq $2, %rax\njmp *%rax\n.cfi_endproc\n.size entered, . - entered\n");
"""

SCRIPT = """
set pagination off
set confirm off
set backtrace limit 80
handle SIGILL nostop noprint pass
break begin
break *entered
run
python
import json
NAMES = "rax rdx rcx rbx rsi rdi rbp rsp r8 r9 r10 r11 r12 r13 r14 r15 rip".split()
mask = 2**64 - 1
value = lambda name: int(gdb.parse_and_eval("$" + name)) & mask
inferior = gdb.selected_inferior()
top = value("rsp") + 1024
with open({out!r}, "w") as file:
    for _ in range({steps}):
        frame, frames = gdb.newest_frame(), []
        while frame is not None:
            frames.append((frame.pc(), frame.type() == gdb.SIGTRAMP_FRAME, frame.name()))
            frame = frame.older()
        at = value("rsp") - 128
        stack = bytes(inferior.read_memory(at, top - at)).hex()
        file.write(json.dumps([[value(name) for name in NAMES], at, stack, frames]) + "\\n")
        if value("rsp") > top - 1024 + 8:
            break
        gdb.execute("stepi", to_string=True)
end
kill
"""


RECORDING = """
set pagination off
set confirm off
source {recorder}
{before}
dekvoz-record {fault}
python
frame = gdb.newest_frame()
while frame is not None:
    print("frame", frame.name())
    frame = frame.older()
end
{after}
"""


def built(folder, flags):
    source, program = os.path.join(folder, "chain.c"), os.path.join(folder, "chain" + "".join(flags))
    with open(source, "w") as file:
        file.write(SOURCE.replace("DEPTH", str(DEPTH)))
    subprocess.run(["gcc", *flags, "-fno-optimize-sibling-calls", "-fno-ipa-cp", "-fcf-protection=none", "-w", "-o", program, source], check=True)
    return program


def section_of(program, folder):
    """.eh_frame without its terminator, and its address."""
    raw = os.path.join(folder, "eh_frame")
    subprocess.run(["objcopy", "-O", "binary", "--only-section=.eh_frame", program, raw], check=True)
    listed = subprocess.run(["readelf", "-SW", program], capture_output=True, text=True, check=True).stdout
    line = next(line for line in listed.splitlines() if " .eh_frame " in line)
    with open(raw, "rb") as file:
        data = file.read()
    return data[: data.rindex(bytes(4))], int(line.split(".eh_frame")[1].split()[1], 16)


def functions_of(data, address):
    """Start and length of each record's function, by the library's index."""
    room = len(data) // 8 * 2
    section = [f"section {data.hex()}", "relocations "]
    number, count, *places = numbers_of(ask("by_place", [*section, f"index 0 8 {room}"])[0])
    assert number == 0, f"index: {number}"
    asked = [f"function 0 8 {address} {places[2 * k]}" for k in range(count)]
    found = list(map(numbers_of, ask("by_place", [*section, *asked])))
    assert all(number == 0 for number, *_ in found)
    return [n for _, start, length in found for n in (start, length)]


def steps(program, folder):
    out, script = os.path.join(folder, "steps"), os.path.join(folder, "script")
    with open(script, "w") as file:
        file.write(SCRIPT.format(out=out, steps=STEPS))
    done = subprocess.run(["gdb", "-nx", "-batch", "-x", script, program], capture_output=True, text=True, timeout=300)
    if not os.path.exists(out):
        return None
    with open(out) as file:
        found = [json.loads(line) for line in file]
    if len(found) < 50:
        sys.exit(f"walk_gdb: {program}: {len(found)} steps only: {done.stderr[-2000:]}")
    return found


def expected(frames, functions):
    """gdb's chain up to the first frame that no function holds, and the ending."""
    chain, exact = [], True
    placed = list(zip(functions[::2], functions[1::2], strict=True))
    for pc, signal, _ in frames:
        asked = pc if exact else pc - 1
        held = next((k for k, (start, length) in enumerate(placed) if start <= asked < start + length), None)
        if held is None:
            return chain, HELD_BY_NONE
        if len(chain) == MOST_FRAMES:
            return chain, TOO_MANY
        chain.append((held, pc))
        exact = signal
    return chain, HELD_BY_NONE


def named(program, folder, case, names):
    """The command on the program: the names of gdb's frames; those of a signal frame have none."""
    fault = os.path.join(folder, "fault")
    with open(fault, "wb") as file:
        file.write(case.record)
    words = [DEKVOZ, "walk", program, "--fault", fault, "--pc", str(case.pc), "--stack", str(case.stack), "--json"]
    said = asked_of(words[1:])
    found = [frame["function"] for frame in said["frames"]]
    if len(found) != len(names) or any(name is not None and name != own for name, own in zip(names, found, strict=True)):
        sys.exit(f"walk_gdb: {program}: at {case.pc:#x}: gdb names {names}, the command {found}")


def asked_of(words):
    """The command's answer. The status is 0 exactly where the chain is whole."""
    done = subprocess.run([DEKVOZ, *words], capture_output=True, text=True)
    answer = json.loads(done.stdout) if done.stdout else {}
    if done.returncode != (0 if answer.get("whole") else 1):
        sys.exit(f"walk_gdb: {words}: status {done.returncode}: {done.stderr}")
    return answer


def as_people_do(gdb, program, folder, before, after, *more):
    """The command that examples/gdb/record.py prints: it must name gdb's functions up to the first of another module."""
    script, fault = os.path.join(folder, "script"), os.path.join(folder, "fault")
    recorder = os.path.join(ROOT, "examples", "gdb", "record.py")
    with open(script, "w") as file:
        file.write(RECORDING.format(recorder=recorder, fault=fault, before=before, after=after))
    said = subprocess.run([gdb, "-nx", "-batch", "-x", script, program, *more], capture_output=True, text=True, timeout=300).stdout.splitlines()
    line = next(line for line in said if line.startswith("dekvoz walk "))
    answer = asked_of([*line.split()[1:], "--json"])
    names = [line.removeprefix("frame ") for line in said if line.startswith("frame ")]
    found = [frame["function"] for frame in answer["frames"]]
    if found[: len(names)] != names or not answer["fault"]["build_id_compared"]:
        sys.exit(f"walk_gdb: {line}: gdb names {names}, the command {found}: {answer['fault']}")
    return line


def anywhere(folder):
    """A program that is loaded anywhere, recorded as people do it, and its core file; the record with a program that was built anew."""
    program, core = built(folder, ["-O2", "-pie", "-fPIE"]), os.path.join(folder, "core")
    first = as_people_do("gdb", program, folder, "break leaf\nrun", f"generate-core-file {core}\nkill")
    again = as_people_do("gdb", program, folder, "", "", core)
    if first != again:
        sys.exit(f"walk_gdb: {first} stopped, and of its core file {again}")
    os.rename(built(folder, ["-O1", "-pie", "-fPIE"]), program)
    done = subprocess.run([DEKVOZ, *first.split()[1:]], capture_output=True, text=True)
    if done.returncode != 1 or done.stdout or "was recorded of a program with the build id" not in done.stderr:
        sys.exit(f"walk_gdb: a record of another program: {done}")


ELSEWHERE = """
__attribute__((noinline)) long leaf(long a) { volatile long kept[4] = {a, a, a, a}; return kept[a & 3]; }
__attribute__((noinline)) long middle(long a) { return leaf(a) + leaf(a + 1) * a; }
int main(int c, char **v) { return middle(c) + c; }
"""


def elsewhere(folder):
    """A program for AArch64 under qemu: the record is of its registers. Where the reader takes its table, the chain is gdb's."""
    if not all(shutil.which(tool) for tool in ("aarch64-linux-gnu-gcc", "qemu-aarch64", "gdb-multiarch")):
        return False
    source, program, fault = (os.path.join(folder, name) for name in ("elsewhere.c", "elsewhere", "fault"))
    with open(source, "w") as file:
        file.write(ELSEWHERE)
    subprocess.run(["aarch64-linux-gnu-gcc", "-O1", "-static", "-o", program, source], check=True)
    socket = os.path.join(folder, "socket")
    stopped = subprocess.Popen(["qemu-aarch64", "-g", socket, program], stdout=subprocess.DEVNULL, stderr=subprocess.DEVNULL)
    try:
        while not os.path.exists(socket) and stopped.poll() is None:
            time.sleep(0.02)
        script = os.path.join(folder, "script")
        recorder = os.path.join(ROOT, "examples", "gdb", "record.py")
        with open(script, "w") as file:
            after = "python print('sp', int(gdb.parse_and_eval('(long)$sp')), 'pc', int(gdb.parse_and_eval('(long)$pc')), 'lr', int(gdb.parse_and_eval('$x30')))"
            file.write(f"set confirm off\nsource {recorder}\ntarget remote {socket}\nbreak leaf\ncontinue\ndekvoz-record {fault}\n{after}\nkill\n")
        done = subprocess.run(["gdb-multiarch", "-nx", "-batch", "-x", script, program], capture_output=True, text=True, timeout=120)
    finally:
        stopped.kill()
        stopped.wait()
    line = next((line.split() for line in done.stdout.splitlines() if line.startswith("dekvoz walk ")), None)
    if line is None:
        sys.exit(f"walk_gdb: a record of AArch64: {done.stdout} {done.stderr}")
    _, sp, _, pc, _, lr = next(line.split() for line in done.stdout.splitlines() if line.startswith("sp "))
    with open(fault, "rb") as file:
        data = file.read()
    registers = [int.from_bytes(data[at : at + 8], "little") for at in range(len(data) - 16 - 8 * 32, len(data) - 16, 8)]
    options = dict(zip(line[3::2], line[4::2], strict=True))
    if (registers[31], registers[30], int(options["--pc"], 16), int(options["--stack"], 16)) != (int(sp), int(lr), int(pc), int(sp)):
        sys.exit(f"walk_gdb: a record of AArch64: gdb has sp {sp}, lr {lr}, pc {pc}, the record {registers} {options}")
    return True


def main():
    for tool in ("gcc", "objcopy", "gdb", "readelf"):
        if not shutil.which(tool):
            print(f"walk_gdb: the walk of real programs was passed over, since {tool} isn't there")
            return
    stops = signals = longest = asked = 0
    foreign = False
    with tempfile.TemporaryDirectory() as folder:
        for flags in FLAGS:
            program = built(folder, [*flags, "-no-pie"])
            data, address = section_of(program, folder)
            functions = functions_of(data, address)
            found = steps(program, folder)
            if found is None:
                print("walk_gdb: the walk of real programs was passed over, since gdb cannot run programs here")
                return
            cases = [Case(judged.X86_64, recorded(bytes.fromhex(stack), regs), data, [], 0, regs[16], at, functions) for regs, at, stack, _ in found]
            for case, (*_, frames), got in zip(cases, found, map(numbers_of, judged.walked(cases)), strict=True):
                chain, ending = expected(frames, functions)
                want = judged.expected(case, (0, chain, ending))
                if want != got:
                    sys.exit(f"walk_gdb: {' '.join(flags)}: at {case.pc:#x}: gdb's chain is {chain} {ending}, ours is {got[: 3 + 2 * got[1]]}")
                if stops % BETWEEN == 0 and os.path.exists(DEKVOZ):
                    named(program, folder, case, [name for _, _, name in frames[: len(chain)]])
                    asked += 1
                stops += 1
                signals += any(signal for _, signal, _ in frames[: len(chain)])
                longest = max(longest, len(chain))
        if os.path.exists(DEKVOZ):
            anywhere(folder)
            foreign = elsewhere(folder)
    print(f"walk_gdb: {stops} stops of {len(FLAGS)} programs have gdb's chain, up to {longest} frames; {signals} of them through a signal frame; the command names the functions at {asked}{', and AArch64 is recorded' if foreign else ''}")


if __name__ == "__main__":
    main()
