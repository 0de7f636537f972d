#!/usr/bin/env python3
"""What `dekvoz walk` tells of each frame against judges/walk.py: every word that was read, every value, and the operation that gives each rule.

    walk_command.py COUNT SEED     COUNT made chains (walk.py), and a damaged copy of each

The judge notes which operation stated a rule while it reads, and what it loads while it walks. Damage that the command refuses by itself,
before it walks, is passed over."""

import collections
import json
import os
import random
import subprocess
import sys

sys.path.insert(0, os.path.dirname(os.path.dirname(os.path.abspath(__file__))))

from checks import walk as judged  # noqa: E402
from common import DEKVOZ, OUT  # noqa: E402
from judges import walk as walker  # noqa: E402
from judges.reader import DEBUG, Refused  # noqa: E402

NAMES = {"fault", "section", "functions", "relocations"}


class Noted(walker.AllRules):
    """Where the operation stands that stated each rule, the frame address's register and its offset: distances from the entry's end."""

    def __init__(self, p):
        super().__init__(p)
        self.by, self.initial_by, self.kept, self.at = {}, None, [], None

    def operation(self, b, header):
        if self.initial_by is None and not header:
            self.initial_by = self.by
        code = b.data[b.at]
        self.at = ("header" if header else "record", len(b.data) - b.at)
        stated = super().operation(b, header)
        if code == 0x0A:
            self.kept.append(self.by)
        elif code == 0x0B:
            self.by = self.kept.pop()
        elif code in (0x0C, 0x12):
            self.by = {**self.by, "register": self.at, "offset": self.at}
        elif code == 0x0D:
            self.by = {**self.by, "register": self.at}
        elif code in (0x0E, 0x13):
            self.by = {**self.by, "offset": self.at}
        elif code == 0x06 or code & 0xC0 == 0xC0:
            register = next(reversed(self.rule))
            self.by = {**self.by, register: self.initial_by.get(register, self.at)}
        return stated

    def set_rule(self, register, rule):
        # The register that was stated last stands last.
        self.rule = {**{n: kept for n, kept in self.rule.items() if n != register}, register: rule}
        self.by = {**self.by, register: self.at}


class Told(walker.Walker):
    """A walk that notes, for each frame, what was loaded and by which operations."""

    def __init__(self, case):
        self.frames = []
        super().__init__(case, self.note)
        self.section.rules = self.rules

    def rules(self, k, p):
        first, size, rest, signal = self.section.record(k)
        if p >= size:
            raise Refused(65)
        rules = Noted(p)
        rules.operations(first, True)
        rules.initial, rules.initial_by = rules.rule, rules.by
        rules.operations(rest, False)
        self.frames.append((rules, {}))
        return rules, signal

    def note(self, _, register, place):
        self.frames[-1][1][register] = (self.case.stack + place, walker.little(self.stack[place : place + 8]))


def ends(section):
    """Where each entry ends."""
    return {at + 4 + len(body) for at, body in walker.entries(section)}


def ask(case):
    """The command's answer, or None where it refuses the section."""
    paths = {name: os.path.join(OUT, f"walk_command.{name}") for name in NAMES}
    for name, data in (("fault", case.record), ("section", case.section)):
        with open(paths[name], "wb") as file:
            file.write(data)
    for name, numbers, width in (("functions", case.functions, 2), ("relocations", case.relocations, 5)):
        with open(paths[name], "w") as file:
            file.writelines(judged.numbers(*numbers[i : i + width]) + "\n" for i in range(0, len(numbers) - width + 1, width))
    words = ["walk", paths["section"], "--fault", paths["fault"], "--functions", paths["functions"], "--pc", str(case.pc), "--stack", str(case.stack)]
    words += ["--machine", "x86-64" if case.machine[2] == 7 else "aarch64", "--json"]
    if case.kind == DEBUG:
        words += ["--kind", "debug", "--relocations", paths["relocations"]]
    done = subprocess.run([DEKVOZ, *words], capture_output=True, text=True)
    if "differs" in done.stderr or done.returncode not in (0, 1):
        sys.exit(f"walk_command: {done.stderr}: {case}")
    return json.loads(done.stdout) if done.stdout else None


def compared(case, answer):
    """What is wrong with the answer, or None."""
    number, frames, ending = walker.walk(case)
    if answer.get("refused", {}).get("number", 0) != number or answer.get("ending", 0) != ending:
        return f"{number}, {ending} is expected"
    told = Told(case)
    try:
        told.chain([])
    except Refused:
        pass
    for said, (rules, loaded) in zip(answer["frames"], told.frames, strict=False):
        slots = {r["rule"]["register"]: (int(r["slot"], 16), int(r["value"], 16)) for r in said["registers"] if "slot" in r}
        if number == 0 and slots != loaded:
            return f"{loaded} is read, the command says {slots}"
        for register in said["registers"]:
            first = register["by"][0]
            if not stands(case, rules.by[register["rule"]["register"]], first):
                return f"{register} is stated by {rules.by[register['rule']['register']]}"
        grounds = [ground for ground in said.get("frame_by", []) if ground["operation"] != "DW_CFA_restore_state"]
        wanted = [rules.by[part] for part in ("register", "offset") if part in rules.by] if "frame_by" in said else []
        if any(not any(stands(case, want, ground) for ground in grounds) for want in wanted):
            return f"the frame address is stated by {wanted}, the command says {grounds}"
    if number == 0 and [(said["position"], int(said["pc"], 16)) for said in answer["frames"]] != frames:
        return f"the chain is {frames}"
    return None


def stands(case, want, ground):
    """Whether the operation that stands so far before an entry's end is the one that the command names."""
    return ground["in"] == want[0] and ground["place"] + want[1] in ends(case.section)


def main():
    if not os.path.exists(DEKVOZ):
        print("walk_command: passed over, since the command isn't built")
        return
    counts, rng, facts = collections.Counter(), random.Random(f"walk_command {sys.argv[2]}"), 0
    for _ in range(int(sys.argv[1])):
        made = judged.made(rng)
        for case in (made, rng.choice(list(judged.damaged(made, rng))[:9])):
            answer = ask(case)
            if answer is None:
                counts["passed over"] += 1
                continue
            wrong = compared(case, answer)
            if wrong:
                sys.exit(f"walk_command: {wrong}: {case}\n  {json.dumps(answer)}")
            counts[f"{answer['refused']['number']}" if "refused" in answer else f"ending {answer['ending']}"] += 1
            facts += sum(len(frame["registers"]) for frame in answer["frames"])
    print(f"walk_command: {facts} rules of frames with their words and operations: " + ", ".join(f"{n} {counts[n]}" for n in sorted(counts)))


if __name__ == "__main__":
    main()
