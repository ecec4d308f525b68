#!/usr/bin/env python3
"""Runs the merge gate and tells its price: for each crate the processor seconds of its proof, its tests and its wrong bodies.

usage: gate.py [--write] [NAME..]

Prints each line of `rt ci NAME..` behind the seconds since the start, then the table, and ends with the gate's status. What
`rt ci` kept from earlier runs costs nothing and is not measured. --write puts the table into docs/gate.md, where what was not
measured keeps its numbers.
"""
import os
import re
import subprocess
import sys
import threading
import time

TOP = os.path.dirname(os.path.dirname(os.path.realpath(__file__)))
PAGE = f"{TOP}/docs/gate.md"
BEGIN, END = "<!-- the table of bench/gate.py -->", "<!-- its end -->"
KINDS = ("proof", "tests", "wrong bodies")
EVERY = 0.5
TICK = os.sysconf("SC_CLK_TCK")


def crates():
    """The names of the crates, as crates.txt lists them."""
    with open(f"{TOP}/crates.txt", encoding="utf-8") as lines:
        rows = [line.partition("#")[0].partition(":")[0].split() for line in lines]
    return [row[0] for row in rows if row]


def processes():
    """The processes that run: by number the parent, the start, and the processor seconds with those of ended children."""
    found = {}
    for name in os.listdir("/proc"):
        if name.isdigit():
            try:
                with open(f"/proc/{name}/stat", encoding="utf-8", errors="replace") as stat:
                    fields = stat.read().rpartition(")")[2].split()
            except OSError:
                continue
            found[int(name)] = int(fields[1]), fields[19], sum(map(int, fields[11:15])) / TICK
    return found


def work_of(process):
    """The crate and the kind of work of a process of the checker, the linker or the tests' runner, or None."""
    try:
        with open(f"/proc/{process}/cmdline", encoding="utf-8", errors="replace") as line:
            words = line.read().split("\0")
        folder = os.readlink(f"/proc/{process}/cwd")
    except OSError:
        return None
    tool = os.path.basename(words[0])
    if tool == "rattle" and "--crate-name" in words:
        crate = words[words.index("--crate-name") + 1]
        edits = os.path.basename(folder).startswith("rt-edit-")
        return crate, "wrong bodies" if edits else "tests" if "--test" in words else "proof"
    if tool == "rattle-link":
        return os.path.basename(folder), "tests" if any(it.endswith("_tests") for it in words) else "proof"
    tests = [it for it in words if it.endswith("_tests")]
    return (os.path.basename(tests[0])[: -len("_tests")], "tests") if tool == "rattle-test" and tests else None


class Meter(threading.Thread):
    """Samples the processes below one, and keeps what each piece of work took until it ended."""

    def __init__(self, root):
        super().__init__(daemon=True)
        self.root, self.ended, self.spent = root, threading.Event(), {}

    def run(self):
        while not self.ended.wait(EVERY):
            self.sample()

    def sample(self):
        found, children = processes(), {}
        for process, (parent, _, _) in found.items():
            children.setdefault(parent, []).append(process)

        def below(process):
            return found[process][2] + sum(map(below, children.get(process, [])))

        waiting = [self.root]
        while waiting:
            for process in children.get(waiting.pop(), []):
                work = work_of(process)
                if work:
                    # A sample that comes between a child's end and its count would be too small.
                    key = process, found[process][1], work
                    self.spent[key] = max(below(process), self.spent.get(key, 0))
                else:
                    waiting.append(process)

    def seconds(self):
        """The seconds by crate and kind."""
        total = {}
        for (_, _, work), seconds in self.spent.items():
            total[work] = total.get(work, 0) + seconds
        return total


class Told:
    """What the gate's lines say of the work that it did: which pieces passed, and which were kept from an earlier run."""

    def __init__(self):
        self.passed, self.kept = set(), set()

    def hear(self, line):
        proof = re.fullmatch(r"rt: (\w+)(: its tests are)? proved", line)
        kept = re.match(r"rt: (\w+) is kept: ", line)
        old = re.match(r"rt: (\w+): \d+ of its \d+ must-fail edits were tried by an earlier run", line)
        edit = re.match(r"rt: must-fail (\w+)/\S+: refused", line)
        if proof:
            self.passed.add((proof[1], "tests" if proof[2] else "proof"))
        if kept:
            self.kept.add((kept[1], "proof"))
        if old:
            self.kept.add((old[1], "wrong bodies"))
        if edit:
            self.passed.add((edit[1], "wrong bodies"))

    def whole(self):
        """The work that this run did from nothing."""
        return self.passed - self.kept


def gate(names):
    """Runs the gate, and returns its status, the measured seconds and what its lines say."""
    begun, told = time.monotonic(), Told()
    with subprocess.Popen(["rt", "ci", *names], cwd=TOP, stdout=subprocess.PIPE, stderr=subprocess.STDOUT, text=True, errors="replace") as run:
        meter = Meter(run.pid)
        meter.start()
        for line in run.stdout:
            print(f"{time.monotonic() - begun:6.0f} {line}", end="", flush=True)
            told.hear(line.rstrip("\n"))
    meter.ended.set()
    meter.join()
    return run.returncode, meter.seconds(), told


def read_table(text):
    """The seconds by crate and kind that a page's table has."""
    found = {}
    for row in re.findall(r"(?m)^\| `(\w+)` \|(.*)\|$", text):
        for kind, cell in zip(KINDS, row[1].split("|")):
            if cell.strip().isdigit():
                found[row[0], kind] = int(cell)
    return found


def table(seconds):
    """The rows for all crates; a dash stands where nothing was measured."""
    def cell(names, kinds):
        known = [seconds[name, kind] for name in names for kind in kinds if (name, kind) in seconds]
        return f"{sum(known):.0f}" if known else "-"

    def row(head, names):
        cells = [cell(names, [kind]) for kind in KINDS] + [cell(names, KINDS)]
        return f"| {head} | {' | '.join(cells)} |"

    head = [f"| crate | {' | '.join(KINDS)} | all |", "|---" * (len(KINDS) + 2) + "|"]
    return "\n".join([*head, *(row(f"`{name}`", [name]) for name in crates()), row("all", crates())])


def has_tests(folder):
    """Whether a file of the crate has a test."""
    for at, _, names in os.walk(f"{folder}/src"):
        for name in names:
            with open(f"{at}/{name}", encoding="utf-8") as file:
                if "#[test]" in file.read():
                    return True
    return False


def stands(work):
    """Whether the crate has such work, so that the page may keep its number."""
    crate, kind = work
    folder = f"{TOP}/crates/{crate}"
    if kind == "tests":
        return has_tests(folder)
    if kind == "wrong bodies":
        edits = f"{folder}/must-fail"
        return os.path.isdir(edits) and any(it.endswith(".edit") for it in os.listdir(edits))
    return crate in crates()


def write(seconds):
    """Puts the table between the page's two lines, with its own numbers where these seconds have none."""
    with open(PAGE, encoding="utf-8") as page:
        text = page.read()
    before, begin, rest = text.partition(BEGIN)
    old, end, after = rest.partition(END)
    if not begin or not end:
        sys.exit(f"{PAGE} lacks the lines {BEGIN} and {END}")
    both = {work: it for work, it in {**read_table(old), **seconds}.items() if stands(work)}
    with open(PAGE, "w", encoding="utf-8") as page:
        page.write(f"{before}{BEGIN}\n{table(both)}\n{END}{after}")


def main(words):
    names = [it for it in words if it != "--write"]
    if any(it.startswith("-") for it in names):
        sys.exit(__doc__.strip())
    status, seconds, told = gate(names)
    measured = {work: it for work, it in seconds.items() if work in told.whole()}
    print(f"\nProcessor seconds of what this run did from nothing:\n\n{table(measured)}")
    if "--write" in words:
        write(measured)
    return status


if __name__ == "__main__":
    sys.exit(main(sys.argv[1:]))
