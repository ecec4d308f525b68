#!/usr/bin/env python3
"""Checks the order of what the proved program makes durable, over the log of the system calls of real runs, since no kill can show it:

- before the gate of the journal is written or goes, all else that was written is durable: the bodies and the files, and each name that
  came or went, with the folders above it as far as this program made none of them durable yet;
- before a step's line is said, the gate is durable;
- a run that finds the gate open makes the journal durable as it finds it before it changes anything;
- at the end of a run that ended well all is durable.

What a killed run left undurable stays so for the next one. The runs: a step in a new tree, a step in an old one, a removal of several steps
where the program has it, a program that reads, an open gate at entry, and kills within recovery. At last the check itself is
tried: logs in which a sync has no effect, a line is said early, or the first sync settles nothing must fail it.

usage: order.py [STEP]   (each STEP-th place of a kill; 1 without an argument)

It wants the proved program (./run builds it) and strace; without one of them it does nothing. Its status is 1 where a log is out of order.
"""
import os
import re
import shutil
import subprocess
import sys
import tempfile

TOP = os.path.dirname(os.path.dirname(os.path.abspath(__file__)))
PROGRAM = os.environ.get("TEXLIVE", os.path.join(TOP, "crates/texlive/out/texlive"))
CALLS = ("openat,open,creat,write,pwrite64,writev,fsync,fdatasync,unlink,unlinkat,rename,renameat,renameat2,mkdir,mkdirat,rmdir,"
         "ftruncate,link,symlink")
GATE = "tlpkg/journal/gate"
BODIES = {b"\x01": "tlpkg/journal/body", b"\x02": "tlpkg/journal/body2"}
JOURNAL_FOLDERS = ("tlpkg/journal", "tlpkg", "")
DATABASE = """name a
category Package
revision 7
execute addMap a.map
runfiles size=1
 texmf-dist/tex/a/a.sty

name b
category Package
revision 8
runfiles size=1
 texmf-dist/tex/b/b.sty

"""
CALL = re.compile(r"^\d+ +(\w+)\((.*)\) += (\S+)")
BEGUN = re.compile(r"^(\d+) +(.*) <unfinished \.\.\.>$")
RESUMED = re.compile(r"^(\d+) +<\.\.\. \w+ resumed>(.*)$")
OPEN_FILE = re.compile(r"^(\d+)<(.*?)>(?:, |$)")
TEXT = re.compile(r'"((?:[^"\\]|\\.)*)"')


# ---- the log as events: (kind, name), a name of the tree, or a text that was said

def joined(lines):
    """The lines of a log, those of a call that was interrupted put together."""
    begun = {}
    for line in lines:
        line = line.rstrip("\n")
        start, end = BEGUN.match(line), RESUMED.match(line)
        if start:
            begun[start[1]] = f"{start[1]} {start[2]}"
        elif end and end[1] in begun:
            yield begun.pop(end[1]) + end[2]
        else:
            yield line
    yield from (f"{line}) = ?" for line in begun.values())


def name_in(root, path):
    if path == root or path.rstrip("/") == root:
        return ""
    return path[len(root) + 1:].rstrip("/") if path.startswith(root + "/") else None


def event_of(root, call, words, answer):
    """The event of a call, or None. A call that was cut off may have been made, but for a sync."""
    if answer.startswith("-"):
        return None
    texts = TEXT.findall(words)
    if call in ("fsync", "fdatasync", "write", "pwrite64", "writev", "ftruncate"):
        file = OPEN_FILE.match(words)
        if not file:
            return None
        if file[1] == "1" and call == "write":
            return ("say", texts[0] if texts else "")
        name = name_in(root, file[2].removesuffix(" (deleted)"))
        if name is None or call.endswith("sync") and answer == "?":
            return None
        return ("sync" if call.endswith("sync") else "write", name)
    names = [name_in(root, text) for text in texts]
    if not names or names[0] is None:
        return None
    if call in ("openat", "open", "creat"):
        return ("create", names[0]) if "O_CREAT" in words or call == "creat" else ("write", names[0]) if "O_TRUNC" in words else None
    kinds = {"mkdir": "folder", "mkdirat": "folder", "rmdir": "gone", "unlink": "gone", "unlinkat": "gone"}
    return (kinds.get(call, "other"), names[0])


def events_of(root, log):
    """The events of a log, and beside each its call and how often that was made until then."""
    events, places, counts = [], [], {}
    with open(log, errors="replace") as lines:
        calls = [found.groups() for found in map(CALL.match, joined(lines)) if found]
    for call, words, answer in calls:
        counts[call] = counts.get(call, 0) + 1
        event = event_of(root, call, words, answer)
        if event:
            events.append(event)
            places.append((call, counts[call]))
    return events, places


# ---- what is durable

def folder_of(name):
    return name.rpartition("/")[0]


def folders_above(name):
    while name:
        name = folder_of(name)
        yield name


class Disk:
    """What was written and isn't durable yet: files, and names that came or went, by their folders."""

    def __init__(self):
        self.files, self.names = set(), {}

    def touch(self, name):
        self.names.setdefault(folder_of(name), set()).add(name)

    def went(self, name):
        """A file or an empty folder went: once its going is durable, so is that of what stood below it."""
        self.files.discard(name)
        for folder in [held for held in self.names if held == name or held.startswith(name + "/")]:
            del self.names[folder]

    def open_things(self, but=()):
        names = {name for held in self.names.values() for name in held}
        return sorted((self.files | names) - set(but))


class Run:
    """One run of the program over a disk, and what is wrong with it."""

    def __init__(self, disk, gate):
        self.disk, self.gate, self.wrong = disk, gate, []
        self.synced, self.changed = set(), False

    def change(self, name):
        if not self.changed and self.gate in BODIES:
            self.unsettled(name)
        self.changed = True
        if name == GATE:
            self.expect(f"before the gate changes ({name})", self.disk.open_things([GATE]))

    def unsettled(self, name):
        wanted = {GATE, BODIES[self.gate], *JOURNAL_FOLDERS}
        self.expect(f"the journal as it was found, before {name} changes", sorted(wanted - self.synced))

    def expect(self, when, things):
        if things:
            self.wrong.append(f"not durable {when}: {', '.join(thing or 'the whole folder' for thing in things)}")

    def came(self, name):
        """A name came: an earlier program may have made the folders above it."""
        self.disk.touch(name)
        for folder in folders_above(name):
            if folder and folder_of(folder) not in self.synced:
                self.disk.touch(folder)

    def take(self, kind, name):
        if kind == "say":
            if re.match(r"step .* done\\n$", name):
                self.expect("before a step's line is said", [thing for thing in self.disk.open_things() if thing == GATE])
        elif kind == "sync":
            self.synced.add(name)
            self.disk.files.discard(name)
            self.disk.names.pop(name, None)
        else:
            self.change(name)
            if kind in ("create", "folder"):
                self.came(name)
            elif kind in ("gone", "other"):
                self.disk.touch(name)
            if kind in ("create", "write"):
                self.disk.files.add(name)
            elif kind == "gone":
                self.disk.went(name)

    def over(self, events, ended):
        for event in events:
            self.take(*event)
        if ended:
            self.expect("at the end", self.disk.open_things())
        return self.wrong


# ---- runs of the program

def make(root):
    os.makedirs(os.path.join(root, "tlpkg"))
    with open(os.path.join(root, "tlpkg/texlive.tlpdb"), "w") as out:
        out.write(DATABASE)
    for name in ("a", "b"):
        os.makedirs(os.path.join(root, "texmf-dist/tex", name))
        with open(os.path.join(root, f"texmf-dist/tex/{name}/{name}.sty"), "w") as out:
            out.write("hi\n")


def gate_of(root):
    try:
        with open(os.path.join(root, GATE), "rb") as text:
            return text.read()
    except FileNotFoundError:
        return b""


class Logged:
    """A run of the program with its log."""

    def __init__(self, folder, root, words, inject=None):
        self.gate, log = gate_of(root), os.path.join(folder, "log")
        command = ["strace", "-f", "-qq", "-y", "-s", "200", "-o", log, "-e", f"trace={CALLS}"]
        command += ["-e", f"inject={inject}"] if inject else []
        done = subprocess.run([*command, PROGRAM, root, *words], stdout=subprocess.PIPE, stderr=subprocess.PIPE)
        self.status, self.said, self.told = done.returncode, done.stdout, done.stderr
        self.events, self.places = events_of(root, log)

    def wrong(self, disk):
        return Run(disk, self.gate).over(self.events, self.status == 0)


STEP = ("option", "autobackup", "1")
READ = ("option", "autobackup")


class Trial:
    def __init__(self, folder, each):
        self.folder, self.each, self.wrong, self.count = folder, each, [], 0

    def root(self, name):
        root = os.path.join(self.folder, name)
        shutil.rmtree(root, ignore_errors=True)
        make(root)
        return root

    def run(self, what, disk, root, words, inject=None, status=0):
        one = Logged(self.folder, root, words, inject)
        self.count += 1
        if inject is None and one.status != status:
            self.wrong.append(f"{what}: status {one.status}: {one.told!r}")
        self.wrong += [f"{what}: {wrong}" for wrong in one.wrong(disk)]
        return one

    def whole_runs(self):
        """A step in a new tree, another one in it, a reading program, and several steps."""
        root, disk = self.root("whole"), Disk()
        first = self.run("a step in a new tree", disk, root, STEP)
        self.run("a step in an old tree", disk, root, ("option", "autobackup", "2"))
        quiet = self.run("a program that reads", disk, root, READ)
        if any(kind not in ("say", "sync") for kind, _ in quiet.events):
            self.wrong.append("a program that reads changed something")
        self.several_steps()
        return first

    def several_steps(self):
        root = self.root("several")
        several = Logged(self.folder, root, ("remove", "a", "b"))
        if several.status == 2:
            return
        self.count += 1
        self.wrong += [f"a removal: {wrong}" for wrong in several.wrong(Disk())]

    def open_gates(self, first):
        """Kills from the writing of the gate on, each followed by a whole run; some by a kill within the recovery, and then a whole run."""
        least = next(at for at, event in enumerate(first.events) if event == ("write", GATE))
        found = None
        for call, at in first.places[least::self.each]:
            root, disk = self.root("open"), Disk()
            self.run(f"a kill at {call} {at}", disk, root, STEP, f"{call}:signal=SIGKILL:when={at}")
            if gate_of(root) in BODIES:
                kept = os.path.join(self.folder, "kept")
                shutil.rmtree(kept, ignore_errors=True)
                shutil.copytree(root, kept)
                again = self.run(f"a run after a kill at {call} {at}", disk, root, READ)
                found = found or again
                self.recoveries(f"{call} {at}", kept, again)
            else:
                self.run(f"a run after a kill at {call} {at}", disk, root, READ)
        return found

    def recoveries(self, place, kept, again):
        """Kills within a recovery. What the first run left is taken as durable or not, as the first sync has to settle it."""
        for call, at in again.places[::3]:
            root, disk = os.path.join(self.folder, "again"), Disk()
            shutil.rmtree(root, ignore_errors=True)
            shutil.copytree(kept, root)
            disk.files |= {GATE, BODIES[gate_of(root)]}
            for name in (GATE, BODIES[gate_of(root)], "tlpkg/journal", "tlpkg"):
                disk.touch(name)
            what = f"a kill at {place}, then at {call} {at} of the recovery"
            self.run(what, disk, root, READ, f"{call}:signal=SIGKILL:when={at}")
            self.run(f"a run after {what}", disk, root, READ)


# ---- the check itself is tried

def moved_first(events, which, before):
    """The events with the first one that is like this put before the first that is like that."""
    at = next(at for at, event in enumerate(events) if which(event))
    to = next(to for to, event in enumerate(events) if before(event))
    assert to < at
    return events[:to] + [events[at]] + events[to:at] + events[at + 1:]


def is_label(event):
    return event[0] == "say" and event[1].startswith("step ")


def tries(first, again):
    """Logs that are out of order, each with what is wrong with it."""
    gate_at = next(at for at, event in enumerate(first.events) if event == ("write", GATE))
    changed_at = next(at for at, event in enumerate(again.events) if event[0] not in ("sync", "say"))
    yield "no sync has an effect", first, [event for event in first.events if event[0] != "sync"]
    yield "the step's line is said before the gate's sync", first, moved_first(first.events, is_label, lambda event: event == ("write", GATE))[:]
    yield "the gate is not made durable", first, [event for event in first.events if event != ("sync", GATE)]
    yield "the body is not made durable", first, [event for event in first.events if event != ("sync", "tlpkg/journal/body")]
    yield "the body's folder is not made durable", first, [
        event for at, event in enumerate(first.events) if at > gate_at or event != ("sync", "tlpkg/journal")]
    yield "no applied file is made durable", first, [
        event for event in first.events if event[0] != "sync" or event[1].startswith("tlpkg/journal") or event[1] in JOURNAL_FOLDERS]
    yield "the gate's folder is not made durable after it went", first, first.events[:last_gone(first.events) + 1]
    yield "the first sync settles nothing", again, [
        event for at, event in enumerate(again.events) if at > changed_at or event[0] != "sync"]


def last_gone(events):
    return max(at for at, event in enumerate(events) if event == ("gone", GATE))


def tried(first, again):
    missed = []
    for what, one, events in tries(first, again):
        if not Run(Disk(), one.gate).over(events, True):
            missed.append(f"the check lets through: {what}")
    for one in (first, again):
        assert not Run(Disk(), one.gate).over(one.events, True)
    return missed


def main():
    if not os.access(PROGRAM, os.X_OK) or not shutil.which("strace"):
        print("order: skipped: no proved program, or no strace")
        return 0
    folder = os.path.realpath(tempfile.mkdtemp())
    try:
        trial = Trial(folder, int(sys.argv[1]) if len(sys.argv) > 1 else 1)
        first = trial.whole_runs()
        again = trial.open_gates(first) if not trial.wrong else None
        if not again and not trial.wrong:
            trial.wrong.append("no kill left the gate open")
        elif not trial.wrong:
            trial.wrong += tried(first, again)
    finally:
        shutil.rmtree(folder)
    for wrong in trial.wrong[:20]:
        print(f"order: {wrong}")
    print(f"order: {trial.count} runs, {len(trial.wrong)} faults")
    return 1 if trial.wrong else 0


sys.exit(main())
