#!/usr/bin/env python3
"""Tries what the proved program says to people: at most one line on standard error beside what is said on standard output, which names what was
wrong, where, and what to do; and that words which don't read, and two programs at once, end as they should.

usage: people.py

It wants the proved program (./run builds it); without it it does nothing. Its status is 1 where something else is said.
"""
import fcntl
import os
import shutil
import subprocess
import sys
import tempfile

TOP = os.path.dirname(os.path.dirname(os.path.abspath(__file__)))
PROGRAM = os.environ.get("TEXLIVE", os.path.join(TOP, "crates/texlive/out/texlive"))
DATABASE = "tlpkg/texlive.tlpdb"
GOOD = "name a\ncategory Package\nrevision 7\n\n"

# files of the folder T, words, status, the beginning of what is said, the sentence or a part of it (None: nothing is told)
ROWS = [
    ({}, "", 2, "tlmgr: BadWords at=0 kind=Root", "no tree is named: texlive TREE ACTION"),
    ({}, "option autobackup 1", 2, "tlmgr: BadWords at=1 kind=Action",
     "texlive: option is no folder with a TeX Live tree; the tree comes first: texlive TREE option autobackup 1\n"),
    ({}, "T", 2, "tlmgr: BadWords at=1 kind=Action", "no action is given"),
    ({}, "T optoin", 2, "tlmgr: BadWords at=1 kind=Action", "optoin is no action; texlive --help lists the actions"),
    ({}, "T generate-master 3", 2, "tlmgr: BadWords at=1 kind=Action", "generate-master is an action that this program does not have yet"),
    ({}, "T dump-tlpdb", 2, "tlmgr: BadWords at=2 kind=Option", "dump-tlpdb needs an option that is not given; texlive --help dump-tlpdb"),
    ({}, "T check all -colour", 2, "tlmgr: BadWords at=3 kind=Option", "-colour is no option that goes with check"),
    ({}, "T check nothing", 2, "tlmgr: BadWords at=2 kind=Operand", "nothing is nothing that check takes there"),
    ({}, "T check", 2, "tlmgr: BadWords at=2 kind=Operand", "check takes more words"),
    ({}, "T check all -workers", 2, "tlmgr: BadWords at=4 kind=Value", "an option lacks its value"),
    ({}, "T check all -workers=99", 2, "tlmgr: BadWords at=3 kind=Number", "-workers takes 1 to 64"),
    ({}, "T option a,b", 2, "tlmgr: BadWords at=2 kind=Name", "a,b is not how a package is named"),
    ({}, "missing which -colour", 2, "tlmgr: BadWords at=2 kind=Option", "-colour is no option"),
    ({DATABASE: GOOD}, "T dump-tlpdb -local", 0, GOOD, None),
    ({}, "T dump-tlpdb -local", 0, "", "T is no folder with a TeX Live tree, since it has no file tlpkg/texlive.tlpdb"),
    ({}, "T option autobackup 1", 0, "step 1/1 option autobackup done\n", "T had no TeX Live tree; one was begun there"),
    ({DATABASE: "name a\nrevision x\n"}, "T dump-tlpdb -local", 1, "tlmgr: BadDatabase line=2 kind=Value",
     "texlive: tlpkg/texlive.tlpdb, line 2: revision takes a number\n"),
    ({DATABASE: "name a\ncolour red\n"}, "T check all", 1, "tlmgr: BadDatabase line=2 kind=Key", "line 2: no line of an entry begins like this"),
    ({DATABASE: GOOD, "tlpkg/pinning.txt": "nonsense\n"}, "T pinning show", 1, "tlmgr: BadPins line=1", "tlpkg/pinning.txt, line 1"),
    ({DATABASE: GOOD, "tlpkg/journal/gate": "\1"}, "T option", 1, "tlmgr: BadJournal at=0", "tlpkg/journal holds a change that does not read"),
    ({DATABASE: GOOD}, "T option colour", 1, "tlmgr: UnknownOption", "a tree has no option colour; texlive TREE option lists them"),
    ({DATABASE: GOOD}, "T option autobackup x", 1, "tlmgr: BadValue", "the option autobackup takes no such value"),
    ({DATABASE: GOOD}, "T pinning remove main x", 1, "tlmgr: NoPin", "the repository main has no pin x"),
    ({DATABASE: GOOD}, "T which a.sty", 1, "tlmgr: NoLsr", "texmf-dist/ls-R is not there"),
    ({}, "missing option", 3, "", "cannot open missing/: "),
    ({"file": "x"}, "T/file option", 3, "", "cannot open T/file/: "),
    ({"a\nb/x": ""}, "T/a\nb option", 0, "autobackup 0", "T/a\\nb is no folder with a TeX Live tree"),
    ({}, "--help", 0, "Usage: texlive ROOT ACTION", None),
    ({}, "-h option", 0, "Usage: texlive ROOT ACTION", None),
    ({}, "-help nothing", 2, "tlmgr: BadWords at=1 kind=Action", "nothing is no action"),
    ({}, "-version", 0, "texlive ", None),
]


def put(files):
    shutil.rmtree("T", ignore_errors=True)
    os.mkdir("T")
    for name, text in files.items():
        path = os.path.join("T", name)
        os.makedirs(os.path.dirname(path), exist_ok=True)
        with open(path, "w") as out:
            out.write(text)


def run(words, **how):
    return subprocess.run([PROGRAM, *words], **{"stdout": subprocess.PIPE, "stderr": subprocess.PIPE, **how})


def wrong_in(words, done, status, said, told):
    found_said, found_told = done.stdout.decode(), done.stderr.decode()
    rights = (done.returncode == status, found_said.startswith(said), found_told == "" if told is None else told in found_told,
              told is None or found_told.startswith("texlive: ") and found_told.count("\n") == 1 and found_told.endswith("\n"))
    return [] if all(rights) else [f"{words!r}: status {done.returncode}, said {found_said!r}, told {found_told!r}"]


def rows():
    for files, words, status, said, told in ROWS:
        put(files)
        yield from wrong_in(words, run(words.split(" ") if words else []), status, said, told)


def outputs():
    """A full and a closed standard output: the change was made, and the line says so."""
    for what in ("full", "closed"):
        put({DATABASE: GOOD})
        words = ["T", "option", "autobackup", "1"]
        if what == "full":
            with open("/dev/full", "w") as full:
                done = run(words, stdout=full)
        else:
            done = run(["-c", 'exec "$0" "$@" >&-', PROGRAM, *words], executable="/bin/sh")
        told = done.stderr.decode()
        if done.returncode != 3 or "what was changed in the tree stands" not in told:
            yield f"{what} output: status {done.returncode}, told {told!r}"
        if run(["T", "option", "autobackup"]).stdout != b"autobackup 1\n":
            yield f"{what} output: the change was not made"


def locks():
    """Programs that read share the tree; one that changes it is told what the other one does."""
    put({DATABASE: GOOD})
    held = os.open("T", os.O_RDONLY)
    fcntl.flock(held, fcntl.LOCK_SH)
    yield from wrong_in("shared", run(["T", "option", "autobackup"]), 0, "autobackup 0", None)
    yield from wrong_in("shared", run(["T", "option", "autobackup", "1"]), 3, "", "cannot lock T/: another program reads")
    fcntl.flock(held, fcntl.LOCK_EX)
    yield from wrong_in("alone", run(["T", "option", "autobackup"]), 3, "", "cannot lock T/: another program changes")
    yield from wrong_in("alone", run(["T", "optoin"]), 2, "tlmgr: BadWords", "optoin is no action")
    os.close(held)


def sample():
    """The database of the sample tree, which isn't empty."""
    with open(os.path.join(TOP, "trials/sample.txt")) as text:
        yield from wrong_in("the sample", run([os.path.join(TOP, "examples/tree"), "dump-tlpdb", "-local"]), 0, text.read(), None)


def main():
    if not os.access(PROGRAM, os.X_OK):
        print("people: skipped: no proved program")
        return 0
    folder = tempfile.mkdtemp()
    try:
        os.chdir(folder)
        found = [*rows(), *outputs(), *locks(), *sample()]
    finally:
        os.chdir(TOP)
        shutil.rmtree(folder)
    for wrong in found:
        print(f"people: {wrong}")
    print(f"people: {len(ROWS)} rows, {len(found)} faults")
    return 1 if found else 0


sys.exit(main())
