#!/usr/bin/env python3
"""Tries the proved program over repositories that are real folders: two of them with pins, one that isn't there, is empty, is a file or can't be
read, a folder or a pipe in a file's place, which counts as none, damaged files, one tag twice, 17 of them, pins and names that no repository has, and a repository
as TeX Live's own tools make it. Whatever is refused is told in one line that names the file, and the trees stay as they were. `check files`
is compared with a plain walk.

usage: repositories.py [DATABASE]   (a database of TeX Live's, as tlpkg/texlive.tlpdb of a repository; it is asked for all its packages)

It wants the proved program (./run builds it); without it it does nothing. Its status is 1 where something else is said.
"""
import hashlib
import os
import random
import shutil
import subprocess
import sys
import tempfile

TOP = os.path.dirname(os.path.dirname(os.path.abspath(__file__)))
PROGRAM = os.environ.get("TEXLIVE", os.path.join(TOP, "crates/texlive/out/texlive"))
DATABASE, DIGEST, PINS = "tlpkg/texlive.tlpdb", "tlpkg/texlive.tlpdb.sha512", "tlpkg/pinning.txt"
FOLDER, PIPE, SHUT = object(), object(), object()
ABC = hashlib.sha512(b"abc").hexdigest()
MAIN = "name foo\ncategory Package\nrevision 9\n\nname foo2\ncategory Package\nrevision 4\n\n"
TUG = "name baz\ncategory Package\nrevision 1\n\nname foo\ncategory Package\nrevision 3\nshortdesc Of the group\n\n"
OWN = f"""name 00texlive.config
category TLCore
revision 60000
depend container_format/xz
depend release/2024

name bar
category Package
revision 15878
shortdesc Sets in a bar
relocated 1
containersize 2004
containerchecksum {ABC}
docfiles size=94
 RELOC/doc/latex/bar/bar.pdf details="Package documentation" language="en"
 RELOC/doc/latex/bar/README details="Readme"
runfiles size=1
 RELOC/tex/latex/bar/bar.sty
catalogue-license lppl

"""


def repository(text, **other):
    digest = hashlib.sha512(text.encode()).hexdigest()
    return {DATABASE: text, DIGEST: f"{digest}  texlive.tlpdb\n", **other}


GOOD = {"T": {}, "M": repository(MAIN), "G": repository(TUG)}
TWO = "-repository=M -repository=tug=G"
PINNED = {**GOOD, "T": {PINS: "tug:foo*\n"}}
NO_TREE = "T is no folder with a TeX Live tree"


def with_tug(files):
    return {**GOOD, "G": files}


# folders and their files, words, status, the beginning of what is said, a part of the sentence (None: nothing is told)
ROWS = [
    (PINNED, f"T {TWO} candidates foo", 0, "main r9\ntug r3 *\n", NO_TREE),
    (PINNED, f"T {TWO} candidates foo2", 0, "main r4 *\n", NO_TREE),
    (PINNED, f"T {TWO} candidates baz", 0, "tug r1\n", NO_TREE),
    (PINNED, f"T {TWO} info foo", 0, "package foo\ncategory Package\nshortdesc Of the group\ninstalled no\ncandidate tug r3\n", NO_TREE),
    (PINNED, f"T {TWO} info", 0, "- foo: Of the group\n- foo2: \n", NO_TREE),
    (PINNED, f"T {TWO} search group", 0, "foo - Of the group\n", NO_TREE),
    ({**GOOD, "T": {PINS: "other:*\nmain:foo\n"}}, f"T {TWO} candidates foo", 0, "main r9 *\ntug r3\n", NO_TREE),
    (GOOD, f"T {TWO} info baz", 1, "tlmgr: UnknownPackage name=baz\n", "no package baz"),
    (GOOD, f"T {TWO} candidates zz", 1, "tlmgr: UnknownPackage name=zz\n", "no package zz"),
    (with_tug(None), f"T {TWO} info", 1, f"tlmgr: Absent repo=tug name={DATABASE}\n", f"the repository tug has no file {DATABASE}; -repository=tug=DIR"),
    (with_tug({}), f"T {TWO} info", 1, f"tlmgr: Absent repo=tug name={DATABASE}\n", f"the repository tug has no file {DATABASE}"),
    (with_tug("a file"), f"T {TWO} info", 1, f"tlmgr: Absent repo=tug name={DATABASE}\n", f"the repository tug has no file {DATABASE}"),
    (with_tug({DATABASE: TUG}), f"T {TWO} info", 1, f"tlmgr: Absent repo=tug name={DIGEST}\n", f"the repository tug has no file {DIGEST}"),
    (with_tug({**repository(TUG), DATABASE: FOLDER}), f"T {TWO} info", 1, f"tlmgr: Absent repo=tug name={DATABASE}\n", f"the repository tug has no file {DATABASE}"),
    (with_tug({**repository(TUG), DIGEST: FOLDER}), f"T {TWO} info", 1, f"tlmgr: Absent repo=tug name={DIGEST}\n", f"the repository tug has no file {DIGEST}"),
    (with_tug({**repository(TUG), DATABASE: PIPE}), f"T {TWO} info", 1, f"tlmgr: Absent repo=tug name={DATABASE}\n", f"the repository tug has no file {DATABASE}"),
    (with_tug({**repository(TUG), DATABASE: SHUT}), f"T {TWO} info", 3, "", f"G/{DATABASE}"),
    (with_tug({**repository(TUG), DIGEST: ABC + "\n"}), f"T {TWO} info", 1, f"tlmgr: RepoDigest repo=tug want={ABC} got=",
     f"{DATABASE} of the repository tug is not the one"),
    (with_tug({**repository(TUG), DIGEST: ABC[1:] + "\n"}), f"T {TWO} info", 1, "tlmgr: BadDigestLine repo=tug\n", f"{DIGEST} of the repository tug"),
    (with_tug({**repository(TUG), DIGEST: ""}), f"T {TWO} info", 1, "tlmgr: BadDigestLine repo=tug\n", f"{DIGEST} of the repository tug"),
    (with_tug(repository("name a\ncolour red\n")), f"T {TWO} info", 1, "tlmgr: RepoDatabase repo=tug line=2 kind=Key\n",
     f"{DATABASE} of the repository tug, line 2: "),
    (with_tug(repository("")), f"T {TWO} candidates foo", 0, "main r9 *\n", NO_TREE),
    ({**GOOD, "T": {PINS: "tug:foo*\nnonsense\n"}}, f"T {TWO} info", 1, "tlmgr: BadPins line=2\n", f"{PINS}, line 2"),
    ({**GOOD, "T": {PINS: FOLDER}}, f"T {TWO} info", 0, "- foo: \n- foo2: \n", NO_TREE),
    ({**GOOD, "T": {DATABASE: "name a\nrevision x\n"}}, f"T {TWO} info", 1, "tlmgr: BadDatabase line=2 kind=Value\n", f"{DATABASE}, line 2: "),
    (GOOD, "T -repository=tug=M -repository=tug=G info", 2, "tlmgr: BadWords at=2 kind=Value\n", "-repository"),
    (GOOD, "T " + " ".join(f"-repository=t{n}=M" for n in range(17)) + " info", 2, "tlmgr: BadWords at=17 kind=", "-repository"),
    (GOOD, "T " + " ".join(f"-repository=t{n}=M" for n in range(16)) + " candidates foo", 0, "t0 r9\nt1 r9\n", NO_TREE),
    (GOOD, "T candidates foo", 2, "tlmgr: BadWords at=3 kind=Repository\n", "-repository"),
    ({"T": {}, "X": repository(OWN)}, "T -repository=X info bar", 0,
     "package bar\ncategory Package\nshortdesc Sets in a bar\ninstalled no\ncandidate main r15878\n", NO_TREE),
    ({"T": {}, "X": repository(OWN)}, "T -repository=X candidates bar", 0, "main r15878 *\n", NO_TREE),
    ({"T": {}, "X": {DATABASE: OWN}}, "T -repository=X info bar", 1, f"tlmgr: Absent repo=main name={DIGEST}\n", f"the repository main has no file {DIGEST}"),
    ({"T": {DATABASE: MAIN, PINS: "tug:a\n"}}, "T pinning remove tug b", 1, "tlmgr: NoPin repo=tug glob=b\n", "tug has no pin b"),
]


def put_file(path, text):
    os.makedirs(os.path.dirname(path), exist_ok=True)
    if text is FOLDER:
        os.mkdir(path)
    elif text is PIPE:
        os.mkfifo(path)
    else:
        with open(path, "w") as out:
            out.write("" if text is SHUT else text)
        if text is SHUT:
            os.chmod(path, 0)


def put(folders):
    for name in ("T", "M", "G", "X"):
        if os.path.isdir(name):
            shutil.rmtree(name)
        elif os.path.exists(name):
            os.remove(name)
    for name, files in folders.items():
        if isinstance(files, str):
            with open(name, "w") as out:
                out.write(files)
        elif files is not None:
            os.mkdir(name)
            for path, text in files.items():
                put_file(os.path.join(name, path), text)


def names_in(root):
    """The regular files below a folder and the links to such, by their names from there."""
    return [os.path.relpath(os.path.join(folder, name), root) for folder, _, files in os.walk(root) for name in files]


def held():
    """What stands in the folders, with each file's bytes where it can be read."""
    found = {}
    for root in ("T", "M", "G", "X"):
        for name in names_in(root):
            path = os.path.join(root, name)
            found[path] = open(path, "rb").read() if os.path.isfile(path) and os.access(path, os.R_OK) else None
    return found


def run(words):
    return subprocess.run([PROGRAM, *words], stdout=subprocess.PIPE, stderr=subprocess.PIPE, timeout=60)


def rows():
    for folders, words, status, said, told in ROWS:
        if os.geteuid() == 0 and any(SHUT in files.values() for files in folders.values() if isinstance(files, dict)):
            continue
        put(folders)
        before = held()
        done = run(words.split(" "))
        found_said, found_told = done.stdout.decode(), done.stderr.decode()
        one_line = found_told.startswith("texlive: ") and found_told.count("\n") == 1 and found_told.endswith("\n")
        if done.returncode != status or not found_said.startswith(said) or told not in found_told or not one_line:
            yield f"{words!r}: status {done.returncode}, said {found_said!r}, told {found_told!r}"
        if held() != before:
            yield f"{words!r}: the folders changed"


def pins():
    """Pins are added and go; nothing else changes."""
    put({"T": {DATABASE: MAIN}})
    for words, wanted in (("add tug foo* bar", "tug:foo*,bar\n"), ("remove tug bar", "tug:foo*\n"), ("remove tug -all", "")):
        done = run(["T", "pinning", *words.split(" ")])
        if done.stdout != b"step 1/1 pinning done\n" or open(f"T/{PINS}").read() != wanted or open(f"T/{DATABASE}").read() != MAIN:
            yield f"pinning {words}: {done}"


def files():
    """`check files` says the files that a plain walk doesn't find: among them names beside folders, links, and links that lead nowhere."""
    chance = random.Random(7)
    listed = {f"texmf-dist/{chance.choice('abc')}/{chance.choice(['x', 'x.y', 'x-y', 'xy'])}/{n}{chance.choice(['', '.sty', '~'])}" for n in range(400)}
    there = sorted(chance.sample(sorted(listed), 300))
    lines = "".join(f" {name}\n" for name in sorted(listed))
    put({"T": {DATABASE: f"name a\ncategory Package\nrevision 1\nrunfiles size=1\n{lines}\n", **{name: "" for name in there}}})
    for at, target in enumerate(("texlive.tlpdb", "nothing", ".")):
        name = there[at]
        os.remove(f"T/{name}")
        os.symlink(os.path.abspath(f"T/tlpkg/{target}"), f"T/{name}")
    wanted = "".join(f"missing a {name}\n" for name in sorted(listed) if not os.path.isfile(f"T/{name}"))
    done = run(["T", "check", "files"])
    if done.stdout.decode() != wanted:
        yield f"check files: {done.returncode}, {sorted(set(done.stdout.decode().split(chr(10))) ^ set(wanted.split(chr(10))))}, {done.stderr}"


def own(database):
    """A database of TeX Live's as a repository: all its packages are said, in the order of their names."""
    with open(database) as text:
        text = text.read()
    put({"T": {}, "X": repository(text)})
    wanted = sorted(line[5:] for line in text.split("\n") if line.startswith("name "))
    done = run(["T", "-repository=X", "info"])
    said = [line[2:].split(":")[0] for line in done.stdout.decode().splitlines()]
    if done.returncode or said != wanted:
        yield f"{database}: status {done.returncode}, {len(said)} of {len(wanted)} packages, {done.stdout[:300]}, {done.stderr}"
    print(f"repositories: {len(wanted)} entries of {database}")


def main():
    if not os.access(PROGRAM, os.X_OK):
        print("repositories: skipped: no proved program")
        return 0
    database = [os.path.abspath(word) for word in sys.argv[1:2]]
    folder = tempfile.mkdtemp()
    try:
        os.chdir(folder)
        found = [*rows(), *pins(), *files(), *(wrong for text in database for wrong in own(text))]
    finally:
        os.chdir(TOP)
        shutil.rmtree(folder)
    for wrong in found:
        print(f"repositories: {wrong}")
    print(f"repositories: {len(ROWS)} rows, {len(found)} faults")
    return 1 if found else 0


sys.exit(main())
