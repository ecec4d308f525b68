#!/usr/bin/env python3
"""Tries the proved program on a real folder, outside the gate: `option` is killed at each of its system calls, and each of them
fails with EIO and with ENOSPC; after each trial the next run must leave the old tree or the new one whole, the new one where the
step was acknowledged. The same is done to a run that begins with an open gate, whose tree holds a part of the change: after it the
next run must leave the new tree. Programs that read share a tree; a program that changes it is kept out by each, and keeps out each. What
a folder can't take stops a step before it is decided, and what stood there stands afterwards.

usage: real_folder.py [STEP]   (each STEP-th system call; 1 without an argument)

It wants the proved program (./run builds it) and strace; without one of them it does nothing.
"""
import fcntl
import os
import shutil
import subprocess
import sys
import tempfile

TOP = os.path.dirname(os.path.dirname(os.path.abspath(__file__)))
PROGRAM = os.environ.get("TEXLIVE", os.path.join(TOP, "crates/texlive/out/texlive"))
CALLS = ("openat,open,creat,read,pread64,write,pwrite64,close,fsync,fdatasync,unlink,unlinkat,rename,renameat,renameat2,mkdir,mkdirat,rmdir,"
         "stat,lstat,newfstatat,statx,getdents64,flock,ftruncate,fchmod")
DATABASE = """name a
category Package
revision 7
shortdesc An example
execute addMap a.map
runfiles size=1
 texmf-dist/tex/a/a.sty

"""
LABEL = b"step 1/1 option autobackup done\n"


def make(root):
    os.makedirs(os.path.join(root, "tlpkg"))
    os.makedirs(os.path.join(root, "texmf-dist/tex/a"))
    with open(os.path.join(root, "tlpkg/texlive.tlpdb"), "w") as out:
        out.write(DATABASE)
    with open(os.path.join(root, "texmf-dist/tex/a/a.sty"), "w") as out:
        out.write("hi\n")


def tree(root):
    held = {}
    for folder, folders, files in os.walk(root):
        for name in files:
            path = os.path.relpath(os.path.join(folder, name), root)
            if not path.startswith("tlpkg/journal/"):
                with open(os.path.join(root, path), "rb") as text:
                    held[path] = text.read()
    return held


def gate(root):
    try:
        with open(os.path.join(root, "tlpkg/journal/gate"), "rb") as text:
            return text.read()
    except FileNotFoundError:
        return None


def run(root, *words, inject=None):
    command = [PROGRAM, root, *words]
    if inject:
        command = ["strace", "-f", "-qq", "-o", "/dev/null", "-e", f"trace={CALLS}", "-e", f"inject={inject}", *command]
    return subprocess.run(command, stdout=subprocess.PIPE, stderr=subprocess.PIPE)


def calls_of(folder, root, *words, inject=None):
    """How often a run makes each system call, and which files the calls name, in order."""
    log = os.path.join(folder, "log")
    command = ["strace", "-f", "-qq", "-y", "-o", log, "-e", f"trace={CALLS}"]
    command += ["-e", f"inject={inject}"] if inject else []
    done = subprocess.run([*command, PROGRAM, root, *words], stdout=subprocess.PIPE)
    counts, lines = {}, []
    with open(log, errors="replace") as text:
        for line in text:
            call = line.split("(")[0].split()[-1]
            if call in CALLS.split(","):
                counts[call] = counts.get(call, 0) + 1
                lines.append((call, counts[call], line))
    return done, counts, lines


def count_calls(folder):
    root = os.path.join(folder, "count")
    make(root)
    done, counts, _ = calls_of(folder, root, "option", "autobackup", "1")
    assert done.returncode == 0 and done.stdout == LABEL, done
    old = os.path.join(folder, "old")
    make(old)
    return counts, tree(old), tree(root)


def places_of(counts):
    return [(call, at) for call, count in sorted(counts.items()) for at in range(1, count + 1)]


def open_places(folder):
    """The calls of a step that a kill leaves with an open gate: the gate's sync, and the changes after it up to the step's line."""
    root = os.path.join(folder, "places")
    make(root)
    _, _, lines = calls_of(folder, root, "option", "autobackup", "1")
    begun = next(at for at, (call, _, line) in enumerate(lines) if call == "write" and "journal/gate>" in line)
    ended = next(at for at, (call, _, line) in enumerate(lines) if call == "write" and "step 1/1" in line)
    return [(call, at) for call, at, _ in lines[begun + 1:ended + 1] if call in ("fsync", "unlink", "openat", "write")]


def try_recovery(folder, kept, inject, new, kinds):
    """A run over an open gate, stopped or failing, and the run after it."""
    root = os.path.join(folder, "tree")
    shutil.rmtree(root, ignore_errors=True)
    shutil.copytree(kept, root)
    first = run(root, "option", "autobackup", inject=inject)
    again = run(root, "option", "autobackup")
    assert again.returncode == 0 and again.stdout == b"autobackup 1\n", (inject, first, again)
    assert tree(root) == new, (inject, first, sorted(tree(root)))
    assert gate(root) not in (b"\x01", b"\x02"), inject
    kinds[first.returncode] = kinds.get(first.returncode, 0) + 1


def try_recoveries(folder, each, new):
    """Runs that begin with an open gate, at some places of the step before."""
    kept, kinds, gates = os.path.join(folder, "kept"), {}, 0
    for call, at in open_places(folder)[::max(1, each // 2)]:
        shutil.rmtree(kept, ignore_errors=True)
        make(kept)
        run(kept, "option", "autobackup", "1", inject=f"{call}:signal=SIGKILL:when={at}")
        if gate(kept) not in (b"\x01", b"\x02"):
            continue
        gates += 1
        copy = os.path.join(folder, "copy")
        shutil.rmtree(copy, ignore_errors=True)
        shutil.copytree(kept, copy)
        _, counts, _ = calls_of(folder, copy, "option", "autobackup")
        for other, when in places_of(counts)[gates % each::each * 5]:
            for name in ("signal=SIGKILL", "error=EIO", "error=ENOSPC"):
                try_recovery(folder, kept, f"{other}:{name}:when={when}", new, kinds)
    assert gates, "no kill left the gate open"
    print(f"{gates} open gates; stopped or failing within the recovery, then the new tree: {sum(kinds.values())} times, by status {kinds}")


def try_locks(folder, old):
    """Programs that read share a tree, and each keeps out one that changes it."""
    root = os.path.join(folder, "locked")
    make(root)
    held = os.open(root, os.O_RDONLY)
    fcntl.flock(held, fcntl.LOCK_SH)
    reading, changing = run(root, "option", "autobackup"), run(root, "option", "autobackup", "1")
    assert reading.returncode == 0 and reading.stdout == b"autobackup 0\n", reading
    assert changing.returncode == 3 and b"another program reads" in changing.stderr, changing
    fcntl.flock(held, fcntl.LOCK_EX)
    reading = run(root, "option", "autobackup")
    assert reading.returncode == 3 and not reading.stdout and b"another program changes" in reading.stderr, reading
    os.close(held)
    assert tree(root) == old
    print(f"a second program is kept out: {reading.stderr.decode().strip()}")


def things():
    """What may stand at a name where a file is to come, and whether a step then goes on."""
    return {
        "an empty folder": (os.makedirs, True),
        "a folder of empty folders": (lambda path: os.makedirs(os.path.join(path, "x/y")), True),
        "a pipe": (os.mkfifo, False),
        "a folder with a pipe": (lambda path: (os.makedirs(path), os.mkfifo(os.path.join(path, "x"))), False),
        "a folder with a link to nothing": (lambda path: (os.makedirs(path), os.symlink("nowhere", os.path.join(path, "x"))), False),
        "a folder with a name that is no path": (lambda path: (os.makedirs(path), open(os.path.join(path, "a\\b"), "w").close()), False),
        "a link to nothing": (lambda path: os.symlink("nowhere", path), True),
    }


NAMES = ("texmf-dist/web2c/updmap.cfg", "texmf-dist/web2c/fmtutil.cnf", "texmf-var/tex/generic/config/language.dat",
         "texmf-var/tex/generic/config/language.def", "texmf-var/tex/generic/config/language.dat.lua")


def try_things(folder, new):
    """Each thing at each generated name: a step goes on over it, or stops before it is decided and leaves it there."""
    root, outside = os.path.join(folder, "things"), os.path.join(folder, "outside")
    for name in NAMES:
        for what, (put, goes_on) in things().items():
            shutil.rmtree(root, ignore_errors=True)
            make(root)
            path = os.path.join(root, name)
            os.makedirs(os.path.dirname(path))
            put(path)
            done = run(root, "option", "autobackup", "1")
            assert (done.returncode, done.stdout) == ((0, LABEL) if goes_on else (3, b"")), (name, what, done)
            assert goes_on or done.stderr.count(b"\n") == 1, (name, what, done)
            assert tree_but(root, path) == new if goes_on else os.path.lexists(path), (name, what)
            assert gate(root) is None, (name, what)
    for name in ("tlpkg/texlive.tlpdb", *NAMES):
        shutil.rmtree(root, ignore_errors=True)
        make(root)
        path = os.path.join(root, name)
        os.makedirs(os.path.dirname(path), exist_ok=True)
        with open(outside, "w") as text:
            text.write(DATABASE)
        if os.path.exists(path):
            os.remove(path)
        os.symlink(outside, path)
        done = run(root, "option", "autobackup", "1")
        assert done.returncode == 0 and not os.path.islink(path), (name, done)
        with open(outside) as text:
            assert text.read() == DATABASE, name
    print(f"what a folder can't take is found before the step: {len(things())} things at {len(NAMES)} names; no link is written through")


def tree_but(root, path):
    assert os.path.isfile(path), path
    return tree(root)


def try_mode(folder):
    """A file that is replaced hands its mode on."""
    root = os.path.join(folder, "mode")
    make(root)
    path = os.path.join(root, "tlpkg/texlive.tlpdb")
    os.chmod(path, 0o640)
    done = run(root, "option", "autobackup", "1")
    assert done.returncode == 0 and os.stat(path).st_mode & 0o777 == 0o640, (done, oct(os.stat(path).st_mode))
    print("a replaced database keeps its mode")


def try_one(folder, inject, old, new, kinds):
    root = os.path.join(folder, "tree")
    shutil.rmtree(root, ignore_errors=True)
    make(root)
    first = run(root, "option", "autobackup", "1", inject=inject)
    said = first.stdout
    assert LABEL.startswith(said), (inject, said)
    unstarted = first.returncode == 127 and b"shared libraries" in first.stderr
    if "error" in inject and not unstarted:
        assert first.returncode in (0, 3), (inject, first)
        assert first.returncode == 0 or first.stderr.startswith(b"texlive: ") and first.stderr.count(b"\n") == 1, (inject, first)
    again = run(root, "option", "autobackup")
    assert again.returncode == 0, (inject, first, again)
    found = tree(root)
    assert found in (old, new), (inject, first, sorted(found))
    assert said != LABEL or found == new, (inject, first)
    assert again.stdout == (b"autobackup 1\n" if found == new else b"autobackup 0\n"), (inject, again)
    assert gate(root) not in (b"\x01", b"\x02"), inject
    kinds[(first.returncode, found == new)] = kinds.get((first.returncode, found == new), 0) + 1


def main():
    if not os.access(PROGRAM, os.X_OK) or not shutil.which("strace"):
        print("skipped: no proved program, or no strace")
        return
    each = int(sys.argv[1]) if len(sys.argv) > 1 else 1
    folder = tempfile.mkdtemp()
    try:
        counts, old, new = count_calls(folder)
        places = places_of(counts)
        print(f"{len(places)} system calls; {len(old)} files before the step, {len(new)} after it")
        for name in ("signal=SIGKILL", "error=EIO", "error=ENOSPC"):
            kinds = {}
            for call, at in places[::each]:
                try_one(folder, f"{call}:{name}:when={at}", old, new, kinds)
            for (status, is_new), times in sorted(kinds.items()):
                print(f"{name}: status {status}, then the {'new' if is_new else 'old'} tree: {times} times")
        try_recoveries(folder, each, new)
        try_locks(folder, old)
        try_things(folder, new)
        try_mode(folder)
    finally:
        shutil.rmtree(folder)


main()
