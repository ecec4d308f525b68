#!/bin/sh
# Measures 100 steps of `option` over a tree with a database of 20 MB, each a run of the program, as ratios to `dump-tlpdb` over
# the same tree and to a plain write and sync of the bytes that a step writes, in turn; then the share of one step's time that goes
# to each system call. It wants the proved program, python3 and, for the shares, strace; without them it does nothing.
cd "$(dirname "$0")" || exit 1
program=../crates/texlive/out/texlive
command -v python3 >/dev/null || { echo "skipped: no python3"; exit 0; }
[ -x "$program" ] || { echo "skipped: no proved program; run ./run first"; exit 0; }
folder=$(mktemp -d ./option.XXXXXX) || exit 1
trap 'rm -rf "$folder"' EXIT
mkdir -p "$folder/tree/tlpkg"
python3 database.py 20 >"$folder/tree/tlpkg/texlive.tlpdb"
python3 - "$program" "$folder" <<'PYTHON'
import os, statistics, subprocess, sys, time
program, folder = sys.argv[1:]
root = folder + "/tree"

def run(*words):
    start = time.perf_counter()
    done = subprocess.run([program, root, *words], stdout=open(folder + "/out", "wb"), stderr=subprocess.PIPE)
    assert done.returncode == 0, done.stderr
    return time.perf_counter() - start

def plain(size):
    bytes = b"x" * size
    start = time.perf_counter()
    for name in ("body", "database"):
        with open(folder + "/" + name, "wb") as out:
            out.write(bytes)
            out.flush()
            os.fsync(out.fileno())
    elapsed = time.perf_counter() - start
    return elapsed

size = os.path.getsize(root + "/tlpkg/texlive.tlpdb")
steps, dumps, writes = [], [], []
for number in range(100):
    steps.append(run("option", "autobackup", str(number)))
    if number % 10 == 0:
        dumps.append(run("dump-tlpdb", "--local"))
        writes.append(plain(size))
step, dump, write = (statistics.median(each) for each in (steps, dumps, writes))
print(f"a step: {step * 1000:.0f} ms; a step / dump-tlpdb = {step / dump:.2f};"
      f" a step / two plain writes and syncs of {size / 1e6:.0f} MB = {step / write:.2f}")
PYTHON
if command -v strace >/dev/null; then
    strace -c -w -f "$program" "$folder/tree" option autobackup 7 2>&1 >/dev/null | head -12
fi
