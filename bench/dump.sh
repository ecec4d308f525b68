#!/bin/sh
# Measures `dump-tlpdb` over databases of 2 and 20 MB against a plain Rust program (dump.rs) that reads them into values and writes
# these, as ratios of the medians of five runs each, taken in turn: as the program writes them, which it tells entry by entry, and with
# an empty line in front, so that it takes the same steps as the plain one; then over 250,000 files of one entry and over 65,536
# entries, from the last to the first against in order. Where a folder with the Perl modules of TeX Live's own manager is named, as
# TLPKG=/usr/share/texlive/tlpkg, it reads and writes the 20 MB in turn too. It wants the proved program, rustc, python3 and GNU time;
# without one of them it does nothing.
cd "$(dirname "$0")" || exit 1
program=../crates/texlive/out/texlive
for tool in rustc python3 /usr/bin/time; do
    command -v "$tool" >/dev/null || { echo "skipped: no $tool"; exit 0; }
done
[ -x "$program" ] || { echo "skipped: no proved program; run ./run first"; exit 0; }
folder=$(mktemp -d) || exit 1
trap 'rm -rf "$folder"' EXIT
rustc -O -o "$folder/plain" dump.rs || exit 1
for shape in 2 20 one many "one reversed" "many reversed"; do
    mkdir -p "$folder/$shape/tlpkg" "$folder/$shape/texmf-dist/web2c"
    python3 database.py $shape >"$folder/$shape/tlpkg/texlive.tlpdb"
done
python3 - "$program" "$folder" "$TLPKG" <<'PYTHON'
import os, statistics, subprocess, sys, time
program, folder, modules = sys.argv[1:]
MANAGER = ["perl", "-I" + modules, "-MTeXLive::TLPDB", "-MTeXLive::TLUtils", "-e", "TeXLive::TLPDB->new(root => shift)->writeout"]


def run(words):
    start = time.perf_counter()
    done = subprocess.run(["/usr/bin/time", "-f", "%M"] + words, stdout=open(folder + "/out", "wb"), stderr=subprocess.PIPE)
    elapsed = time.perf_counter() - start
    assert done.returncode == 0, done.stderr
    return elapsed, int(done.stderr.split()[-1])


def dump(root):
    return [program, f"{folder}/{root}", "dump-tlpdb", "--local"]


def medians(commands, check):
    times = {name: [] for name in commands}
    memory = {}
    for _ in range(5):
        for name, words in commands.items():
            elapsed, memory[name] = run(words)
            times[name].append(elapsed)
            if name in check:
                assert open(folder + "/out", "rb").read() == open(check[name], "rb").read(), name
    return {name: statistics.median(each) for name, each in times.items()}, memory


def put_line_in_front(size):
    other = f"{folder}/{size} other"
    os.makedirs(other + "/tlpkg")
    with open(f"{folder}/{size}/tlpkg/texlive.tlpdb", "rb") as text, open(other + "/tlpkg/texlive.tlpdb", "wb") as copy:
        copy.write(b"\n" + text.read())


taken = {}
for size in ("2", "20"):
    text = f"{folder}/{size}/tlpkg/texlive.tlpdb"
    put_line_in_front(size)
    commands = {"texlive": dump(size), "other": dump(f"{size} other"), "plain": [folder + "/plain", f"{folder}/{size}"]}
    if modules and size == "20":
        commands["manager"] = MANAGER + [f"{folder}/{size}"]
    times, memory = medians(commands, {"texlive": text, "other": text, "plain": text})
    taken[size] = times["texlive"]
    length = len(open(text, "rb").read())
    for name, what in (("texlive", "as it is written"), ("other", "behind an empty line")):
        print(f"{size} MB, {what}: texlive / plain = {times[name] / times['plain']:.2f} in time"
              f" ({times[name] * 1000:.0f} ms, {times['plain'] * 1000:.0f} ms),"
              f" memory / text = {memory[name] * 1024 / length:.1f} (plain {memory['plain'] * 1024 / length:.1f})")
    if "manager" in times:
        print(f"{size} MB: TeX Live's own manager / texlive = {times['manager'] / times['texlive']:.1f} in time"
              f" ({times['manager'] * 1000:.0f} ms), {memory['manager'] / memory['texlive']:.1f} in memory")
print(f"20 MB / 2 MB = {taken['20'] / taken['2']:.1f} in time")
for shape, what in (("one", "250,000 files of one entry"), ("many", "65,536 entries")):
    text = f"{folder}/{shape}/tlpkg/texlive.tlpdb"
    times, _ = medians({"sorted": dump(shape), "reversed": dump(f"{shape} reversed")}, {"sorted": text, "reversed": text})
    print(f"{what}: from the last to the first / in order = {times['reversed'] / times['sorted']:.1f} in time"
          f" ({times['reversed'] * 1000:.0f} ms, {times['sorted'] * 1000:.0f} ms)")
PYTHON
