#!/bin/sh
# Measures `dump-tlpdb` over a database of 20 MB against TeX Live's own manager, `tlmgr`, as ratios of the medians of five runs each,
# taken in turn. The manager is that of the folder that TEXLIVE names, as /usr/share/texlive of Debian's package texlive-base. What runs
# is a copy of its script over a tree of the bench's own, without Debian's switch to user mode, and with a stand-in for kpsewhich, which
# costs less than the real one. It wants the proved program, perl, python3 and GNU time; without one of them it does nothing.
cd "$(dirname "$0")" || exit 1
program=../crates/texlive/out/texlive
for tool in perl python3 /usr/bin/time; do
    command -v "$tool" >/dev/null || { echo "skipped: no $tool"; exit 0; }
done
[ -x "$program" ] || { echo "skipped: no proved program; run ./run first"; exit 0; }
[ -f "$TEXLIVE/texmf-dist/scripts/texlive/tlmgr.pl" ] || { echo "skipped: TEXLIVE names no folder with tlmgr"; exit 0; }
folder=$(mktemp -d) || exit 1
trap 'rm -rf "$folder"' EXIT
mkdir -p "$folder/tree/tlpkg" "$folder/tree/texmf-dist/web2c" "$folder/bin" "$folder/var/web2c"
ln -s "$TEXLIVE/tlpkg/TeXLive" "$TEXLIVE/tlpkg/installer" "$folder/tree/tlpkg/"
printf '#!/bin/sh\necho "%s"\n' "$folder/var" >"$folder/bin/kpsewhich"
chmod +x "$folder/bin/kpsewhich"
{
    printf 'name 00texlive.installation\ncategory TLCore\nrevision 0\n'
    printf 'depend opt_autobackup:1\ndepend opt_location:http://localhost/tlnet\n\n'
    python3 database.py 20
} >"$folder/tree/tlpkg/texlive.tlpdb"
python3 - "$program" "$folder" "$TEXLIVE" <<'PYTHON'
import os, re, statistics, subprocess, sys, time
program, folder, texlive = sys.argv[1:]
with open(texlive + "/texmf-dist/scripts/texlive/tlmgr.pl", encoding="latin-1") as script:
    text = script.read()
text = re.sub(r'\$Master = "[^"]*";', lambda _: f'$Master = "{folder}/tree";', text, count=1)
text = re.sub(r"\n  # automatically switch to user mode on Debian.*?\n  }\n", "\n", text, count=1, flags=re.S)
with open(folder + "/tlmgr.pl", "w", encoding="latin-1") as copy:
    copy.write(text)
os.environ["PATH"] = folder + "/bin:" + os.environ["PATH"]
COMMANDS = {
    "texlive": [program, folder + "/tree", "dump-tlpdb", "--local"],
    "tlmgr": ["perl", folder + "/tlmgr.pl", "dump-tlpdb", "--local"],
}


def run(words):
    start = time.perf_counter()
    done = subprocess.run(["/usr/bin/time", "-f", "%M"] + words, stdout=open(folder + "/out", "wb"), stderr=subprocess.PIPE)
    elapsed = time.perf_counter() - start
    assert done.returncode == 0, done.stderr
    assert os.path.getsize(folder + "/out") > 20_000_000
    return elapsed, int(done.stderr.split()[-1])


times = {name: [] for name in COMMANDS}
memory = {}
for _ in range(5):
    for name, words in COMMANDS.items():
        elapsed, memory[name] = run(words)
        times[name].append(elapsed)
own, other = (statistics.median(times[name]) for name in ("texlive", "tlmgr"))
print(f"20 MB: tlmgr / texlive = {other / own:.1f} in time ({other * 1000:.0f} ms, {own * 1000:.0f} ms),"
      f" {memory['tlmgr'] / memory['texlive']:.1f} in memory")
PYTHON
