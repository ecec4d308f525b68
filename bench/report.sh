#!/bin/sh
# Measures the commands that read a tree and repositories, over a database of 20 MB that is installed and that a repository has: `info NAME`,
# `info`, `search` and `check depends` against TeX Live's own manager, `check files` over its 250,000 files against a plain walk that looks at
# each (walk.rs), and `check all` over two packages that share their files. All are medians of five runs each, taken in turn, with the memory
# that was held at most. The manager is that of the folder that TEXLIVE names, as /usr/share/texlive of Debian's package texlive-base, run
# as in manager.sh; without one the other figures are still taken. It wants the proved program, rustc, python3 and GNU time; without one of
# them it does nothing.
cd "$(dirname "$0")" || exit 1
program=$(realpath "${PROGRAM:-../crates/texlive/out/texlive}")
for tool in rustc python3 /usr/bin/time; do
    command -v "$tool" >/dev/null || { echo "skipped: no $tool"; exit 0; }
done
[ -x "$program" ] || { echo "skipped: no proved program; run ./run first"; exit 0; }
folder=$(mktemp -d) || exit 1
trap 'rm -rf "$folder"' EXIT
rustc -O -o "$folder/walk" walk.rs || exit 1
mkdir -p "$folder/tree/tlpkg" "$folder/tree/texmf-dist/web2c" "$folder/own/tlpkg" "$folder/bin" "$folder/var/web2c" "$folder/shared/tlpkg"
{
    printf 'name 00texlive.config\ncategory TLCore\nrevision 60000\ndepend container_format/xz\ndepend minrelease/2016\ndepend release/2022\n\n'
    printf 'name 00texlive.installation\ncategory TLCore\nrevision 0\n'
    printf 'depend opt_autobackup:1\ndepend opt_location:%s/own\ndepend setting_available_architectures:x86_64-linux\n\n' "$folder"
    python3 database.py 20
} >"$folder/tree/tlpkg/texlive.tlpdb"
cp "$folder/tree/tlpkg/texlive.tlpdb" "$folder/own/tlpkg/texlive.tlpdb"
(cd "$folder/own/tlpkg" && sha512sum texlive.tlpdb >texlive.tlpdb.sha512)
python3 - "$program" "$folder" "$TEXLIVE" <<'PYTHON'
import os, re, statistics, subprocess, sys, time
program, folder, texlive = sys.argv[1:]
TREE, OWN = folder + "/tree", folder + "/own"
SIZE = os.path.getsize(TREE + "/tlpkg/texlive.tlpdb")


def put_files():
    """Each file that the database lists, without bytes, but for every thousandth."""
    made, count = set(), 0
    with open(TREE + "/tlpkg/texlive.tlpdb") as text:
        for line in text:
            if line.startswith(" "):
                path = os.path.join(TREE, line.split()[0])
                count += 1
                if count % 1000 == 0 or os.path.exists(path):
                    continue
                if os.path.dirname(path) not in made:
                    os.makedirs(os.path.dirname(path), exist_ok=True)
                    made.add(os.path.dirname(path))
                open(path, "wb").close()
    return count


def put_shared():
    """Two packages with the same 125,000 files."""
    lines = "".join(f" texmf-dist/tex/{n // 100}/{n}.sty\n" for n in range(125000))
    with open(folder + "/shared/tlpkg/texlive.tlpdb", "w") as text:
        for name in ("a", "b"):
            text.write(f"name {name}\ncategory Package\nrevision 1\nrunfiles size=1\n{lines}\n")


def manager():
    """The words that start TeX Live's own manager over the tree, or None."""
    if not os.path.exists(texlive + "/texmf-dist/scripts/texlive/tlmgr.pl"):
        return None
    for name in ("TeXLive", "installer"):
        os.symlink(f"{texlive}/tlpkg/{name}", f"{TREE}/tlpkg/{name}")
    with open(folder + "/bin/kpsewhich", "w") as out:
        out.write(f'#!/bin/sh\necho "{folder}/var"\n')
    os.chmod(folder + "/bin/kpsewhich", 0o755)
    with open(texlive + "/texmf-dist/scripts/texlive/tlmgr.pl", encoding="latin-1") as script:
        text = script.read()
    text = re.sub(r'\$Master = "[^"]*";', lambda _: f'$Master = "{TREE}";', text, count=1)
    text = re.sub(r"\n  # automatically switch to user mode on Debian.*?\n  }\n", "\n", text, count=1, flags=re.S)
    with open(folder + "/tlmgr.pl", "w", encoding="latin-1") as copy:
        copy.write(text)
    os.environ["PATH"] = folder + "/bin:" + os.environ["PATH"]
    return ["perl", folder + "/tlmgr.pl", "--verify-repo=none", "--repository", OWN]


def run(words):
    start = time.perf_counter()
    with open(folder + "/out", "wb") as out:
        done = subprocess.run(["/usr/bin/time", "-f", "%M", *words], stdout=out, stderr=subprocess.PIPE)
    return time.perf_counter() - start, int(done.stderr.split()[-1]), done


def measure(what, commands):
    """The median time and the greatest memory of each of some commands, in turn."""
    times, memory = {name: [] for name in commands}, {}
    for _ in range(5):
        for name, words in commands.items():
            elapsed, memory[name], done = run(words)
            if done.returncode:
                print(f"{what}: {name} ended with {done.returncode}: {done.stderr[-300:]}")
            times[name].append(elapsed)
    median = {name: statistics.median(each) for name, each in times.items()}
    parts = [f"{name} {median[name] * 1000:.0f} ms, {memory[name] / 1024:.0f} MB" for name in commands]
    others = [name for name in commands if name != "texlive"]
    parts += [f"{name} / texlive = {median[name] / median['texlive']:.1f}" for name in others]
    print(f"{what}: {'; '.join(parts)}", flush=True)


count = put_files()
put_shared()
words = manager()
print(f"{SIZE / 1e6:.0f} MB, {count} file lines; memory at most 5 times the texts read: {5 * SIZE / 2 ** 20:.0f} MB of one, {10 * SIZE / 2 ** 20:.0f} MB of two")
FROM = f"-repository={OWN}"
for what, own, other in (
    ("info NAME, with a repository", [FROM, "info", "pkg00400"], ["info", "pkg00400"]),
    ("info, with a repository", [FROM, "info"], ["info"]),
    ("search WORD, with a repository", [FROM, "search", "bibliography"], ["search", "--global", "bibliography"]),
    ("search WORD", ["search", "bibliography"], ["search", "bibliography"]),
    ("check depends", ["check", "depends"], ["check", "depends"]),
):
    commands = {"texlive": [program, TREE, *own]}
    if words:
        commands["tlmgr"] = [*words, *other]
    measure(what, commands)
measure("check files", {"texlive": [program, TREE, "check", "files"], "walk": [folder + "/walk", TREE]})
measure("check duplicates", {"texlive": [program, TREE, "check", "duplicates"]})
measure("check all, where two packages share 125,000 files, none of which is there", {"texlive": [program, folder + "/shared", "check", "all"]})
PYTHON
