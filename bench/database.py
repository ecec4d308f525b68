#!/usr/bin/env python3
"""Writes a package database to standard output.

usage: database.py [MEGABYTES|one|many] [reversed]   (20 without an argument)

MEGABYTES: of the shape of TeX Live's; 8,000 entries, 250,000 file lines and 8,700 doc lines with details at 20 MB; most entries have
10 to 40 lines, some 10,000 lines; 15 platforms. one: one entry with 250,000 files. many: 65,536 entries, each a name and what has to
stand with it. The text is in the canonical form, so that printing it gives the same bytes; reversed, the files and the entries of
one and many stand from the last to the first.
"""
import random
import sys

PLATFORMS = ["aarch64-linux", "amd64-freebsd", "amd64-netbsd", "armhf-linux", "i386-freebsd", "i386-linux", "i386-netbsd",
             "i386-solaris", "universal-darwin", "windows", "x86_64-cygwin", "x86_64-darwinlegacy", "x86_64-linux",
             "x86_64-linuxmusl", "x86_64-solaris"]
WORDS = ("the a of and for with package class font math text table figure index list page style macro support provides"
         " typesetting documents language bibliography graphics environment command option").split()


def words(chance, count):
    return " ".join(chance.choice(WORDS) for _ in range(count))


def paths(chance, folder, name, count, suffixes):
    made = set()
    while len(made) < count:
        made.add(f"{folder}/{name}/{chance.choice(WORDS)}{len(made):05d}{chance.choice(suffixes)}")
    return sorted(made)


def digest(chance):
    return "%0128x" % chance.getrandbits(512)


def entry(chance, number, large, detailed):
    name = f"pkg{number:05d}"
    lines = [f"name {name}", "category Package", f"revision {chance.randrange(1, 75000)}", f"catalogue {name}",
             f"shortdesc {words(chance, 6)}", "relocated 1"]
    lines += [f"longdesc {words(chance, 11)}" for _ in range(chance.randrange(2, 7))]
    if chance.random() < 0.2:
        lines.append(f"depend pkg{chance.randrange(number + 1):05d}")
    if chance.random() < 0.1:
        lines.append(f"execute addMap {name}.map")
    lines += [f"containersize {chance.randrange(1, 10 ** 7)}", f"containerchecksum {digest(chance)}"]
    run = 10000 if large else chance.choice([1, 2, 4, 8, 12, 20, 30])
    docs = paths(chance, "RELOC/doc/latex", name, chance.choice([1, 2, 3, 5]), [".pdf", ".tex", ""])
    lines += [f"doccontainersize {chance.randrange(1, 10 ** 7)}", f"doccontainerchecksum {digest(chance)}",
              f"docfiles size={chance.randrange(1, 1000)}"]
    for index, path in enumerate(docs):
        if index == 0 and detailed:
            lines.append(f' {path} details="{words(chance, 2)}" language="en"')
        else:
            lines.append(f" {path}")
    runs = paths(chance, "RELOC/tex/latex", name, run, [".sty", ".cls", ".def", ".tfm"])
    lines += [f"runfiles size={chance.randrange(1, 1000)}"] + [f" {path}" for path in runs]
    if chance.random() < 0.02:
        for platform in PLATFORMS:
            lines += [f"binfiles arch={platform} size={chance.randrange(1, 100)}", f" bin/{platform}/{name}"]
    lines += [f"catalogue-ctan /macros/latex/contrib/{name}", "catalogue-license lppl1.3"]
    return "\n".join(lines) + "\n\n"


def usual(wanted):
    chance = random.Random(2026)
    written = number = 0
    while written < wanted:
        text = entry(chance, number, number % 1000 == 500, True)
        sys.stdout.write(text)
        written += len(text)
        number += 1


def plain(number, files):
    lines = [f"name pkg{number:05d}", "category Package", "revision 0"]
    if files:
        lines += ["runfiles size=1"] + [f" texmf-dist/tex/pkg/file{file:06d}.sty" for file in files]
    return "\n".join(lines) + "\n\n"


def main():
    shape = sys.argv[1] if len(sys.argv) > 1 else "20"
    step = -1 if "reversed" in sys.argv[2:] else 1
    if shape == "one":
        sys.stdout.write(plain(0, range(250000)[::step]))
    elif shape == "many":
        sys.stdout.writelines(plain(number, []) for number in range(65536)[::step])
    else:
        usual(int(float(shape) * 10 ** 6))


main()
