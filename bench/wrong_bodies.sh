#!/bin/sh
# Tries wrong bodies that the gate doesn't try at each run: those of bench/wrong-bodies/CRATE/, each an edit that the prover must refuse.
# Names of crates as words try theirs alone. It works on a copy of the checkout, which begins with what `rt check` left there in out/: where
# nothing is left, all crates below are proved first.
top=$(CDPATH= cd -- "$(dirname -- "$0")/.." && pwd) || exit 1
[ $# -gt 0 ] || set -- $(ls "$top/bench/wrong-bodies")
copy=$(mktemp -d) || exit 1
trap 'rm -rf "$copy"' EXIT INT TERM HUP
cp "$top/crates.txt" "$top/HANDLES" "$copy/" && mkdir "$copy/crates" || exit 1
(cd "$top" && tar cf - --exclude=must-fail crates) | (cd "$copy" && tar xf -) || exit 1
for crate in "$@"; do
    mkdir -p "$copy/crates/$crate/must-fail" && cp "$top/bench/wrong-bodies/$crate/"*.edit "$copy/crates/$crate/must-fail/" || exit 1
    (cd "$copy/crates/$crate" && rt check) >"$copy/log" 2>&1 || { cat "$copy/log"; exit 1; }
done
cd "$copy" && rt must-fail "$@"
