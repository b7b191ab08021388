#!/usr/bin/env bash
# Proves, builds and runs a bench: a program of tools/benches, which the gate doesn't read, since each of its files there ends in
# `.txt`. It is laid out as a crate of a scratch copy. `tools/bench.sh NAME WORDS..`: the words are the program's. With TRY=1 it is run without
# a proof, and the words are those of `rt try`.
set -u
cd "$(dirname "$0")/.." || exit 2
rt=$PWD/tools/rt.py
name=${1:?the name of a bench}
bench=tools/benches/$name
shift
if [ ! -d "$bench" ]; then
    echo "bench: there is no folder $bench" >&2
    exit 2
fi
copy=$(mktemp -d "${TMPDIR:-/tmp}/bench-XXXXXX") || exit 2
trap 'rm -rf "$copy"' EXIT
cp -r crates.txt HANDLES "$copy" && mkdir "$copy/crates" || exit 2
tar -C crates --exclude=out -cf - . | tar -C "$copy/crates" -xf - || exit 2
git -C "$copy" init -q || exit 2
echo "$name: $(cat "$bench/stands_on")" >> "$copy/crates.txt"
(cd "$bench" && find . -name '*.txt') | while read -r file; do
    mkdir -p "$copy/crates/$name/$(dirname "$file")"
    cp "$bench/$file" "$copy/crates/$name/${file%.txt}"
done
cd "$copy/crates/$name" || exit 2
if [ -n "${TRY:-}" ]; then
    rt try "$@"
else
    python3 "$rt" run -- "$@"
fi
