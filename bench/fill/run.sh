#!/bin/sh
# Counts the instructions of the proved chart and of a hand-written one on the same task.
# Needs rustc and valgrind beside the toolchain.
set -e
here=$(cd "$(dirname "$0")" && pwd)
top=$(cd "$here/../.." && pwd)
work=$(mktemp -d)
trap 'rm -rf "$work"' EXIT
mkdir -p "$work/crates/fill/src"
for crate in lists semiring grammar table entries chart; do
    mkdir "$work/crates/$crate"
    for part in src specs proofs; do
        if [ -d "$top/crates/$crate/$part" ]; then cp -r "$top/crates/$crate/$part" "$work/crates/$crate/"; fi
    done
    grep "^$crate:" "$top/crates.txt" >> "$work/crates.txt"
done
echo 'fill: semiring grammar table entries chart' >> "$work/crates.txt"
cp "$here/main.rt.txt" "$work/crates/fill/src/main.rt"
echo 18446744073709551615 > "$work/crates/fill/stdout"
(cd "$work/crates/fill" && rt run > "$work/said" 2> "$work/log") || { cat "$work/log"; exit 1; }
cmp "$work/said" "$work/crates/fill/stdout"
rustc -O -o "$work/plain" "$here/plain.rs"
count() { valgrind --tool=callgrind --callgrind-out-file=/dev/null "$1" 2>&1 | sed -n 's/.*I *refs: *//p' | tr -d ,; }
proved=$(count "$work/crates/fill/out/fill")
plain=$(count "$work/plain")
echo "proved $proved plain $plain ratio $(awk "BEGIN { printf \"%.2f\", $proved / $plain }")"
