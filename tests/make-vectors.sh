#!/bin/sh
# Builds the reference and writes tests/vectors.txt: one round of generated
# jobs, each as hex, a tab, and its answer with its lines joined by |.
set -eu
here=$(cd "$(dirname "$0")" && pwd)
build=$(mktemp -d)
trap 'rm -rf "$build"' EXIT
rustc -O --edition 2021 -o "$build/reference" "$here/reference/main.rs"
"$build/reference" make 400 1 > "$build/jobs"
"$build/reference" table < "$build/jobs" > "$build/vectors"
mv "$build/vectors" "$here/vectors.txt"
wc -l -c "$here/vectors.txt"
