#!/bin/sh
# Builds the reference and writes the four large jobs to bench/jobs.
set -eu
here=$(cd "$(dirname "$0")" && pwd)
build=$(mktemp -d)
trap 'rm -rf "$build"' EXIT
rustc -O --edition 2021 -o "$build/reference" "$here/../tests/reference/main.rs"
mkdir -p "$here/jobs"
for name in entries nonterminals pattern widest; do
    "$build/reference" bench "$name" > "$here/jobs/$name.job"
done
wc -c "$here"/jobs/*.job
