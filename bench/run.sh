#!/bin/sh
# Compares a program with the plain one on the four large jobs: the answers
# must agree; then the instructions that each takes are counted.
# Usage: run.sh PROGRAM
set -eu
here=$(cd "$(dirname "$0")" && pwd)
case "${1:?usage: run.sh PROGRAM}" in
    */*) program=$1 ;;
    *) program=./$1 ;;
esac
build=$(mktemp -d)
trap 'rm -rf "$build"' EXIT
rustc -O --edition 2021 -o "$build/plain" "$here/plain/main.rs"

# The instructions that a program takes for a job.
instructions() {
    valgrind --tool=callgrind --callgrind-out-file=/dev/null "$1" \
        < "$2" 2> "$build/log" > /dev/null || true
    sed -n 's/.*Collected : *\([0-9]*\).*/\1/p' "$build/log"
}

result=0
printf '%-14s %14s %14s %8s\n' job program plain ratio
for name in entries nonterminals pattern widest; do
    job=$here/jobs/$name.job
    "$program" < "$job" > "$build/program.out" || true
    "$build/plain" < "$job" > "$build/plain.out"
    if ! cmp -s "$build/program.out" "$build/plain.out"; then
        printf '%-14s the answers differ\n' "$name"
        result=1
        continue
    fi
    ours=$(instructions "$program" "$job")
    plain=$(instructions "$build/plain" "$job")
    ratio=$(awk "BEGIN { printf \"%.2f\", $ours / $plain }")
    printf '%-14s %14s %14s %8s\n' "$name" "$ours" "$plain" "$ratio"
done
exit $result
