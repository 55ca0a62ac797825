#!/bin/sh
# Puts every job of tests/vectors.txt to a program and compares the answers.
# Usage: check-vectors.sh PROGRAM
set -eu
here=$(cd "$(dirname "$0")" && pwd)
case "${1:?usage: check-vectors.sh PROGRAM}" in
    */*) program=$1 ;;
    *) program=./$1 ;;
esac
build=$(mktemp -d)
trap 'rm -rf "$build"' EXIT
rustc -O --edition 2021 -o "$build/reference" "$here/reference/main.rs"
"$build/reference" check "$program" < "$here/vectors.txt"
