#!/bin/sh
# A rule added after sealing must not compile; a second draft must take it.
# Each text is put as a module into a copy of the crate `table` and of the crates below it, and checked.
set -e
here=$(cd "$(dirname "$0")" && pwd)
top=$(cd "$here/../.." && pwd)
work=$(mktemp -d)
trap 'rm -rf "$work"' EXIT
mkdir -p "$work/crates"
for crate in semiring grammar table; do
    mkdir "$work/crates/$crate"
    for part in src specs proofs; do
        if [ -d "$top/crates/$crate/$part" ]; then cp -r "$top/crates/$crate/$part" "$work/crates/$crate/"; fi
    done
    grep "^$crate:" "$top/crates.txt" >> "$work/crates.txt"
done
src="$work/crates/table/src"
rm -f "$src/tests.rt"
grep -v -e 'cfg(test)' -e 'mod tests' "$top/crates/table/src/lib.rt" > "$src/lib.rt"
echo 'pub mod uses;' >> "$src/lib.rt"

cp "$here/second_draft.txt" "$src/uses.rt"
if ! (cd "$work/crates/table" && rt check > "$work/accepted.log" 2>&1); then
    tail -n 20 "$work/accepted.log"
    echo 'refused: a second draft was not accepted'
    exit 1
fi
cp "$here/after_sealing.txt" "$src/uses.rt"
if (cd "$work/crates/table" && rt check > "$work/refused.log" 2>&1); then
    echo 'refused: a rule added after sealing was accepted'
    exit 1
fi
if ! grep -q 'error\[borrow-e0382\]' "$work/refused.log"; then
    tail -n 20 "$work/refused.log"
    echo 'refused: a rule added after sealing was refused for another reason'
    exit 1
fi
echo 'refused: a rule added after sealing does not compile, and a second draft takes it'
