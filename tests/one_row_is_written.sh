#!/usr/bin/env bash
# Puts misuses of lent rows at the end of a copy of the crate `spaces`, outside the gate, some ten seconds for each: two
# rows that one grid lends cannot both be written.
set -u
cd "$(dirname "$0")/.." || exit 1
copy=$(mktemp -d)
trap 'rm -rf "$copy"' EXIT
mkdir "$copy/crates"
grep -E '^(sequence|exact_math|exact_vectors|spaces):' crates.txt >"$copy/crates.txt"
for crate in sequence exact_math exact_vectors spaces; do
    mkdir "$copy/crates/$crate"
    for part in src specs proofs; do
        if [[ -e crates/$crate/$part ]]; then cp -r "crates/$crate/$part" "$copy/crates/$crate/"; fi
    done
done

# refuses CODE MESSAGE
refuses() {
    cp crates/spaces/src/grid.rt "$copy/crates/spaces/src/grid.rt"
    printf '%s\n' "$1" >>"$copy/crates/spaces/src/grid.rt"
    said=$(cd "$copy/crates/spaces" && rt check 2>&1)
    if [[ $said != *"$2"* ]]; then
        printf 'not refused:\n%s\n%s\n' "$1" "$said"
        exit 1
    fi
}

refuses 'pub fn both_are_written(grid: &mut Grid<crate::Kernel, i128>)
    requires rows { 1 < grid.old.rows }
    requires items { 0 < grid.old.width }
{
    let first = grid.row_mut(0);
    let second = grid.row_mut(1);
    first[0] = 1;
    second[0] = 1;
}' 'error[borrow-e0499]: cannot borrow `*grid` as mutable more than once at a time'

refuses 'pub fn row_to_read_is_written(grid: &mut Grid<crate::Kernel, i128>)
    requires rows { 1 < grid.old.rows }
    requires items { 0 < grid.old.width }
{
    let (read, write) = grid.two_rows(0, 1);
    write[0] = 1;
    read[0] = 1;
}' 'error[write-to-immutable]: cannot assign to `read[_]`'
echo "two misuses do not compile"
