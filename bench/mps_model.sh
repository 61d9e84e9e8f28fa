#!/usr/bin/env bash
# Prints how many megabytes of a generated model text `mps_model::read` reads in a second: 512 rows, half of them N rows,
# and 256 columns with an entry in each row, about 4 MiB. It builds in a temporary folder.
set -euo pipefail
top=$(cd "$(dirname "$0")/.." && pwd)
work=$(mktemp -d)
trap 'rm -rf "$work"' EXIT

mkdir -p "$work/crates/read_bench/src"
lower="sequence exact_math exact_vectors frac128 mps_fields int_model mps_model"
for crate in $lower; do
    mkdir "$work/crates/$crate"
    for part in src specs proofs; do
        [ ! -d "$top/crates/$crate/$part" ] || cp -r "$top/crates/$crate/$part" "$work/crates/$crate/"
    done
    grep "^$crate:" "$top/crates.txt" >> "$work/crates.txt"
done
echo "read_bench: mps_model int_model" >> "$work/crates.txt"

awk 'BEGIN {
    print "NAME BENCH"; print "ROWS"; print " N COST"
    for (i = 0; i < 256; i++) { printf " L ROW%07d\n", i; if (i > 0) printf " N FREE%06d\n", i }
    print "COLUMNS"; print " M1 \x27MARKER\x27 \x27INTORG\x27"
    for (j = 0; j < 256; j++) for (i = 0; i < 256; i++) {
        printf " COLUMN%07d ROW%07d %d.%d\n", j, i, (i * 7919 + j * 104729) % 1000, (i + j) % 10
        if (i > 0) printf " COLUMN%07d FREE%06d -%d\n", j, i, (i * j) % 100000
    }
    print " M2 \x27MARKER\x27 \x27INTEND\x27"; print "RHS"
    for (i = 0; i < 256; i++) printf " ROW%07d 1000000.5\n", i
    print "BOUNDS"
    for (j = 0; j < 256; j++) printf " UP COLUMN%07d 100\n", j
    print "ENDATA"
}' > "$work/crates/read_bench/model.mps"

cat > "$work/crates/read_bench/src/main.rt" <<'EOF'
#![tactic(auto)]

use mps_model::{Layout, read};
use std::time::Instant;
use std::{fs, io};

const MOST_BYTES: usize = 16_777_216;
const PASSES: u32 = 5;

fn main(rt: HostRuntime) -> io::Result<()> {
    let text = fs::read(&rt, "model.mps")?;
    if text.len() > MOST_BYTES {
        return Ok(());
    }
    let mut least = u128::MAX;
    let mut columns = 0;
    for _ in 0..PASSES {
        let start = Instant::now(&rt)?;
        if let Ok(model) = read(rt.alloc(), Layout::Free, None, &text) {
            columns = model.columns.items().len();
        }
        least = least.min(start.elapsed(&rt)?.as_nanos());
    }
    let bytes = text.len() as u128;
    let tenths = (bytes * 10_000) / least.max(1);
    println!(rt; "mps_model: {bytes} bytes, {columns} columns: {}.{} MB/s", tenths / 10, tenths % 10)?;
    Ok(())
}
EOF

(cd "$work/crates/read_bench" && rt run > "$work/log" 2>&1) || { cat "$work/log"; exit 1; }
grep '^mps_model: ' "$work/log"
