#!/usr/bin/env bash
# Prints how many megabytes of a proof text `tree_checker::check` judges in a second, the best of three passes, and how much
# memory it takes: about 100 MB over four columns, a million splits below six others. It builds in a temporary folder.
set -euo pipefail
top=$(cd "$(dirname "$0")/.." && pwd)
work=$(mktemp -d)
trap 'rm -rf "$work"' EXIT

mkdir -p "$work/crates/check_bench/src"
lower="sequence exact_math exact_vectors frac128 spaces whole_rows farkas_rows proof_tree proof_text tree_checker"
for crate in $lower; do
    mkdir "$work/crates/$crate"
    for part in src specs proofs; do
        [ ! -d "$top/crates/$crate/$part" ] || cp -r "$top/crates/$crate/$part" "$work/crates/$crate/"
    done
    grep "^$crate:" "$top/crates.txt" >> "$work/crates.txt"
done
echo "check_bench: tree_checker proof_text whole_rows sequence" >> "$work/crates.txt"

cat > "$work/crates/check_bench/src/main.rt" <<'EOF'
#![tactic(auto)]

use std::alloc::{AllocError, Global};
use std::time::Instant;
use std::{fs, io};
use tree_checker::{Verdict, check};
use whole_rows::{Bounds, DenseRows};

const SPLITS: u32 = 1_000_000;
const PASSES: u32 = 3;

// At most 3 and at least 5 = w + x + y + z, and w - x <= 0 <= w - x, each from 0 to 9.
fn rows_of(alloc: Global) -> Result<Option<DenseRows>, io::Error> {
    let bounds = vec![in alloc; Bounds { low: 0, high: 9 }; 4]?;
    let Ok(mut rows) = DenseRows::new(alloc, bounds) else {
        return Ok(None);
    };
    if rows.columns() != 4 || rows.rows() >= 256 {
        return Ok(None);
    }
    let placed = rows.push_row(&[1, 1, 1, 1], Some(5), Some(3)).is_ok();
    if !placed || rows.columns() != 4 || rows.rows() >= 256 {
        return Ok(None);
    }
    let placed = rows.push_row(&[1, -1, 0, 0], Some(0), Some(0)).is_ok();
    Ok(if placed { Some(rows) } else { None })
}

// Six splits with one slice each, then one with a slice for each of the splits that are repeated, each with two slices.
fn text_of(alloc: Global) -> Result<Vec<u8>, AllocError> {
    let mut text = Vec::from_slice(alloc, b"SLICER 1\nINFEASIBLE\n")?;
    for _ in 0..6 {
        text.extend_from_slice(b"S T 3 1 0:1 2:-1\nB 0:2 1:2 2:3 3:3\nA 0:7 1:7\n")?;
    }
    text.extend_from_slice(b"S P 0 1000000 1:1 3:5\nB 0:2 1:2\nA 0:7 1:7\n")?;
    for _ in 0..SPLITS {
        text.extend_from_slice(b"S T -1 2 0:1 1:-2\nB 0:12 1:12 2:5 3:5\nA 0:7 1:7 2:11 3:11\nE 0:1 1:1 2:4 3:4\nE 0:3 1:3\n")?;
    }
    text.extend_from_slice(b"DONE\n")?;
    Ok(text)
}

// The pages of memory that the program has, as the system tells.
fn print_pages(rt: &HostRuntime) -> io::Result<()> {
    let pages = fs::read_to_string(rt, "/proc/self/statm")?;
    println!(rt; "pages {}", pages.as_str())
}

fn main(rt: HostRuntime) -> io::Result<()> {
    let Some(rows) = rows_of(rt.alloc())? else {
        return Ok(());
    };
    let text = text_of(rt.alloc())?;
    print_pages(&rt)?;
    let mut least = u128::MAX;
    let mut is_accepted = false;
    for _ in 0..PASSES {
        let start = Instant::now(&rt)?;
        is_accepted = matches!(check(rt.alloc(), &rows, &text), Ok(Verdict::Accepted(_)));
        least = least.min(start.elapsed(&rt)?.as_nanos());
    }
    print_pages(&rt)?;
    let bytes = text.len() as u128;
    println!(rt; "check: {bytes} bytes, accepted {is_accepted}, {} MB/s", bytes.saturating_mul(1000) / least.max(1))?;
    Ok(())
}
EOF

(cd "$work/crates/check_bench" && rt run > "$work/log" 2>&1) || { cat "$work/log"; exit 1; }
grep '^check: ' "$work/log"
awk '$1 == "pages" { now = $3; if (before) printf "memory: %d KB more than the text\n", (now - before) * 4; before = now }' "$work/log"

# The same by the time that the processor worked, the making of the text included, for a machine that does other work too.
TIMEFORMAT=%U
seconds=$( { time "$work/crates/check_bench/out/check_bench" > "$work/again"; } 2>&1 )
awk -v seconds="$seconds" '$1 == "check:" { printf "processor: %s s for three passes, %d MB/s\n", seconds, 3 * $2 / seconds / 1000000 }' "$work/again"
