#!/usr/bin/env bash
# Prints what the frame of a market split model takes: 1 to 5 equalities in 10 to 50 columns, by fives, whose factors are below 100
# and whose sides are half their sums, drawn by the generator of Lehmer from the start 1, and from 1 to 5 where 4 equalities have 25
# or 30 columns, or 5 have 30 or 40. For each it prints the milliseconds and whether it was an excuse. It builds in a temporary folder.
set -euo pipefail
top=$(cd "$(dirname "$0")/.." && pwd)
work=$(mktemp -d)
trap 'rm -rf "$work"' EXIT

bench=$work/crates/frame_bench
mkdir -p "$bench"/{src,specs,proofs/{market,row}}
lower="sequence exact_math exact_vectors gram_minors frac128 spaces unimodular_pair lattice_reduce row_lifting reformulate"
for crate in $lower; do
    mkdir "$work/crates/$crate"
    for part in src specs proofs; do
        [ ! -d "$top/crates/$crate/$part" ] || cp -r "$top/crates/$crate/$part" "$work/crates/$crate/"
    done
    grep "^$crate:" "$top/crates.txt" >> "$work/crates.txt"
done
echo "frame_bench: $lower" >> "$work/crates.txt"

cat > "$bench/proofs/market/Invariants.antt" <<'PROOFS'
use Rattle.std.proofs.Common.{◌≡◌, length, All}
use Rattle.reformulate.specs.declared.equality.Equality.{Equality}
use Rattle.frame_bench.proofs.market.Given as goal

abbrev pub invariant-loop-row : goal.invariant-loop-row
invariant-loop-row l = All (λ (equality : Equality). length equality.form ≡ l.columns) l.equalities
PROOFS

cat > "$bench/proofs/row/Invariants.antt" <<'PROOFS'
use Rattle.std.proofs.Common.{◌≡◌, vec_len}
use Rattle.frame_bench.proofs.row.Given as goal

abbrev pub invariant-loop-column : goal.invariant-loop-column
invariant-loop-column l = vec_len l.items ≡ l.column
PROOFS

cat > "$bench/src/main.rt" <<'MAIN'
#![tactic(auto)]

ghost use Rattle.std.specs.List.{All};
ghost use Rattle.std.specs.Prelude.{◌≡◌, ◌≤◌, length, IfOk};

use reformulate::{Equalities, Equality, Frame, FrameExcuse, FrameStop, Framed};
use sequence::NoMemory;
use spaces::Form;
use std::alloc::Global;
use std::io;
use std::time::Instant;

fn next(state: u64) -> u64 {
    state.wrapping_mul(48271) % 2147483647
}

// A row of the market behind this state, and the state behind it.
fn row(alloc: Global, columns: usize, before: u64) -> Result<(Equality, u64), NoMemory>
    ensures { IfOk result (λ drawn. length drawn.0.form ≡ columns) }
{
    let mut items = Vec::with_capacity(alloc, columns)?;
    let mut state = before;
    let mut sum = 0i128;
    for column in 0..columns {
        state = next(state);
        let factor = i128::from(state % 100);
        sum = sum.wrapping_add(factor);
        items.push(factor)?;
    }
    let form = Form::of(items);
    Ok((
        Equality {
            form,
            side: sum / 2,
        },
        state,
    ))
}

// The equalities of a market of so many rows and columns, with the start of its stream.
fn market(
    alloc: Global,
    rows: usize,
    columns: usize,
    start: u64,
) -> Result<Equalities, NoMemory>
    ensures { IfOk result (λ equalities. All (λ equality. length equality.form ≡ columns) equalities) }
{
    let mut equalities = Equalities::new(alloc);
    let mut state = start;
    for _row in 0..rows {
        let (equality, after) = row(alloc, columns, state)?;
        equalities.push(equality)?;
        state = after;
    }
    Ok(equalities)
}

fn answer(framed: Result<Framed, FrameStop>) -> &'static str {
    match framed {
        Ok(Framed::Frame(_frame)) => "a frame",
        Ok(Framed::NoIntegerPoint(_gap)) => "no integer point",
        Err(FrameStop::Excuse(FrameExcuse::Reduce(_excuse))) => "an excuse of the reduction",
        Err(FrameStop::Excuse(FrameExcuse::Product(_steps))) => "an excuse of a product",
        Err(FrameStop::NoMemory) => "no memory",
    }
}

// How many starts a shape has.
fn starts(rows: usize, columns: usize) -> u64
    ensures { result ≤ 5 }
{
    match (rows, columns) {
        (4, 25) | (4, 30) | (5, 30) | (5, 40) => 5,
        _ => 1,
    }
}

// The frame of one market.
fn measure(rt: &HostRuntime, rows: usize, columns: usize, start: u64) -> io::Result<()>
    requires { columns ≤ 256 }
{
    let Ok(equalities) = market(rt.alloc(), rows, columns, start) else {
        return Ok(());
    };
    let clock = Instant::now(rt)?;
    let framed = Frame::of(rt.alloc(), columns, &equalities);
    let milli = clock.elapsed(rt)?.as_nanos() / 1000000;
    let kind = answer(framed);
    println!(rt; "frames: {rows} rows, {columns} columns, start {start}: {milli} ms, {kind}")?;
    Ok(())
}

fn main(rt: HostRuntime) -> io::Result<()> {
    for rows in [1usize, 2, 3, 4, 5] {
        for fives in 2usize..11 {
            let columns = 5 * fives;
            for start in 1..starts(rows, columns) + 1 {
                measure(&rt, rows, columns, start)?;
            }
        }
    }
    Ok(())
}
MAIN

(cd "$bench" && rt run > "$work/log" 2>&1) || { tail -n 40 "$work/log"; exit 1; }
grep '^frames: ' "$work/log"
