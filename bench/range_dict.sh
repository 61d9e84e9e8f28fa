#!/usr/bin/env bash
# Prints the time and the pivots of one program of `range_dict`, over market models of 3 to 5 rows along random paths of up to 8
# slices: whether a node has a point, and the least and the greatest value of forms. Beside it the time of the exact simplex
# on the same programs of one model of each size, and, where `rustc` is installed, that of the same dictionary in plain
# Rust. The least time of 25 passes counts, model by model. It proves and builds in a temporary folder, in some ten minutes.
# Of the exact simplex the clauses on its answers are left out there, since the systems of the bench are not shown to be
# bounded; its code is the same.
set -euo pipefail
top=$(cd "$(dirname "$0")/.." && pwd)
work=$(mktemp -d)
trap 'rm -rf "$work"' EXIT

bench=$work/crates/range_bench
mkdir -p "$bench"/{src,specs,proofs}
lower="sequence exact_math exact_vectors spaces frac128 whole_rows farkas_rows node_point lp_dict lp_solve range_dict"
for crate in $lower; do
    mkdir "$work/crates/$crate"
    for part in src specs proofs; do
        [ ! -d "$top/crates/$crate/$part" ] || cp -r "$top/crates/$crate/$part" "$work/crates/$crate/"
    done
    grep "^$crate:" "$top/crates.txt" >> "$work/crates.txt"
done
echo "range_bench: $lower" >> "$work/crates.txt"

solve=$work/crates/lp_solve
sed -i -E '/^    (requires bounded|ensures (solved|empty|pivots|stopped)) /d' "$solve/src/solve.rt"
answers=$solve/proofs/solve/minimise_with_pivots/Answers.antt
awk 'BEGIN { RS = ""; ORS = "\n\n" } !/^pub returns/' "$top/crates/lp_solve/proofs/solve/minimise_with_pivots/Answers.antt" > "$answers"

cat > "$bench/src/main.rt" <<'MAIN'
#![tactic(auto)]

ghost use Rattle.std.specs.Prelude.{◌≡◌, ◌↔◌, ◌≤◌, IsTrue, length};
ghost use Rattle.std.specs.List.{All};
ghost use Rattle.frac128.specs.Range.{IsNarrow};
ghost use Rattle.lp_dict.specs.Sizes.{MeetsCondition};

use lp_dict::{Limits, System};
use lp_solve::minimise;
use range_dict::{Met, RangeDict};
use spaces::{Form, Grid, Kernel};
use std::alloc::Global;
use std::io;
use std::time::Instant;
use whole_rows::{Bounds, DenseRows};

const SEEDS: u64 = 20;

const DEPTH: u32 = 8;

const PASSES: u32 = 25;

// A slice of a path.
#[derive(Drop)]
struct Part {
    form: Vec<i128>,
    beta: i128,
}

// What was measured.
#[derive(Clone, Copy, Drop)]
struct Tally {
    programs: u64,
    pivots: u64,
    nanoseconds: u128,
    exact_programs: u64,
    exact_nanoseconds: u128,
    given_up: u64,
}

fn next(state: u64) -> u64 {
    state.wrapping_mul(48271) % 2147483647
}

// A market model: each row is half of the sum of its factors.
fn market(alloc: Global, rows: u64, columns: usize, seed: u64) -> io::Result<Option<DenseRows>> {
    if columns > 40 {
        return Ok(None);
    }
    let bounds = vec![in alloc; Bounds { low: 0, high: 1 }; columns]?;
    let Ok(mut model) = DenseRows::new(alloc, bounds) else {
        return Ok(None);
    };
    let mut state = seed;
    for _ in 0..rows {
        let mut factors = Vec::new(alloc);
        let mut sum = 0u64;
        for _ in 0..columns {
            state = next(state);
            sum = sum.wrapping_add(state % 100);
            factors.push(i128::from(state % 100))?;
        }
        let half = i128::from(sum / 2);
        if factors.len() != model.columns() || model.rows() >= 256 {
            return Ok(None);
        }
        if model.push_row(&factors, Some(half), Some(half)).is_err() {
            return Ok(None);
        }
    }
    Ok(Some(model))
}

fn negated(number: i128) -> i128 {
    number.checked_neg().unwrap_or(0)
}

// Writes a form that is fixed at a value as two inequalities, at most and at least.
fn write_pair(
    rows: &mut Grid<Kernel, i128>,
    limits: &mut Limits,
    at: usize,
    form: &[i128],
    low: i128,
    high: i128,
) -> bool {
    if at >= rows.rows() || at + 1 >= rows.rows() || form.len() != rows.width() {
        return false;
    }
    let upper = rows.row_mut(at);
    for j in 0..form.len() {
        upper[j] = form[j];
    }
    if at + 1 >= rows.rows() || form.len() != rows.width() {
        return false;
    }
    let lower = rows.row_mut(at + 1);
    for j in 0..form.len() {
        lower[j] = negated(form[j]);
    }
    limits.push(high).is_ok() && limits.push(negated(low)).is_ok()
}

// The inequalities of a node, two for each row, column and slice.
fn system_of(alloc: Global, model: &DenseRows, path: &[Part]) -> io::Result<Option<System>> {
    let columns = model.columns();
    if path.len() > 100 {
        return Ok(None);
    }
    let count = 2 * (model.rows() + columns + path.len());
    let Ok(mut rows) = Grid::<Kernel, i128>::filled(alloc, count, columns, 0) else {
        return Ok(None);
    };
    let mut limits = Limits::new(alloc);
    let mut at = 0usize;
    for i in 0..model.rows() {
        let (low, high) = (model.low(i).unwrap_or(0), model.high(i).unwrap_or(0));
        if !write_pair(&mut rows, &mut limits, at, model.row(i), low, high) {
            return Ok(None);
        }
        at = at.wrapping_add(2);
    }
    for j in 0..columns {
        let mut unit = vec![in alloc; 0; columns]?;
        unit[j] = 1;
        if !write_pair(&mut rows, &mut limits, at, &unit, 0, 1) {
            return Ok(None);
        }
        at = at.wrapping_add(2);
    }
    for part in path {
        if !write_pair(&mut rows, &mut limits, at, &part.form, part.beta, part.beta) {
            return Ok(None);
        }
        at = at.wrapping_add(2);
    }
    Ok(Some(System { rows, limits }))
}

fn are_narrow(numbers: &[i128]) -> bool
    ensures { IsTrue result ↔ All IsNarrow numbers.now }
{
    numbers.iter().all(|number| *number > i128::MIN)
}

// Whether the exact simplex takes the system.
fn is_taken(system: &mut System, form: &Form<Kernel>) -> bool
    ensures { IsTrue result → MeetsCondition system.new.rows system.new.limits form.now }
{
    let count = system.rows.rows();
    let width = system.rows.width();
    if count > 1000
        || width > 300
        || system.limits.items().len() != count
        || form.items().len() != width
    {
        return false;
    }
    are_narrow(system.limits.items())
        && are_narrow(form.items())
        && are_narrow(system.rows.items_mut())
}

// The exact simplex on the same program.
fn exact(
    rt: &HostRuntime,
    model: &DenseRows,
    path: &[Part],
    form: &[i128],
    turned: bool,
    tally: &mut Tally,
) -> io::Result<()> {
    let alloc = rt.alloc();
    let Some(mut system) = system_of(alloc, model, path)? else {
        return Ok(());
    };
    let mut factors = Vec::new(alloc);
    for factor in form {
        factors.push(if turned { negated(*factor) } else { *factor })?;
    }
    let form = Form::<Kernel>::of(factors);
    if !is_taken(&mut system, &form) {
        return Ok(());
    }
    let start = Instant::now(rt)?;
    let solved = minimise(alloc, &system, &form).is_ok();
    let nanoseconds = start.elapsed(rt)?.as_nanos();
    if solved {
        tally.exact_programs = tally.exact_programs.wrapping_add(1);
        tally.exact_nanoseconds = tally.exact_nanoseconds.wrapping_add(nanoseconds);
    }
    Ok(())
}

fn drawn_form(alloc: Global, columns: usize, state: &mut u64) -> io::Result<Vec<i128>> {
    let mut form = Vec::new(alloc);
    for _ in 0..columns {
        *state = next(*state);
        form.push(i128::from(*state % 5) - 2)?;
    }
    Ok(form)
}

// The least and the greatest whole value of a form, where the programs are solved.
fn ends(
    rt: &HostRuntime,
    dict: &mut RangeDict,
    form: &[i128],
    tally: &mut Tally,
) -> io::Result<Option<(i128, i128)>> {
    let alloc = rt.alloc();
    let before = dict.pivots();
    let start = Instant::now(rt)?;
    let least = dict.least(alloc, form);
    let greatest = dict.greatest(alloc, form);
    tally.nanoseconds = tally
        .nanoseconds
        .wrapping_add(start.elapsed(rt)?.as_nanos());
    tally.programs = tally.programs.wrapping_add(2);
    tally.pivots = tally
        .pivots
        .wrapping_add(dict.pivots().wrapping_sub(before));
    let (Ok(least), Ok(greatest)) = (least, greatest) else {
        return Ok(None);
    };
    let low = negated(least.value).checked_div_euclid(least.vertex.denominator);
    let high = greatest
        .value
        .checked_div_euclid(greatest.vertex.denominator);
    match (low, high) {
        (Some(low), Some(high)) => Ok(Some((negated(low), high))),
        _ => Ok(None),
    }
}

fn give_up(tally: &mut Tally) {
    tally.given_up = tally.given_up.wrapping_add(1);
}

// The programs along a random path of slices.
fn walk(
    rt: &HostRuntime,
    model: &DenseRows,
    seed: u64,
    with_exact: bool,
    tally: &mut Tally,
) -> io::Result<()> {
    let alloc = rt.alloc();
    let mut state = seed;
    let mut path = Vec::new(alloc);
    let start = Instant::now(rt)?;
    let Ok(mut dict) = RangeDict::of(alloc, model, None) else {
        give_up(tally);
        return Ok(());
    };
    let met = dict.meet(alloc);
    tally.nanoseconds = tally
        .nanoseconds
        .wrapping_add(start.elapsed(rt)?.as_nanos());
    tally.programs = tally.programs.wrapping_add(1);
    tally.pivots = tally.pivots.wrapping_add(dict.pivots());
    if !matches!(met, Ok(Met::Point(_))) {
        return Ok(());
    }
    for _ in 0..DEPTH {
        let form = drawn_form(alloc, model.columns(), &mut state)?;
        let Some((low, high)) = ends(rt, &mut dict, &form, tally)? else {
            give_up(tally);
            return Ok(());
        };
        if with_exact {
            exact(rt, model, &path, &form, false, tally)?;
            exact(rt, model, &path, &form, true, tally)?;
        }
        state = next(state);
        let count = high.wrapping_sub(low).wrapping_add(1);
        if count <= 0 {
            return Ok(());
        }
        let beta = low.wrapping_add(i128::from(state).checked_rem(count).unwrap_or(0));
        let before = dict.pivots();
        let start = Instant::now(rt)?;
        let Ok(mut child) = dict.child(alloc, &form, beta) else {
            give_up(tally);
            return Ok(());
        };
        let met = child.meet(alloc);
        tally.nanoseconds = tally
            .nanoseconds
            .wrapping_add(start.elapsed(rt)?.as_nanos());
        tally.programs = tally.programs.wrapping_add(1);
        tally.pivots = tally
            .pivots
            .wrapping_add(child.pivots().wrapping_sub(before));
        if matches!(met, Ok(Met::Point(_))) {
            dict = child;
            path.push(Part { form, beta })?;
        }
    }
    Ok(())
}

const NOTHING: Tally = Tally {
    programs: 0,
    pivots: 0,
    nanoseconds: 0,
    exact_programs: 0,
    exact_nanoseconds: 0,
    given_up: 0,
};

// The programs of one model, in the least time of all passes.
fn measured(rt: &HostRuntime, rows: u64, columns: usize, seed: u64) -> io::Result<Tally> {
    let Some(model) = market(rt.alloc(), rows, columns, seed.wrapping_mul(7919))? else {
        return Ok(NOTHING);
    };
    let mut least = u128::MAX;
    let mut tally = NOTHING;
    for pass in 0..PASSES {
        tally = NOTHING;
        let with_exact = seed == 1 && pass + 1 == PASSES;
        walk(
            rt,
            &model,
            seed.wrapping_mul(104729),
            with_exact,
            &mut tally,
        )?;
        least = least.min(tally.nanoseconds);
    }
    tally.nanoseconds = least;
    Ok(tally)
}

fn main(rt: HostRuntime) -> io::Result<()> {
    for (rows, columns) in [(3u64, 20usize), (4, 30), (5, 40)] {
        let mut all = NOTHING;
        for seed in 1..SEEDS + 1 {
            let one = measured(&rt, rows, columns, seed)?;
            all.programs = all.programs.wrapping_add(one.programs);
            all.pivots = all.pivots.wrapping_add(one.pivots);
            all.nanoseconds = all.nanoseconds.wrapping_add(one.nanoseconds);
            all.exact_programs = all.exact_programs.wrapping_add(one.exact_programs);
            all.exact_nanoseconds = all.exact_nanoseconds.wrapping_add(one.exact_nanoseconds);
            all.given_up = all.given_up.wrapping_add(one.given_up);
        }
        let programs = u128::from(all.programs).max(1);
        let each = all.nanoseconds / programs;
        let pivots = u128::from(all.pivots).wrapping_mul(10) / programs;
        let exact = all.exact_nanoseconds / u128::from(all.exact_programs).max(1);
        let times = exact / each.max(1);
        println!(rt;
            "range_dict: {rows} rows, {columns} columns: {programs} programs, {each} ns and {pivots} tenths of a pivot each, {} given up",
            all.given_up
        )?;
        println!(rt; "exact simplex: {exact} ns each, {times} times as long")?;
    }
    Ok(())
}
MAIN

(cd "$bench" && rt run > "$work/log" 2>&1) || { tail -n 40 "$work/log"; exit 1; }
grep -E '^(range_dict|exact simplex): ' "$work/log"

if command -v rustc > /dev/null; then
    rustc -O --edition 2024 -o "$work/plain" "$top/bench/range_dict_plain.rs"
    "$work/plain"
fi
