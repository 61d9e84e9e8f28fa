#!/usr/bin/env bash
# Prints what a linear program of the exact simplex takes: seeded random systems of 4, 8, 16 and 32 coordinates with twice, three
# and four times as many rows, the entries of 1 to 3 digits. Each coordinate is at least 0, and their sum is bounded. For each size
# it prints the microseconds of a program, from its first dictionary to the last pivot, and of a pivot, the least of five passes,
# and how many of the programs ended with an excuse. It builds in a temporary folder.
set -euo pipefail
top=$(cd "$(dirname "$0")/.." && pwd)
work=$(mktemp -d)
trap 'rm -rf "$work"' EXIT

bench=$work/crates/simplex_bench
mkdir -p "$bench"
for crate in sequence exact_math exact_vectors frac128 spaces lp_dict; do
    mkdir "$work/crates/$crate"
    for part in src specs proofs; do
        [ ! -d "$top/crates/$crate/$part" ] || cp -r "$top/crates/$crate/$part" "$work/crates/$crate/"
    done
    grep "^$crate:" "$top/crates.txt" >> "$work/crates.txt"
done
echo "simplex_bench: sequence exact_math exact_vectors frac128 spaces lp_dict" >> "$work/crates.txt"

# The modules of the simplex stand in the bench's own crate, so that the pivots can be counted.
cp -r "$top/crates/lp_solve/"{src,specs,proofs} "$bench/"
rm -r "$bench/src/lib.rt" "$bench/src/tests.rt" "$bench/proofs/tests"
grep -rl lp_solve "$bench" | xargs sed -i 's/Rattle\.lp_solve\./Rattle.simplex_bench./g'
cat >> "$bench/src/solve.rt" <<'COUNT'

/// The pivots of a program: how many there are, and whether they end with an excuse.
#[derive(Clone, Copy, Drop)]
pub(crate) struct Counted {
    pub(crate) pivots: usize,
    pub(crate) is_excused: bool,
}

/// Makes the pivots of a program.
pub(crate) fn solve_counted(
    alloc: Global,
    system: &System,
    form: &Form<Kernel>,
) -> Result<Counted, NoMemory>
    requires condition { MeetsCondition system.now.rows system.now.limits form.now }
{
    let rows = system.rows.rows();
    let columns = system.rows.width();
    let mut dict = Dict::of(alloc, system, form)?;
    let mut pivots = Pivots::new(alloc);
    let is_excused = match run(&mut dict, &mut pivots, rows, columns)? {
        Ending::Stuck { .. } => false,
        Ending::Optimal => false,
        Ending::Wide { .. } => true,
        Ending::Many => true,
    };
    Ok(Counted {
        pivots: pivots.items().len(),
        is_excused,
    })
}
COUNT

mkdir -p "$bench/proofs/solve/solve_counted"
cat > "$bench/proofs/solve/solve_counted/Answers.antt" <<'ANSWERS'
use Rattle.std.proofs.Common.{refl, ◌∙◌, []}
use Rattle.simplex_bench.proofs.SolveSteps.{reached_from, basic_count, outside_count}
use Rattle.simplex_bench.proofs.solve.solve_counted.Goals as goal

pub run-requires-clause-rows : goal.run-requires-clause-rows
run-requires-clause-rows c =
    let t = c.args.system.now.rows in
    let limits = c.args.system.now.limits in
    let form = c.args.form.now in
    c.rows-rows.ensures.count ∙ basic_count t limits form c.requires.condition c.rows-rows.ensures.size c.in_ok-dict.dict (reached_from t limits form c.requires.condition c.rows-rows.ensures.size c.in_ok-dict.dict c.in_ok-dict.dict [] c.in_ok-dict.ensures tt refl)

pub run-requires-clause-columns : goal.run-requires-clause-columns
run-requires-clause-columns c =
    let t = c.args.system.now.rows in
    let limits = c.args.system.now.limits in
    let form = c.args.form.now in
    c.width-columns.ensures.count ∙ outside_count t limits form c.requires.condition c.rows-rows.ensures.size c.in_ok-dict.dict (reached_from t limits form c.requires.condition c.rows-rows.ensures.size c.in_ok-dict.dict c.in_ok-dict.dict [] c.in_ok-dict.ensures tt refl)
ANSWERS

cat > "$bench/src/main.rt" <<'MAIN'
#![tactic(auto)]
ghost use Rattle.std.specs.Prelude.{◌≡◌, ◌+◌, ◌*◌, ◌≤◌, ◌<◌, ◌^◌, ◌↔◌, length, All, IsTrue, IfOk, nat_abs};
ghost use Rattle.frac128.specs.Range.{IsNarrow};
ghost use Rattle.lp_dict.specs.Sizes.{MeetsCondition};

mod answer;
mod finish;
mod search;
mod signs;
mod solve;

use lp_dict::{Limits, System};
use sequence::NoMemory;
use solve::{Counted, solve_counted};
use spaces::{Form, Grid, Kernel};
use std::alloc::Global;
use std::io;
use std::time::Instant;

const PROGRAMS: u32 = 20;
const PASSES: u32 = 5;

/// A stream of numbers: each is 48271 times the last one modulo 2147483647.
#[derive(Drop)]
struct Stream {
    last: u32,
}

impl Stream {
    fn next(&mut self) -> u32 {
        self.last = (48_271 * u64::from(self.last) % 2_147_483_647) as u32;
        self.last
    }

    // Of 1 to 3 digits, with either sign.
    fn entry(&mut self) -> i128 {
        let most = match self.next() % 3 {
            0 => 10,
            1 => 100,
            _ => 1000,
        };
        let size = i128::from(self.next() % most);
        if self.next() % 2 == 0 { size } else { -size }
    }
}

/// The entries of a system, row after row, its limits, and a form.
#[derive(Drop)]
struct Numbers {
    items: Vec<i128>,
    limits: Vec<i128>,
    form: Vec<i128>,
}

// Each coordinate is at least 0, their sum is at most 1000, and the other rows are random.
fn random_numbers(
    alloc: Global,
    stream: &mut Stream,
    width: usize,
    count: usize,
) -> Result<Numbers, NoMemory> {
    let mut items = Vec::new(alloc);
    let mut limits = Vec::new(alloc);
    let mut form = Vec::new(alloc);
    for i in 0..count {
        for j in 0..width {
            let unit = if i == j { -1 } else { 0 };
            let random = stream.entry();
            items.push(if i < width { unit } else if i == width { 1 } else { random })?;
        }
        let random = i128::from(stream.next() % 1000);
        limits.push(if i < width { 0 } else if i == width { 1000 } else { random })?;
    }
    for _ in 0..width {
        form.push(stream.entry())?;
    }
    Ok(Numbers { items, limits, form })
}

fn is_narrow(number: i128) -> bool
    ensures { IsTrue result → IsNarrow number }
{
    number > i128::MIN
}

fn are_narrow(numbers: &[i128]) -> bool
    ensures { IsTrue result → All IsNarrow numbers.now }
{
    numbers.iter().all(|number| is_narrow(*number))
}

// The pivots of the program of these numbers; none where they are not those of a system.
fn solved(alloc: Global, numbers: &Numbers, width: usize, count: usize) -> Result<Option<Counted>, NoMemory>
    requires { (count ≤ 1000) × (width ≤ 1000) }
{
    let items = numbers.items.as_slice();
    let are_sizes = items.len() == count * width && numbers.limits.len() == count && numbers.form.len() == width;
    if !are_sizes || !are_narrow(items) || !are_narrow(&numbers.limits) || !are_narrow(&numbers.form) {
        return Ok(None);
    }
    let mut rows = Grid::<Kernel, i128>::filled(alloc, count, width, 0)?;
    rows.items_mut().copy_from_slice(items);
    let limits = Limits::from_vec(Vec::from_slice(alloc, &numbers.limits)?);
    let form = Form::of(Vec::from_slice(alloc, &numbers.form)?);
    let system = System { rows, limits };
    Ok(Some(solve_counted(alloc, &system, &form)?))
}

fn measure(rt: &HostRuntime, width: usize, times: usize) -> io::Result<()>
    requires { (width ≤ 32) × (times ≤ 4) }
{
    let rows = times * width;
    let mut stream = Stream { last: 7 };
    let mut nanoseconds = 0u128;
    let mut pivots = 0u128;
    let mut excused = 0u32;
    for _ in 0..PROGRAMS {
        let Ok(numbers) = random_numbers(rt.alloc(), &mut stream, width, rows) else {
            return Ok(());
        };
        let mut least = u128::MAX;
        let mut made = None;
        for _ in 0..PASSES {
            let start = Instant::now(rt)?;
            made = solved(rt.alloc(), &numbers, width, rows).unwrap_or(None);
            least = least.min(start.elapsed(rt)?.as_nanos());
        }
        if let Some(made) = made {
            nanoseconds = nanoseconds.saturating_add(least);
            pivots = pivots.saturating_add(made.pivots as u128);
            excused = excused.saturating_add(u32::from(made.is_excused));
        }
    }
    let program = nanoseconds / u128::from(PROGRAMS) / 1000;
    let pivot = nanoseconds / pivots.max(1);
    println!(rt; "lp_solve: {width} coordinates, {rows} rows: {program} us a program, {pivot} ns a pivot, {pivots} pivots, {excused} of {PROGRAMS} excused")?;
    Ok(())
}

fn main(rt: HostRuntime) -> io::Result<()> {
    for width in [4, 8, 16, 32] {
        for times in [2, 3, 4] {
            measure(&rt, width, times)?;
        }
    }
    Ok(())
}
MAIN

(cd "$bench" && rt run > "$work/log" 2>&1) || { cat "$work/log"; exit 1; }
grep '^lp_solve: ' "$work/log"
