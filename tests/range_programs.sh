#!/usr/bin/env bash
# Compares the answers of `range_dict` with those of the exact simplex, outside the gate and without any proof: market models and
# models with ranges, along random paths of slices, in some minutes. Each point and each line must pass its check, and each least and
# greatest value must be that of the exact simplex.
set -euo pipefail
top=$(cd "$(dirname "$0")/.." && pwd)
work=$(mktemp -d)
trap 'rm -rf "$work"' EXIT

programs=$work/crates/range_programs
mkdir -p "$programs"/{src,specs,proofs}
lower="sequence exact_math exact_vectors spaces frac128 whole_rows farkas_rows node_point lp_dict lp_solve range_dict"
for crate in $lower; do
    mkdir "$work/crates/$crate"
    for part in src specs proofs; do
        [ ! -d "$top/crates/$crate/$part" ] || cp -r "$top/crates/$crate/$part" "$work/crates/$crate/"
    done
    grep "^$crate:" "$top/crates.txt" >> "$work/crates.txt"
done
echo "range_programs: $lower" >> "$work/crates.txt"

cat > "$programs/src/main.rt" <<'MAIN'
#![tactic(auto)]

use farkas_rows::{End, Line, Path, Slice, refutes};
use frac128::Frac;
use lp_dict::{Limits, System};
use lp_solve::{Solved, minimise};
use node_point::NodePoint;
use range_dict::{Extreme, Met, RangeDict, RangeStop, Vertex};
use spaces::{Form, Grid, Kernel, Original};
use std::alloc::Global;
use std::io;
use whole_rows::{Bounds, DenseRows};

// How many slices a path has at most.
const DEPTH: u32 = 3;

#[derive(Drop)]
struct Tally {
    programs: u64,
    empty: u64,
    given_up: u64,
    compared: u64,
    wrong: u64,
}

impl Tally {
    fn count(&mut self, is_right: bool) {
        if !is_right {
            self.wrong += 1;
        }
    }
}

fn next(state: u64) -> u64 {
    48271 * state % 2147483647
}

// Models of one kind: how many rows, columns and models, how far a row may be from its middle, and the greatest value of a
// column.
struct Kind {
    rows: usize,
    columns: usize,
    models: u64,
    slack: i128,
    most: i128,
}

const KINDS: &[Kind] = &[
    Kind { rows: 2, columns: 6, models: 5, slack: 0, most: 1 },
    Kind { rows: 3, columns: 8, models: 2, slack: 0, most: 1 },
    Kind { rows: 2, columns: 6, models: 3, slack: 9, most: 3 },
];

// A market model: each row is within the slack of half of the sum of its factors.
fn market(alloc: Global, kind: &Kind, seed: u64) -> io::Result<DenseRows> {
    let mut state = seed;
    let bounds = vec![in alloc; Bounds { low: -1, high: kind.most }; kind.columns]?;
    let mut model = DenseRows::new(alloc, bounds).ok().unwrap();
    for _ in 0..kind.rows {
        let mut factors = Vec::new(alloc);
        let mut sum = 0;
        for _ in 0..kind.columns {
            state = next(state);
            sum += i128::from(state % 100);
            factors.push(i128::from(state % 100))?;
        }
        let low = sum / 2 - kind.slack;
        let high = sum / 2 + kind.slack;
        model.push_row(&factors, Some(low), Some(high)).ok().unwrap();
    }
    Ok(model)
}

// Writes a form between two values as two inequalities.
fn write_pair(system: &mut System, at: usize, form: &[i128], low: i128, high: i128) {
    for j in 0..form.len() {
        system.rows.row_mut(at)[j] = form[j];
        system.rows.row_mut(at + 1)[j] = -form[j];
    }
    system.limits.push(high).ok().unwrap();
    system.limits.push(-low).ok().unwrap();
}

// The inequalities of a node, two for each row, column and slice.
fn system_of(alloc: Global, model: &DenseRows, path: &Path) -> io::Result<System> {
    let columns = model.columns();
    let count = 2 * (model.rows() + columns + path.items().len());
    let rows = Grid::<Kernel, i128>::filled(alloc, count, columns, 0)
        .ok()
        .unwrap();
    let limits = Limits::new(alloc);
    let mut system = System { rows, limits };
    let mut at = 0;
    for i in 0..model.rows() {
        let (low, high) = (model.low(i).unwrap(), model.high(i).unwrap());
        write_pair(&mut system, at, model.row(i), low, high);
        at += 2;
    }
    for j in 0..columns {
        let mut unit = vec![in alloc; 0; columns]?;
        unit[j] = 1;
        write_pair(&mut system, at, &unit, model.box_low(j), model.box_high(j));
        at += 2;
    }
    for slice in path.items() {
        write_pair(&mut system, at, slice.form.items(), slice.beta, slice.beta);
        at += 2;
    }
    Ok(system)
}

fn is_point(rows: &DenseRows, path: &Path, vertex: &Vertex) -> bool {
    let Ok(numerators) = vertex.numerators.clone() else {
        return false;
    };
    NodePoint::of(rows, path, None, numerators, vertex.denominator).is_some()
}

fn is_empty(rows: &DenseRows, path: &Path, line: &Line) -> bool {
    refutes(rows, path, &End::Absent, line)
}

// Whether the least value of the form, or of the form with its signs turned, is that of the exact simplex, where it has one.
fn is_exact(
    alloc: Global,
    system: &System,
    form: &[i128],
    sign: i128,
    found: &Extreme,
) -> io::Result<Option<bool>> {
    let mut factors = Vec::new(alloc);
    for factor in form {
        factors.push(sign * *factor)?;
    }
    match minimise(alloc, system, &Form::<Kernel>::of(factors)) {
        Ok(
            Solved::Least {
                point: _,
                value,
                multipliers: _,
            },
        ) => {
            let expected = Frac::new(sign * found.value, found.vertex.denominator);
            Ok(Some(expected == Ok(value)))
        }
        Ok(Solved::Empty { multipliers: _ }) => Ok(Some(false)),
        Err(_) => Ok(None),
    }
}

// The ends of a form on the node, and all that is checked of them.
fn ends(
    alloc: Global,
    model: &DenseRows,
    path: &Path,
    dict: &mut RangeDict,
    form: &Form<Original>,
    tally: &mut Tally,
) -> Result<(i128, i128), RangeStop> {
    let least = dict.least(alloc, form.items())?;
    let greatest = dict.greatest(alloc, form.items())?;
    tally.programs += 2;
    let low = -(-least.value).div_euclid(least.vertex.denominator);
    let high = greatest.value.div_euclid(greatest.vertex.denominator);
    tally.count(is_point(model, path, &least.vertex));
    tally.count(is_point(model, path, &greatest.vertex));
    tally.count(refutes(model, path, &End::Below { form, lo: low }, &least.line));
    tally.count(refutes(
        model,
        path,
        &End::Above {
            form,
            from: high + 1,
        },
        &greatest.line,
    ));
    let system = system_of(alloc, model, path).ok().unwrap();
    for (sign, extreme) in [(1, &least), (-1, &greatest)] {
        if let Some(is_right) = is_exact(alloc, &system, form.items(), sign, extreme)
            .ok()
            .unwrap()
        {
            tally.compared += 1;
            tally.count(is_right);
        }
    }
    Ok((low, high))
}

// Whether the node has a point, and the check of the answer.
fn has_point(
    alloc: Global,
    model: &DenseRows,
    path: &Path,
    dict: &mut RangeDict,
    tally: &mut Tally,
) -> Result<bool, RangeStop> {
    tally.programs += 1;
    match dict.meet(alloc)? {
        Met::Point(vertex) => {
            tally.count(is_point(model, path, &vertex));
            Ok(true)
        }
        Met::Empty(line) => {
            tally.empty += 1;
            tally.count(is_empty(model, path, &line));
            Ok(false)
        }
    }
}

// The programs along a random path, whose slices lie up to one value outside of their ends.
fn walk(alloc: Global, model: &DenseRows, seed: u64, tally: &mut Tally) -> Result<(), RangeStop> {
    let mut state = seed;
    let mut path = Path::new(alloc);
    let mut dict = RangeDict::of(alloc, model, None)?;
    if !has_point(alloc, model, &path, &mut dict, tally)? {
        return Ok(());
    }
    for _ in 0..DEPTH {
        let mut factors = Vec::new(alloc);
        for _ in 0..model.columns() {
            state = next(state);
            factors.push(i128::from(state % 5) - 2)?;
        }
        let form = Form::<Original>::of(factors);
        let (low, high) = ends(alloc, model, &path, &mut dict, &form, tally)?;
        state = next(state);
        let beta = low - 1 + i128::from(state) % (high - low + 3);
        let mut child = dict.child(alloc, form.items(), beta)?;
        path.push(Slice { form, beta })?;
        if has_point(alloc, model, &path, &mut child, tally)? {
            dict = child;
        } else {
            let _ = path.pop();
        }
    }
    Ok(())
}

fn main(rt: HostRuntime) -> io::Result<()> {
    let alloc = rt.alloc();
    let mut tally = Tally {
        programs: 0,
        empty: 0,
        given_up: 0,
        compared: 0,
        wrong: 0,
    };
    for kind in KINDS {
        for seed in 1..kind.models + 1 {
            let model = market(alloc, kind, seed * 7919)?;
            if walk(alloc, &model, seed * 104729, &mut tally).is_err() {
                tally.given_up += 1;
            }
        }
    }
    let Tally {
        programs,
        empty,
        given_up,
        compared,
        wrong,
    } = tally;
    println!(rt;
        "range_programs: {programs} programs, {empty} of them without a point, {given_up} paths given up, {compared} values compared, {wrong} wrong"
    )?;
    Ok(())
}
MAIN

(cd "$programs" && rt try > "$work/log" 2>&1) || true
grep -q '^range_programs: .* 0 wrong$' "$work/log" || { tail -n 20 "$work/log"; exit 1; }
grep '^range_programs: ' "$work/log"
