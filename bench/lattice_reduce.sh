#!/usr/bin/env bash
# Prints what the reduction of a basis takes: kernels of 1 to 5 rows, whose last columns are those of a unit matrix and whose other
# entries have two digits, drawn from a seed, as bases of 9 to 45 vectors. For each it prints the steps, the microseconds, the
# least of three passes, and whether it was an excuse. It builds in a temporary folder.
set -euo pipefail
top=$(cd "$(dirname "$0")/.." && pwd)
work=$(mktemp -d)
trap 'rm -rf "$work"' EXIT

bench=$work/crates/reduce_bench
mkdir -p "$bench"/{src,specs,proofs/draw,proofs/kernel}
lower="sequence exact_math exact_vectors gram_minors spaces unimodular_pair lattice_reduce"
for crate in $lower; do
    mkdir "$work/crates/$crate"
    for part in src specs proofs; do
        [ ! -d "$top/crates/$crate/$part" ] || cp -r "$top/crates/$crate/$part" "$work/crates/$crate/"
    done
    grep "^$crate:" "$top/crates.txt" >> "$work/crates.txt"
done
echo "reduce_bench: $lower" >> "$work/crates.txt"

cat > "$bench/specs/UnitFronts.antt" <<'SPECS'
-- Rows that begin with a unit matrix.
use Rattle.std.specs.Prelude.{◌≡◌, ◌≢◌, ℕ, ◌<◌, ℤ, pos}
use Rattle.lattice_reduce.specs.Numbers.{items_of}
use Rattle.spaces.specs.Tables.{Table, rows_in}

-- the first k rows begin with those of a unit matrix of `size` rows, and the others with zeros
pub record HasUnits (t : Table ℤ) (size k : ℕ) : Type 0 where
  pub ones : (i : ℕ) → i < k → items_of (rows_in t) i i ≡ pos 1
  pub zeros : (i j : ℕ) → i < size → j < size → i ≢ j → items_of (rows_in t) i j ≡ pos 0
SPECS

echo 'pub mod UnitFronts' > "$bench/specs/Lib.antt"

cat > "$bench/proofs/UnitRows.antt" <<'PROOFS'
-- Rows that begin with a unit matrix are independent.
use Rattle.std.proofs.Common.{◌≡◌, ◌≢◌, ◌⊎◌, ⊎_elim, ℕ, zero, suc, ◌+◌, ◌-◌, ◌*◌, ◌<◌, ◌≤◌, ℤ, pos, ◌+ℤ◌, ◌*ℤ◌, List, [], length, get_or, set, take, replicate, refl, sym, ap, ap₂, ◌∙◌, subst, arith, get_or-set_other, get_or-set_same}
use Rattle.std.proofs.lemmas.List.{drop-replicate, get_or-replicate, get_or_past, length-replicate, length-set, take-replicate}
use Rattle.exact_math.specs.IntegerLaws as Z
use Rattle.exact_math.specs.Ring.{integers}
use Rattle.exact_vectors.specs.SumLaws.{sum_below-same, sum_below-zero}
use Rattle.exact_vectors.specs.Vectors.{sum_below}
use Rattle.gram_minors.specs.Orthogonalisation.{IsIndependent}
use Rattle.reduce_bench.specs.UnitFronts.{HasUnits}
use Rattle.lattice_reduce.specs.Numbers.{items_of}
use Rattle.spaces.specs.TableLaws as Tables
use Rattle.spaces.specs.Tables.{Table, filled, row_at, rows_in, with_row}

-- two indices are the same or not
same_or_not : (i k : ℕ) → (i ≡ k) ⊎ (i ≢ k)
same_or_not i k = grind arith

-- a sum with one term
sum_single : (n : ℕ) (f : ℕ → ℤ) (k : ℕ) → k < n → ((j : ℕ) → j < n → j ≢ k → f j ≡ pos 0) → sum_below integers n f ≡ f k
sum_single zero f k lt h = absurd (omega arith)
sum_single (suc n) f k lt h =
    ⊎_elim
    (λ (same : n ≡ k). ap₂ ◌+ℤ◌ (sum_below-zero integers n f (λ j small. h j (omega arith) (omega arith))) (ap f same) ∙ Z.zero_add (f k))
    (λ (ne : n ≢ k). ap₂ ◌+ℤ◌ (sum_single n f k (omega arith) (λ j small other. h j (omega arith) other)) (h n (omega arith) ne) ∙ Z.add_zero (f k))
    (same_or_not n k)

pub units_independent : (t : Table ℤ) → t.rows ≤ t.width → HasUnits t t.rows t.rows → IsIndependent integers t.width (items_of (rows_in t)) t.rows
units_independent t room h y sums k lt =
    sym (sum_single t.rows (λ i. y i *ℤ items_of (rows_in t) i k) k lt (λ j small ne. ap (λ z. y j *ℤ z) (h.zeros j k small lt ne) ∙ Z.mul_zero (y j))
    ∙ ap (λ z. y k *ℤ z) (h.ones k lt) ∙ Z.mul_one (y k))
    ∙ sums k (omega arith)

-- an item of a matrix of zeros
pub zero_at : (h w i j : ℕ) → items_of (rows_in (filled h w (pos 0))) i j ≡ pos 0
zero_at h w i j =
    ⊎_elim
    (λ (below : i < h). ap (λ (l : List ℤ). get_or l j (pos 0)) (Tables.rows_in-at (filled h w (pos 0)) i below ∙ zero_row below) ∙ zero_item)
    (λ (past : h ≤ i). ap (λ (l : List ℤ). get_or l j (pos 0)) (get_or_past (rows_in (filled h w (pos 0))) i [] (let long = Tables.length-rows_in (filled h w (pos 0)) in omega (arith, long))))
    (sides i h)
  where
    sides : (i h : ℕ) → (i < h) ⊎ (h ≤ i)
    sides i h = grind arith

    zero_row : i < h → row_at (filled h w (pos 0)) i ≡ replicate w (pos 0)
    zero_row below =
        let ends = Tables.row_ends (filled h w (pos 0)) i below in
        ap (take w) (drop-replicate (i * w) (h * w) (pos 0)) ∙ take-replicate w (h * w - i * w) (pos 0) (omega arith)

    zero_item : get_or (replicate w (pos 0)) j (pos 0) ≡ pos 0
    zero_item =
        ⊎_elim
        (λ (below : j < w). get_or-replicate w j (pos 0) (pos 0) below)
        (λ (past : w ≤ j). get_or_past (replicate w (pos 0)) j (pos 0) (let long = length-replicate w (pos 0) in omega (arith, long)))
        (sides j w)

-- one row more
pub units_more : (t : Table ℤ) (size k : ℕ) (row : List ℤ) → length t.items ≡ t.rows * t.width → k < size → size ≡ t.rows → size ≤ t.width → length row ≡ t.width → ((i : ℕ) → i < size → get_or row i (pos 0) ≡ get_or (set (row_at t k) k (pos 1)) i (pos 0)) → HasUnits t size k → HasUnits (with_row t k row) size (k + 1)
units_more t size k row full lt count room long front h =
    let there : k < t.rows = omega arith in
    let written : rows_in (with_row t k row) ≡ set (rows_in t) k row = Tables.rows_in-with_row t k row full there long in
    let all = Tables.length-rows_in t in
    let here : (i : ℕ) → i < size → items_of (rows_in (with_row t k row)) k i ≡ get_or (set (row_at t k) k (pos 1)) i (pos 0) =
    λ i small. ap (λ (l : List (List ℤ)). items_of l k i) written ∙ ap (λ (l : List ℤ). get_or l i (pos 0)) (get_or-set_same (rows_in t) k row [] (omega (arith, all))) ∙ front i small in
    let other : (i j : ℕ) → i ≢ k → items_of (rows_in (with_row t k row)) i j ≡ items_of (rows_in t) i j =
    λ i j ne. ap (λ (l : List (List ℤ)). items_of l i j) written ∙ ap (λ (l : List ℤ). get_or l j (pos 0)) (get_or-set_other (rows_in t) k i row [] ne) in
    record {
      ones = λ i small. ⊎_elim
          (λ (same : i ≡ k). subst (λ a. items_of (rows_in (with_row t k row)) a a ≡ pos 1) (sym same) (here k lt ∙ get_or-set_same (row_at t k) k (pos 1) (pos 0) (let wide = Tables.length-row_at t k full there in omega (arith, wide))))
          (λ (ne : i ≢ k). other i i ne ∙ h.ones i (omega arith))
          (same_or_not i k);
      zeros = λ i j small small' apart. ⊎_elim
          (λ (same : i ≡ k). let ne : j ≢ k = omega arith in subst (λ a. items_of (rows_in (with_row t k row)) a j ≡ pos 0) (sym same)
          (here j small' ∙ get_or-set_other (row_at t k) k j (pos 1) (pos 0) ne ∙ ap (λ (l : List ℤ). get_or l j (pos 0)) (sym (Tables.rows_in-at t k there)) ∙ h.zeros k j lt small' (omega arith)))
          (λ (ne : i ≢ k). other i j ne ∙ h.zeros i j small small' apart)
          (same_or_not i k);
    }

-- no rows yet
pub units_begin : (t : Table ℤ) (size w : ℕ) → t ≡ filled size w (pos 0) → HasUnits t size 0
units_begin t size w is = record {
  ones = λ i lt. absurd (omega arith);
  zeros = λ i j small small' apart. ap (λ x. items_of (rows_in x) i j) is ∙ zero_at size w i j;
}
PROOFS

echo 'pub mod UnitRows' > "$bench/proofs/Lib.antt"

cat > "$bench/proofs/draw/Invariants.antt" <<'PROOFS'
use Rattle.std.proofs.Common.{◌≡◌, ℕ, ◌<◌, pos, get_or, set}
use Rattle.reduce_bench.proofs.draw.Given as goal

abbrev pub invariant-loop-j : goal.invariant-loop-j
invariant-loop-j l = (i : ℕ) → i < l.from → get_or l.row i (pos 0) ≡ get_or (set l.fn.row l.k (pos 1)) i (pos 0)
PROOFS

cat > "$bench/proofs/kernel/Invariants.antt" <<'PROOFS'
use Rattle.std.proofs.Common.{◌≡◌, ◌+◌, ◌*◌, length}
use Rattle.reduce_bench.specs.UnitFronts.{HasUnits}
use Rattle.reduce_bench.proofs.kernel.Given as goal

abbrev pub invariant-loop-k : goal.invariant-loop-k
invariant-loop-k l = record {
  height : l.grid.rows ≡ l.rows;
  width : l.grid.width ≡ l.rows + l.more;
  size : length l.grid.items ≡ l.grid.rows * l.grid.width;
  units : HasUnits l.grid l.rows l.k;
}
PROOFS

cat > "$bench/proofs/kernel/Answers.antt" <<'PROOFS'
use Rattle.std.proofs.Common.{◌≡◌, ◌+◌, ◌*◌, ◌<◌, ◌≤◌, ℤ, pos, List, get_or, set, length, sym, ap, ◌∙◌, subst, subst₂, arith}
use Rattle.std.proofs.lemmas.List.{length-set, length-replicate}
use Rattle.reduce_bench.proofs.UnitRows.{units_begin, units_independent, units_more}
use Rattle.reduce_bench.specs.UnitFronts.{HasUnits}
use Rattle.spaces.specs.TableLaws.{length-with_row}
use Rattle.reduce_bench.proofs.kernel.Goals as goal

pub loop-k-init : goal.loop-k-init
loop-k-init c =
    let is = c.in_ok-grid.ensures in
    record {
      height = ap (λ t. t.rows) is;
      width = ap (λ t. t.width) is;
      size = subst (λ x. length x.items ≡ x.rows * x.width) (sym is) (length-replicate _ _);
      units = units_begin c.in_ok-grid.grid c.args.rows (c.args.rows + c.args.more) is;
    }

pub loop-k-preserved : goal.loop-k-preserved
loop-k-preserved c =
    let inv = c.loop-k.invariant in
    let row = c.draw-state.new.row in
    let lt : c.loop-k.k < c.args.rows = omega (arith, c.loop-k-test.true) in
    let there : c.loop-k.k < c.loop-k.grid.rows = omega (arith, lt, inv.height) in
    let long = c.draw-state.auto.row ∙ c.row_mut.ensures.width in
    record {
      height = inv.height;
      width = inv.width;
      size = length-with_row c.loop-k.grid c.loop-k.k row inv.size there long;
      units = units_more c.loop-k.grid c.args.rows c.loop-k.k row inv.size lt (sym inv.height) (omega (arith, inv.width)) long (λ i small. c.draw-state.ensures i small ∙ ap (λ (l : List ℤ). get_or (set l c.loop-k.k (pos 1)) i (pos 0)) c.row_mut.ensures.value) inv.units;
    }

pub returns-clause-independent : goal.returns-clause-independent
returns-clause-independent c =
    let inv = c.loop-k.invariant in
    let past : c.args.rows ≤ c.loop-k.k = omega (arith, c.loop-k-test.false) in
    let t = c.loop-k.grid in
    let units : HasUnits t c.args.rows c.args.rows = record { ones = λ i lt. inv.units.ones i (omega (arith, lt, past)); zeros = inv.units.zeros } in
    units_independent t (omega (arith, inv.height, inv.width)) (subst (λ r. HasUnits t r r) (sym inv.height) units)
PROOFS

cat > "$bench/src/main.rt" <<'MAIN'
#![tactic(auto)]

ghost use Rattle.std.specs.Prelude.{◌≡◌, ℕ, ◌+◌, ◌*◌, ◌^◌, ◌<◌, ◌≤◌, pos, length, get_or, set, IfOk};
ghost use Rattle.exact_math.specs.Ring.{integers};
ghost use Rattle.gram_minors.specs.Orthogonalisation.{IsIndependent};
ghost use Rattle.reduce_bench.specs.UnitFronts.{HasUnits};
ghost use Rattle.lattice_reduce.specs.Numbers.{items_of};
ghost use Rattle.spaces.specs.Tables.{rows_in};

use lattice_reduce::{ReduceStop, reduce};
use sequence::NoMemory;
use spaces::{Grid, Kernel};
use std::alloc::Global;
use std::io;
use std::time::Instant;

fn next(state: u64) -> u64 {
    state
        .wrapping_mul(6364136223846793005)
        .wrapping_add(1442695040888963407)
}

// A row of the unit matrix, and random entries of two digits behind it.
fn draw(row: &mut [i128], from: usize, k: usize, seed: u64) -> u64
    requires within { k < from }
    requires room { from ≤ length row.old }
    ensures { (i : ℕ) → i < from → get_or row.new i (pos 0) ≡ get_or (set row.old k (pos 1)) i (pos 0) }
{
    row[k] = 1;
    let mut state = seed;
    for j in from..row.len() {
        state = next(state);
        row[j] = i128::from((state >> 33) % 99) + 1;
    }
    state
}

// The kernel of `more` rows that end with a unit matrix.
fn kernel(alloc: Global, rows: usize, more: usize) -> Result<Grid<Kernel, i128>, NoMemory>
    requires few { rows ≤ 256 }
    requires short { more ≤ 256 }
    ensures height { IfOk result (λ g. g.rows ≡ rows) }
    ensures independent { IfOk result (λ g. IsIndependent integers g.width (items_of (rows_in g)) g.rows) }
{
    let mut grid = Grid::filled(alloc, rows, rows + more, 0)?;
    let mut state = 88172645463325252;
    for k in 0..rows {
        state = draw(grid.row_mut(k), rows, k, state);
    }
    Ok(grid)
}

fn main(rt: HostRuntime) -> io::Result<()> {
    for more in [1usize, 2, 3, 4, 5] {
        for rows in [9usize, 16, 30, 45] {
            let Ok(grid) = kernel(rt.alloc(), rows, more) else {
                return Ok(());
            };
            let mut least = u128::MAX;
            let mut steps = 0;
            let mut is_excused = false;
            for _ in 0..3 {
                let start = Instant::now(&rt)?;
                match reduce(rt.alloc(), &grid) {
                    Ok(reduced) => steps = reduced.steps.items().len(),
                    Err(ReduceStop::Excuse(excuse)) => {
                        steps = excuse.steps.items().len();
                        is_excused = true;
                    }
                    Err(ReduceStop::NoMemory) => {}
                }
                least = least.min(start.elapsed(&rt)?.as_nanos());
            }
            let micro = least / 1000;
            println!(rt;
                "lattice_reduce: kernel of {more}, {rows} vectors: {steps} steps, {micro} us, excuse {is_excused}"
            )?;
        }
    }
    Ok(())
}
MAIN

(cd "$bench" && rt run > "$work/log" 2>&1) || { tail -n 40 "$work/log"; exit 1; }
grep '^lattice_reduce: ' "$work/log"
