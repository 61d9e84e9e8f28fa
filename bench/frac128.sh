#!/usr/bin/env bash
# Prints nanoseconds per operation of the crate `frac128`, and of the same operations in plain Rust
# with u128 and a gcd by division, where `rustc` is installed. It builds in a temporary folder.
set -euo pipefail
top=$(cd "$(dirname "$0")/.." && pwd)
work=$(mktemp -d)
trap 'rm -rf "$work"' EXIT

mkdir -p "$work/crates/frac_bench/src"
for crate in exact_math frac128; do
    mkdir "$work/crates/$crate"
    for part in src specs proofs; do
        cp -r "$top/crates/$crate/$part" "$work/crates/$crate/"
    done
done
cat > "$work/crates.txt" <<'EOF'
exact_math:
frac128: exact_math
frac_bench: frac128
EOF

cat > "$work/crates/frac_bench/src/main.rt" <<'EOF'
#![tactic(auto)]

use std::alloc::{AllocError, Global};
use std::cmp::Ordering;
use std::io;
use std::time::Instant;

use frac128::Frac;

const COUNT: u32 = 1024;
const ROUNDS: u32 = 201;

const SEED: u64 = 88172645463325252;

fn next(state: u64) -> u64 {
    state.wrapping_mul(6364136223846793005).wrapping_add(1442695040888963407)
}

// The low bits of a state repeat early: the high ones are mixed in.
fn word(state: u64) -> u64 {
    state ^ (state >> 32)
}

fn drawn(high: u64, low: u64, mask: u128) -> u128 {
    (u128::from(word(high)) << 64 | u128::from(word(low))) & mask
}

fn fraction(negative: bool, size: u128, den: u128) -> Option<Frac> {
    let size = i128::try_from(size).ok()?;
    let den = i128::try_from(den).ok()?;
    if den == 0 || size == i128::MIN {
        return None;
    }
    Frac::new(if negative { -size } else { size }, den).ok()
}

// Numerators as drawn; denominators too, or parts of the one that is given.
fn operands(alloc: Global, mask: u128, common: Option<u128>) -> Result<Vec<Frac>, AllocError> {
    let mut all = Vec::new(alloc);
    let mut state = SEED;
    for _ in 0..COUNT {
        let first = next(state);
        let second = next(first);
        let third = next(second);
        state = next(third);
        let size = drawn(first, second, mask);
        let den = common.unwrap_or(drawn(third, state, mask).max(1));
        if let Some(q) = fraction(first >> 63 == 1, size, den) {
            all.push(q)?;
        }
    }
    Ok(all)
}

// Terms of 120 bits, of which neighbours have 113 crosswise in common, so that their products are in range.
fn chain(alloc: Global, mask: u128) -> Result<Vec<Frac>, AllocError> {
    let mut all = Vec::new(alloc);
    let mut state = SEED;
    let mut above = mask;
    for _ in 0..COUNT {
        let first = next(state);
        let second = next(first);
        let third = next(second);
        state = next(third);
        let below = drawn(first, second, mask).max(1);
        let size = above.wrapping_mul(u128::from(word(third) & 127 | 1));
        let den = below.wrapping_mul(u128::from(word(state) & 127 | 1));
        above = below;
        if let Some(q) = fraction(first >> 63 == 1, size, den) {
            all.push(q)?;
        }
    }
    Ok(all)
}

fn sums(all: &[Frac]) -> (u64, i128) {
    let mut wide = 0u64;
    let mut check = 0;
    for _ in 0..ROUNDS {
        for pair in all.windows(2) {
            if let [p, q] = pair {
                match p.add(q) {
                    Ok(r) => check ^= r.num() ^ r.den(),
                    Err(_) => wide = wide.wrapping_add(1),
                }
            }
        }
    }
    (wide, check)
}

fn products(all: &[Frac]) -> (u64, i128) {
    let mut wide = 0u64;
    let mut check = 0;
    for _ in 0..ROUNDS {
        for pair in all.windows(2) {
            if let [p, q] = pair {
                match p.mul(q) {
                    Ok(r) => check ^= r.num() ^ r.den(),
                    Err(_) => wide = wide.wrapping_add(1),
                }
            }
        }
    }
    (wide, check)
}

fn comparisons(all: &[Frac]) -> u64 {
    let mut less = 0u64;
    for _ in 0..ROUNDS {
        for pair in all.windows(2) {
            if let [p, q] = pair {
                if p.cmp(q) == Ordering::Less {
                    less = less.wrapping_add(1);
                }
            }
        }
    }
    less
}

// Tenths of nanoseconds of a call.
fn tenths(nanos: u128) -> u128 {
    nanos.saturating_mul(10) / (u128::from(COUNT) * u128::from(ROUNDS))
}

fn measure(rt: &HostRuntime, bits: u32, summands: &[Frac], factors: &[Frac], others: &[Frac]) -> io::Result<()> {
    let mut add = u128::MAX;
    let mut mul = u128::MAX;
    let mut cmp = u128::MAX;
    let mut sum = (0, 0);
    let mut product = (0, 0);
    let mut order = 0;

    // The least of three passes.
    for _ in 0..3 {
        let start = Instant::now(rt)?;
        sum = sums(summands);
        add = add.min(start.elapsed(rt)?.as_nanos());
        let start = Instant::now(rt)?;
        product = products(factors);
        mul = mul.min(start.elapsed(rt)?.as_nanos());
        let start = Instant::now(rt)?;
        order = comparisons(others);
        cmp = cmp.min(start.elapsed(rt)?.as_nanos());
    }
    let (add, mul, cmp) = (tenths(add), tenths(mul), tenths(cmp));
    println!(rt; "frac128 {bits} bits: add {}.{} mul {}.{} cmp {}.{} ns  (wide {} {}, check {} {} {order})", add / 10, add % 10, mul / 10, mul % 10, cmp / 10, cmp % 10, sum.0, product.0, sum.1, product.1)?;
    Ok(())
}

fn main(rt: HostRuntime) -> io::Result<()> {
    for (bits, mask) in [(30, 1073741823u128), (60, 1152921504606846975u128)] {
        let all = operands(rt.alloc(), mask, None)?;
        measure(&rt, bits, all.as_slice(), all.as_slice(), all.as_slice())?;
    }
    let mask = 1329227995784915872903807060280344575u128;
    let summands = operands(rt.alloc(), mask, Some(mask))?;
    let factors = chain(rt.alloc(), 10384593717069655257060992658440191)?;
    let others = operands(rt.alloc(), mask, None)?;
    measure(&rt, 120, summands.as_slice(), factors.as_slice(), others.as_slice())
}
EOF

(cd "$work/crates/frac_bench" && rt run > "$work/log" 2>&1) || { cat "$work/log"; exit 1; }
grep '^frac128 ' "$work/log"

if command -v rustc > /dev/null; then
    cat > "$work/plain.rs" <<'EOF'
use std::cmp::Ordering;
use std::time::Instant;

const COUNT: u32 = 1024;
const ROUNDS: u32 = 201;
const PASSES: u64 = 3;
const SEED: u64 = 88172645463325252;
const LIMIT: u128 = 1 << 127;

fn gcd(mut a: u128, mut b: u128) -> u128 {
    while b != 0 {
        let rest = a % b;
        a = b;
        b = rest;
    }
    a
}

#[derive(Clone, Copy)]
struct Frac {
    num: i128,
    den: u128,
}

fn signed(negative: bool, size: u128) -> i128 {
    if negative { -(size as i128) } else { size as i128 }
}

fn product(x: u128, y: u128) -> Option<u128> {
    x.checked_mul(y).filter(|z| *z < LIMIT)
}

fn multiple(x: i128, y: u128) -> Option<i128> {
    Some(signed(x < 0, product(x.unsigned_abs(), y)?))
}

impl Frac {
    fn new(num: i128, den: u128) -> Frac {
        let common = gcd(num.unsigned_abs(), den);
        Frac { num: signed(num < 0, num.unsigned_abs() / common), den: den / common }
    }

    fn add(&self, other: &Frac) -> Option<Frac> {
        let common = gcd(self.den, other.den);
        let first = multiple(self.num, other.den / common)?;
        let second = multiple(other.num, self.den / common)?;
        let num = first.checked_add(second).filter(|z| *z != i128::MIN)?;
        let den = product(self.den / common, other.den)?;
        Some(Frac::new(num, den))
    }

    fn mul(&self, other: &Frac) -> Option<Frac> {
        let left = gcd(self.num.unsigned_abs(), other.den);
        let right = gcd(other.num.unsigned_abs(), self.den);
        let size = product(self.num.unsigned_abs() / left, other.num.unsigned_abs() / right)?;
        let den = product(self.den / right, other.den / left)?;
        Some(Frac { num: signed((self.num < 0) != (other.num < 0), size), den })
    }

    fn cmp(&self, other: &Frac) -> Ordering {
        let parts = |q: &Frac| (q.num.unsigned_abs(), q.den);
        match (self.num < 0, other.num < 0) {
            (true, false) => Ordering::Less,
            (false, true) => Ordering::Greater,
            (false, false) => compare(parts(self), parts(other)),
            (true, true) => compare(parts(other), parts(self)),
        }
    }
}

fn compare((mut a, mut b): (u128, u128), (mut c, mut d): (u128, u128)) -> Ordering {
    loop {
        let (left, right) = (a / b, c / d);
        if left != right {
            return left.cmp(&right);
        }
        let (left, right) = (a % b, c % d);
        if left == 0 || right == 0 {
            return left.cmp(&right);
        }
        (a, b, c, d) = (d, right, b, left);
    }
}

fn next(state: u64) -> u64 {
    state.wrapping_mul(6364136223846793005).wrapping_add(1442695040888963407)
}

fn word(state: u64) -> u64 {
    state ^ (state >> 32)
}

fn drawn(high: u64, low: u64, mask: u128) -> u128 {
    ((word(high) as u128) << 64 | word(low) as u128) & mask
}

fn operands(mask: u128, common: Option<u128>) -> Vec<Frac> {
    let mut all = Vec::new();
    let mut state = SEED;
    for _ in 0..COUNT {
        let first = next(state);
        let second = next(first);
        let third = next(second);
        state = next(third);
        let size = drawn(first, second, mask);
        let den = common.unwrap_or(drawn(third, state, mask).max(1));
        all.push(Frac::new(signed(first >> 63 == 1, size), den));
    }
    all
}

fn chain(mask: u128) -> Vec<Frac> {
    let mut all = Vec::new();
    let mut state = SEED;
    let mut above = mask;
    for _ in 0..COUNT {
        let first = next(state);
        let second = next(first);
        let third = next(second);
        state = next(third);
        let below = drawn(first, second, mask).max(1);
        let size = above * (word(third) & 127 | 1) as u128;
        let den = below * (word(state) & 127 | 1) as u128;
        above = below;
        all.push(Frac::new(signed(first >> 63 == 1, size), den));
    }
    all
}

// The least of three passes.
fn timed(all: &[Frac], mut call: impl FnMut(&Frac, &Frac)) -> f64 {
    let pass = |_| {
        let start = Instant::now();
        for _ in 0..ROUNDS {
            for pair in all.windows(2) {
                call(&pair[0], &pair[1]);
            }
        }
        start.elapsed().as_nanos()
    };
    (0..PASSES).map(pass).min().unwrap() as f64 / (COUNT as f64 * ROUNDS as f64)
}

fn measure(bits: u32, summands: &[Frac], factors: &[Frac], others: &[Frac]) {
    let (mut wide_sums, mut wide_products, mut less) = (0u64, 0u64, 0u64);
    let (mut sums, mut products) = (0i128, 0i128);
    let add = timed(summands, |p, q| match p.add(q) {
        Some(r) => sums ^= r.num ^ r.den as i128,
        None => wide_sums += 1,
    });
    let mul = timed(factors, |p, q| match p.mul(q) {
        Some(r) => products ^= r.num ^ r.den as i128,
        None => wide_products += 1,
    });
    let cmp = timed(others, |p, q| less += (p.cmp(q) == Ordering::Less) as u64);
    let (wide_sums, wide_products, less) = (wide_sums / PASSES, wide_products / PASSES, less / PASSES);
    println!("plain   {bits} bits: add {add:.1} mul {mul:.1} cmp {cmp:.1} ns  (wide {wide_sums} {wide_products}, check {sums} {products} {less})");
}

fn main() {
    for bits in [30, 60] {
        let all = operands((1 << bits) - 1, None);
        measure(bits, &all, &all, &all);
    }
    let mask = (1 << 120) - 1;
    measure(120, &operands(mask, Some(mask)), &chain((1 << 113) - 1), &operands(mask, None));
}
EOF
    rustc -O -o "$work/plain" "$work/plain.rs"
    "$work/plain"
fi
