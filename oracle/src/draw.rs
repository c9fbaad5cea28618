// The pairs of patterns that compoundf is given: some at random, most aimed at one of its routes or
// at a threshold of its tests.

use crate::compound::compoundf::compoundf_log2p1_fast;
use crate::edges::power;
use crate::random::Random;
use crate::told::trace::{exp2_parts, FAST_ERROR};
use std::f64::consts::LN_2;
use std::ops::Range;

// The patterns of x and y.
pub type Pair = [u32; 2];

pub const SIGN: u32 = 1 << 31;

// Added to a smaller number and taken away again, it leaves the nearest whole one.
const ROUNDER: f64 = 1.5 * power(52);

// Where a test on x turns, or the rounding of 1 + x does. They serve with either sign.
pub const X_THRESHOLDS: [u32; 18] = [
    0x0000_0000, // zero
    0x0080_0000, // normal numbers
    0x2480_0000, // 2^-54, up to where 1 - |x| is 1
    0x2500_0000, // 2^-53, up to where 1 + x is 1; below it the slow path does not add x to 1
    0x2540_0000, // 1.5 * 2^-53, from where 1 - |x| is the next f64
    0x2580_0000, // 2^-52
    0x25c0_0000, // 1.5 * 2^-52, from where 1 + x is the next f64
    0x3080_0000, // 2^-30, from where 1 - |x| is exact
    0x3100_0000, // 2^-29, from where 1 + x is exact; the whole exponents' tiny x
    0x3e95_f61a, // 1 - sqrt 1/2
    0x3ed4_13cd, // sqrt 2 - 1
    0x3f00_0000, // 1/2
    0x3f80_0000, // 1
    0x5a00_0000, // 2^53, from where 1 + x is x
    0x5a80_0000, // 2^54, up to where the slow path's sum is exact
    0x5f80_0000, // 2^64, past the whole exponents
    0x7f80_0000, // infinity
    0x7fc0_0000, // quiet NaNs
];

// The same for y. The whole numbers 1 to 16 belong here too.
pub const Y_THRESHOLDS: [u32; 9] = [
    0x0000_0000, // zero
    0x0080_0000, // normal numbers
    0x3f00_0000, // 1/2
    0x3fc0_0000, // 3/2
    0x4188_0000, // 17, past the whole exponents
    0x4b00_0000, // 2^23, from where all are whole
    0x4b80_0000, // 2^24
    0x7f80_0000, // infinity
    0x7fc0_0000, // quiet NaNs
];

// The same for t.
pub const T_THRESHOLDS: [f64; 18] = [
    -150.0,
    -149.0,
    -128.0,
    -126.0, // subnormal answers
    -3.5,   // k changes
    -2.5,
    -0.5,
    -f64::from_bits(0x3e67_1547_6ba9_7f14), // the edge's constant, read as it stands
    f64::from_bits(0x3e67_1547_6ba9_7f14),
    -f64::from_bits(0x3e67_1547_6af0_d4c8), // the slow path's tiny t
    f64::from_bits(0x3e67_1547_6af0_d4c8),
    -f64::from_bits(0x3f60_0000_0000_0000), // its small t
    f64::from_bits(0x3f60_0000_0000_0000),
    0.5,
    127.0,
    127.5,
    f64::from_bits(0x405f_ffff_ffd1_d571), // answers that round to 2^128
    128.0,
];

// One pair. The number says which kind it is of.
pub fn pair(r: &mut Random, number: u64) -> Pair {
    if number % 2048 == 0 {
        return by_midpoint(r);
    }
    match number % 16 {
        0 => [r.pattern(), r.pattern()],
        1 | 2 => by_thresholds(r),
        3 | 4 => rule(r),
        5..=7 => whole(r),
        8 => edge(r),
        9..=11 => fast(r),
        12 | 13 => subnormal(r),
        _ => near_one(r),
    }
}

// x and y by thresholds, or one of them; or y so that t is by one.
fn by_thresholds(r: &mut Random) -> Pair {
    let x = match r.below(4) {
        0 => base(r),
        1 => log_turn(r.below(153) as i64 - 24, r.below(46) as u32),
        _ => f32::from_bits(r.pick(&X_THRESHOLDS) | sign(r)),
    };
    let x = beside(r, x);
    let y = match r.below(4) {
        0 => f32::from_bits(r.pattern()),
        1 => f32::from_bits(r.pick(&Y_THRESHOLDS) | sign(r)),
        2 => whole_number(r),
        _ => y_for(x, if r.below(2) == 0 { r.pick(&T_THRESHOLDS) } else { exp2_turn(r) }),
    };
    [x, beside(r, y)].map(f32::to_bits)
}

// Special operands, and x of -1 or less, against anything.
fn rule(r: &mut Random) -> Pair {
    match r.below(4) {
        0 => [special(r), r.pattern()],
        1 => [r.pattern(), special(r)],
        2 => [special(r), special(r)],
        _ => [r.within(0xbf80_0000, 0xff80_0000), r.pattern()],
    }
}

// A zero, an infinity, 1, a NaN of either kind; all with either sign.
fn special(r: &mut Random) -> u32 {
    let nan = r.within(0x7f80_0001, 0x7fff_ffff);
    r.pick(&[0, 0x7f80_0000, 0x3f80_0000, 0x7fc0_0000, nan]) | sign(r)
}

// Whole y up to 16 against x of every size.
fn whole(r: &mut Random) -> Pair {
    let x = if r.below(8) == 0 { tiny(r) } else { base(r) };
    [x, whole_number(r)].map(f32::to_bits)
}

// t beyond both ends, and x that 1 + x loses.
fn edge(r: &mut Random) -> Pair {
    if r.below(2) == 0 {
        let x = tiny(r);
        return [x.to_bits(), r.within(1, 0x7f7f_ffff) | sign(r)];
    }
    let x = base(r);
    let t = r.pick(&[-150.0, 128.0]) * r.between(0, 20).abs();
    [x, y_for(x, t)].map(f32::to_bits)
}

// t of every size between the ends, and whole y above 16.
fn fast(r: &mut Random) -> Pair {
    let x = base(r);
    let y = match r.below(8) {
        0 | 1 => r.within(17, 100_000) as f32,
        2 => y_for(x, r.between(-20, 6)),
        3 => y_for(x, r.between(-140, -20)),
        4 => y_for(x, 128.0 - power(-18)),
        _ => y_for(x, r.real(-126.0, 128.0)),
    };
    [x, y].map(f32::to_bits)
}

// t for which the answer is subnormal.
fn subnormal(r: &mut Random) -> Pair {
    let x = base(r);
    [x, y_for(x, r.real(-150.0, -126.0))].map(f32::to_bits)
}

// Answers by one of the midpoints next to 1, where t is small and y can be chosen finely enough.
fn near_one(r: &mut Random) -> Pair {
    let x = base(r);
    let odd = (r.within(1, 1 << 10) >> r.below(10) | 1) as f64;
    let middle = if r.below(2) == 0 { odd * power(-24) } else { -odd * power(-25) };
    [x, y_for(x, compoundf_log2p1_fast(middle))].map(f32::to_bits)
}

// Answers by any midpoint between the least normal number and 2^128, as near as the fast path's
// test asks or a little less.
fn by_midpoint(r: &mut Random) -> Pair {
    let (x, mut t) = (base(r), r.real(-125.0, 125.0));
    loop {
        if let Some(y) = y_by_midpoint(x, t, 0.0..1.1) {
            return [x, y].map(f32::to_bits);
        }
        t += power(-10) / LN_2;
    }
}

// Among the y's next to the one for t, one whose answer lies by the middle of two f32s: its
// distance, as a part of the error that the fast path allows for, is in the band.
pub fn y_by_midpoint(x: f32, t: f64, band: Range<f64>) -> Option<f32> {
    const BLOCK: usize = 16;
    let y = y_for(x, t);
    let l = compoundf_log2p1_fast(x as f64);
    let (_, _, v) = exp2_parts(l * y as f64);
    let last_place = power(if v < 1.0 { -24 } else { -23 });
    let error = FAST_ERROR / last_place;
    let band = band.start * error..band.end * error;
    let after = |n: usize| f32::from_bits(y.to_bits() + n as u32);
    let step = LN_2 * l * (after(1) - y) as f64;
    let distance = |n: usize| {
        let d = n as i32 as f64 * step;
        let power = 1.0 + d * (1.0 + d * (1.0 / 2.0 + d * (1.0 / 6.0 + d * (1.0 / 24.0))));
        let places = v / last_place * power;
        0.5 - (places - (places + ROUNDER - ROUNDER)).abs()
    };
    // Over so few y's that polynomial is near enough. Whole blocks of them are looked at together.
    let steps = (power(-10) / step.abs()).min(1024.0) as usize;
    (0..steps).step_by(BLOCK).find_map(|block| {
        let distances: [f64; BLOCK] = std::array::from_fn(|n| distance(block + n));
        let least = distances.iter().fold(1.0, |a, &b| if b < a { b } else { a });
        if least >= band.end {
            return None;
        }
        let n = distances.iter().position(|d| band.contains(d))?;
        Some(after(block + n))
    })
}

// The b and y for which b^y is the middle of two normal f32s: y = p/q and b = s^q, up to powers of
// two, where s^p has 25 bits.
fn midpoint_bases() -> Vec<(f64, f32)> {
    let mut list = Vec::new();
    for (p, odd) in [(3, 257..=321), (5, 29..=31), (7, 11..=11)] {
        for (s, q) in odd.step_by(2).flat_map(|s| [2, 4, 8].map(|q| (s as f64, q))) {
            let exact = s.powi(q) < power(53);
            let bases = (-12..64).map(|j| s.powi(q) * power(q as i64 * j));
            let bases = bases.filter(|b| exact && (power(-24)..power(128)).contains(b));
            list.extend(bases.map(|b| (b, p as f32 / q as f32)));
        }
    }
    list
}

// The pairs whose answer is such a middle, and the one whose answer is subnormal and a middle too.
pub fn midpoints() -> Vec<Pair> {
    let bases = midpoint_bases().into_iter().filter(|&(b, _)| b < power(53));
    let pairs = bases.map(|(b, y)| (b - 1.0, y)).chain([(9.0 * power(-20) - 1.0, 7.5)]);
    f32_pairs(pairs)
}

// Pairs whose answer is all but such a middle: x itself is b, so large that 1 + x is hardly more.
pub fn almost_midpoints() -> Vec<Pair> {
    let is_within = |b, y| b >= power(40) && compoundf_log2p1_fast(b) * y < 128.0;
    f32_pairs(midpoint_bases().into_iter().filter(|&(b, y)| is_within(b, y as f64)))
}

// Those of the pairs whose x is an f32.
fn f32_pairs(pairs: impl Iterator<Item = (f64, f32)>) -> Vec<Pair> {
    let exact = pairs.filter(|&(x, _)| x as f32 as f64 == x);
    exact.map(|(x, y)| [(x as f32).to_bits(), y.to_bits()]).collect()
}

// The y that brings the first logarithm times y to about t.
pub fn y_for(x: f32, t: f64) -> f32 {
    (t / compoundf_log2p1_fast(x as f64)) as f32
}

// An x that 1 + x keeps: |x| below 1, or so small that 1 + x keeps little of it; 1 + x small; x
// large; or of the size that a cell loses.
pub fn base(r: &mut Random) -> f32 {
    let pattern = match r.below(8) {
        0 => r.within(0x2500_0001, 0x3f7f_ffff),
        1 => r.within(0xa480_0001, 0xbf7f_ffff),
        2 => r.within(0x2500_0001, 0x2680_0000) + r.pick(&[0, SIGN - 0x0080_0000]),
        3 | 4 => (f32::from_bits(r.within(0x3380_0000, 0x3f00_0000)) - 1.0).to_bits(),
        5 | 6 => r.within(0x3f80_0000, 0x7f7f_ffff),
        _ => r.within(0xb586_37bd, 0xbc23_d70a),
    };
    f32::from_bits(pattern)
}

// An x that 1 + x loses.
fn tiny(r: &mut Random) -> f32 {
    f32::from_bits(r.within(1, 0x2480_0000) | sign(r))
}

// A whole y up to 16, of either sign.
fn whole_number(r: &mut Random) -> f32 {
    f32::from_bits((r.within(1, 16) as f32).to_bits() | sign(r))
}

// The x at which index i of the logarithm begins, where the exponent is e.
pub fn log_turn(e: i64, i: u32) -> f32 {
    let start = if i == 0 { 0.5f64.sqrt() } else { 0.5 + (i + 13) as f64 / 64.0 };
    (start * power(e) - 1.0) as f32
}

// A t at which an index of the exponential begins.
fn exp2_turn(r: &mut Random) -> f64 {
    r.within(0, 278) as f64 - 150.0 + (r.within(0, 32) as f64 - 16.5) / 32.0
}

// One of the three patterns below, the pattern itself, or one of the three above.
fn beside(r: &mut Random, x: f32) -> f32 {
    f32::from_bits(x.to_bits().wrapping_add(r.within(0, 6)).wrapping_sub(3))
}

// Either sign.
fn sign(r: &mut Random) -> u32 {
    r.pattern() & SIGN
}
