// The branches of the Rust that a pair takes, found by retracing its operations. The list of pairs
// for the replay (vectors.rs) is chosen by them.

use super::*;
use std::ops::RangeInclusive;

// A place in the Rust where ways part, and the number of the way that was taken.
pub type Label = (&'static str, i64);

// All that some pair takes. The number is e, k, y or an index of the Rust; or the place of a return
// or of a test among its like, or the kind of an answer (`class`); or 0 for no and 1 for yes.
//
// These branches of the Rust are missing, as no pair takes them:
// - special return 13 (y infinite, x neither below nor above 0): x is neither zero nor NaN there;
// - special return 22, the last: whatever makes a pair special fits one of the returns before it;
// - e below -24: the x next to -1 gives 1 + x = 2^-24, so the first five scales are never read;
// - the tiny edges, for a t that is not zero: their constant, shifted back, is about 2^-524, while
//   a logarithm other than 0 makes |t| at least 2^-53 * 2^-149;
// - fast answers that are zero or subnormal: the test for underflow leaves them to the slow path;
// - y = 1 on the slow path: x is at least 2^64 there and the answer is x, an f32, so that its fast
//   value lies nowhere near the middle of two of them (tried with each of these x);
// - to odd, 1 (the sum is not hi): hi is that sum already, and lo is what is left of it.
pub const REACHED: [(&str, RangeInclusive<i64>); 42] = [
    ("f_compoundf: special test", 0..=4),
    ("special: return", 0..=12),
    ("special: return", 14..=21),
    ("f_compoundf: test that is not whole", 0..=2),
    ("whole: tiny, y", -16..=-1),
    ("whole: tiny, y", 1..=16),
    ("whole: y", -16..=-1),
    ("whole: y", 1..=16),
    ("log2p1_fast: at least sqrt 2", 0..=1),
    ("log2p1_fast: e", -24..=128),
    ("log2p1_fast: index", 0..=45),
    ("f_compoundf: edge", 0..=3),
    ("f_compoundf: |t| at least 128, no edge", 0..=1),
    ("exp2_fast: k", -150..=128),
    ("exp2_fast: index", 0..=32),
    ("exp2_fast: underflow", 0..=0),
    ("exp2_fast: rounding test failed", 0..=1),
    ("exp2_fast: just failed, index of the logarithm", 0..=45),
    ("exp2_fast: just passed, index of the logarithm", 0..=45),
    ("log2p1_accurate: 1 >= x", 0..=1),
    ("log2p1_accurate: |x| >= 2^-53", 0..=1),
    ("log2p1_accurate: at least sqrt 2", 0..=1),
    ("log2p1_accurate: e", -24..=128),
    ("log2p1_accurate: index", 0..=45),
    ("exp2_accurate: k", SLOW_K),
    ("exp2_accurate: k is 0", 0..=1),
    ("exp2_accurate: tiny", 0..=1),
    ("exp2_accurate: tiny and above 0", 0..=1),
    ("exp2_accurate: index", 0..=32),
    ("exp2_accurate: near a midpoint", 0..=1),
    ("exp2_accurate: small", 0..=1),
    ("exp2_accurate: to odd", 0..=0),
    ("exp2_accurate: to odd", 2..=4),
    ("rule: answer", 0..=0),
    ("rule: answer", 3..=3),
    ("rule: answer", 5..=6),
    ("whole: answer", 0..=5),
    ("edge: answer", 0..=0),
    ("edge: answer", 3..=3),
    ("edge: answer", 5..=5),
    ("fast: answer", 2..=5),
    ("slow: answer", 0..=5),
];

// What the fast path's test allows for, before the scaling by 2^k.
pub const FAST_ERROR: f64 = f64::from_bits(0x3d61_d000_0000_0000);

// The k's of the slow path. They go past the t's by a half, where 1 + x keeps two thirds of a tiny
// x. For 192 such an x wants a slow t above 127.66, and of all y's none makes one.
pub const SLOW_K: RangeInclusive<i64> = -225..=191;

// Notes the ways that a pair takes, and checks the retracing by its answer and route.
pub fn trace(pair: Pair) -> Vec<Label> {
    let mut trace = Trace(Vec::new());
    let [x, y] = pair.map(f32::from_bits);
    let (via, r) = trace.f_compoundf(x, y);
    assert!(Told::new(via, r) == rust(pair), "retraced wrongly at {pair:08x?}");
    let place = ["rule: answer", "whole: answer", "edge: answer", "fast: answer", "slow: answer"];
    trace.note(place[via as usize], class(r));
    trace.0
}

// The kind of an answer: zero, subnormal, below 1, 1, above 1, infinite, NaN.
fn class(r: f32) -> i64 {
    let ends = [0, 0x007f_ffff, 0x3f7f_ffff, 0x3f80_0000, 0x7f7f_ffff, 0x7f80_0000];
    ends.into_iter().filter(|&end| r.to_bits() > end).count() as i64
}

// k, the index and the value before the scaling by 2^k, as `exp2_fast` has them.
pub fn exp2_parts(t: f64) -> (f64, usize, f64) {
    let k = t.cpu_round_ties_even();
    let i = exp2_index(t - k);
    let r = t - k - f64::from_bits(COMPOUNDF_EXP2_T[i]);
    (k, i, f64::from_bits(COMPOUNDF_EXP2_U[i].1) * compoundf_expf_poly(r))
}

// The index that both exponentials take.
fn exp2_index(r: f64) -> usize {
    ((3.015625 + r).to_bits() >> 46) as usize - 0x10010
}

// x * 2^k, by the exponent field.
fn scaled(x: f64, k: f64) -> f64 {
    f64::from_bits(x.to_bits().wrapping_add((k as i64).wrapping_shl(52) as u64))
}

// What was noted so far.
struct Trace(Vec<Label>);

impl Trace {
    // One way.
    fn note(&mut self, place: &'static str, way: i64) {
        self.0.push((place, way));
    }

    // One test.
    fn test(&mut self, place: &'static str, is: bool) -> bool {
        self.note(place, is as i64);
        is
    }

    // The whole function.
    fn f_compoundf(&mut self, x: f32, y: f32) -> (Route, f32) {
        if let Some(test) = special_test(x, y) {
            self.note("f_compoundf: special test", test as i64);
            return (Route::Rule, self.special(x, y));
        }
        match whole_test(x, y) {
            None => return (Route::Whole, self.whole(x, y)),
            Some(test) => self.note("f_compoundf: test that is not whole", test as i64),
        }
        let places = ["log2p1_fast: at least sqrt 2", "log2p1_fast: e", "log2p1_fast: index"];
        let index = self.log2p1(1.0 + x as f64, places);
        let t = compoundf_log2p1_fast(x as f64) * y as f64;
        if let Some((number, r)) = edge(t) {
            self.note("f_compoundf: edge", number);
            return (Route::Edge, r);
        }
        self.test("f_compoundf: |t| at least 128, no edge", t.abs() >= 128.0);
        match self.exp2_fast(t, index) {
            Some(v) => (Route::Fast, v as f32),
            None => (Route::Slow, self.accurate(x, y)),
        }
    }

    // The special operands: which return answers.
    fn special(&mut self, x: f32, y: f32) -> f32 {
        const ABOVE: f32 = f32::INFINITY;
        const BELOW: f32 = f32::NEG_INFINITY;
        let (number, r) = match (x, y) {
            (0.0, _) if y.is_nan() => (0, x + y),
            (0.0, _) => (1, 1.0),
            (_, 0.0) if x.is_nan() => (2, x + y),
            (_, 0.0) if x < -1.0 => (3, f32::NAN),
            (_, 0.0) => (4, 1.0),
            _ if x.is_nan() && !y.is_finite() => (5, x + y),
            (_, ABOVE | BELOW) if x < -1.0 => (6, f32::NAN),
            (-1.0, ABOVE) => (7, 0.0),
            (-1.0, BELOW) => (8, ABOVE),
            (_, ABOVE) if x < 0.0 => (9, 0.0),
            (_, BELOW) if x < 0.0 => (10, ABOVE),
            (_, BELOW) => (11, 0.0),
            (_, ABOVE) => (12, ABOVE),
            _ if y.is_nan() => (14, x + y),
            (BELOW, _) => (15, f32::NAN),
            (ABOVE, _) if y < 0.0 => (16, 1.0 / x),
            (ABOVE, _) => (17, x),
            _ if x.is_nan() => (18, x + y),
            _ if x < -1.0 => (19, f32::NAN),
            _ if y < 0.0 => (20, ABOVE),
            _ => (21, 0.0),
        };
        self.note("special: return", number);
        r
    }

    // The whole exponents.
    fn whole(&mut self, x: f32, y: f32) -> f32 {
        self.note(if whole_tiny(x) { "whole: tiny, y" } else { "whole: y" }, y as i64);
        whole(x, y)
    }

    // What both logarithms do with 1 + x: the test of its fraction, its exponent, the index.
    fn log2p1(&mut self, u: f64, [fraction, exponent, index]: [&'static str; 3]) -> i64 {
        let v = u.to_bits();
        let above = self.test(fraction, v & 0xf_ffff_ffff_ffff >= 0x6_a09e_667f_3bcd);
        let e = (v >> 52) as i64 - 0x3ff + above as i64;
        self.note(exponent, e);
        let t = f64::from_bits(v.wrapping_sub((e << 52) as u64));
        let i = ((t + 2.0).to_bits() >> 45) as i64 - 0x2002d;
        self.note(index, i);
        i
    }

    // The fast exponential: nothing where it leaves the pair to the slow path. Where its rounding
    // test would turn out otherwise for a tenth more or less of error, the logarithm's index is
    // noted too.
    fn exp2_fast(&mut self, t: f64, log_index: i64) -> Option<f64> {
        let (k, i, v) = exp2_parts(t);
        self.note("exp2_fast: k", k as i64);
        self.note("exp2_fast: index", i as i64);
        let v = scaled(v, k);
        if v < f64::from_bits(0x3810_0000_0000_08e2) {
            self.note("exp2_fast: underflow", 0);
            return None;
        }
        let err = scaled(FAST_ERROR, k);
        let fails = |err: f64| (v - err) as f32 != (v + err) as f32;
        let failed = self.test("exp2_fast: rounding test failed", fails(err));
        if failed && !fails(0.9 * err) {
            self.note("exp2_fast: just failed, index of the logarithm", log_index);
        }
        if !failed && fails(1.1 * err) {
            self.note("exp2_fast: just passed, index of the logarithm", log_index);
        }
        (!failed).then_some(v)
    }

    // The slow path.
    fn accurate(&mut self, x: f32, y: f32) -> f32 {
        let mut u = 1.0 + x as f64;
        if self.test("log2p1_accurate: 1 >= x", 1.0 >= x)
            && !self.test("log2p1_accurate: |x| >= 2^-53", x.abs() >= f32::from_bits(0x2500_0000))
        {
            u = 1.0;
        }
        let places =
            ["log2p1_accurate: at least sqrt 2", "log2p1_accurate: e", "log2p1_accurate: index"];
        self.log2p1(u, places);
        let h = DoubleDouble::quick_mult_f64(compoundf_log2p1_accurate(x as f64), y as f64);
        self.exp2_accurate(h, x, y)
    }

    // The slow exponential.
    fn exp2_accurate(&mut self, h: DoubleDouble, x: f32, y: f32) -> f32 {
        if y == 1.0 {
            self.note("exp2_accurate: y is 1", 0);
            return 1.0 + x;
        }
        let k = h.hi.cpu_round_ties_even();
        self.note("exp2_accurate: k", k as i64);
        let tiny = h.hi.abs() <= f64::from_bits(0x3e67_1547_6af0_d4c8);
        if self.test("exp2_accurate: k is 0", k == 0.0) && self.test("exp2_accurate: tiny", tiny) {
            self.test("exp2_accurate: tiny and above 0", h.hi > 0.0);
            return (1.0 + h.hi * 0.5) as f32;
        }

        let mut r = DoubleDouble::from_exact_add(h.hi - k, h.lo);
        let i = exp2_index(r.hi);
        self.note("exp2_accurate: index", i as i64);
        r.hi -= f64::from_bits(COMPOUNDF_EXP2_T[i]);
        let power = compoundf_exp2_poly2(DoubleDouble::from_exact_add(r.hi, r.lo));
        let q = DoubleDouble::from_bit_pair(COMPOUNDF_EXP2_U[i]);
        let q = DoubleDouble::quick_mult(q, power);
        let q = DoubleDouble::from_exact_add(q.hi, q.lo);

        let mut w = q.hi.to_bits();
        if self.test("exp2_accurate: near a midpoint", w.wrapping_add(1) & 0xfff_ffff <= 2) {
            let small = k == 0.0 && i == 16 && h.hi <= f64::from_bits(0x3f60_0000_0000_0000);
            let errors = [0x3abb_1000_0000_0000, 0x3a2d_8000_0000_0000];
            let err = errors[self.test("exp2_accurate: small", small) as usize];
            w = (q.hi + (q.lo + f64::from_bits(err))).to_bits();
        }
        let v = q.hi + q.lo;
        let (number, odd) = if w << 36 != 0 {
            (0, 0)
        } else if v != q.hi {
            (1, 0)
        } else if q.lo == 0.0 {
            (2, 0)
        } else if q.lo > 0.0 {
            (3, 1)
        } else {
            (4, -1)
        };
        self.note("exp2_accurate: to odd", number);
        scaled(f64::from_bits(v.to_bits().wrapping_add_signed(odd)), k) as f32
    }
}
