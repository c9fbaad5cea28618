// The answer for a pair together with the route that it takes: the Rust's and ours.

use crate::compare::Pattern;
use crate::draw::Pair;
use crate::ours::fade_compoundf;

pub mod trace;

// The crate's file once more, unchanged: here its private functions can be called.
include!("compound/compoundf.rs");

// The routes of document 01. The number of a route is its place here.
#[derive(Clone, Copy, PartialEq, Debug)]
pub enum Route {
    Rule,
    Whole,
    Edge,
    Fast,
    Slow,
}

// Their words, in the same order.
pub const WORDS: [&str; 5] = ["rule", "whole", "edge", "fast", "slow"];

// The pattern of an answer and the number of its route.
#[derive(Clone, Copy, PartialEq, Debug)]
pub struct Told {
    pub r: u32,
    pub via: u32,
}

impl Told {
    // An f32 and its route. Every NaN has the same pattern.
    fn new(via: Route, r: f32) -> Told {
        let r = if r.is_nan() { 0x7fc0_0000 } else { r.to_bits() };
        Told { r, via: via as u32 }
    }
}

impl Pattern for Told {
    // Both parts the same.
    fn same(&self, other: &Self) -> bool {
        self == other
    }

    // As the answer lines have them: the pattern, then the route's word.
    fn hex(&self) -> String {
        let word = WORDS.get(self.via as usize).unwrap_or(&"no route");
        format!("{:08x} {word}", self.r)
    }
}

// Our answer. It comes with the route's number above the pattern.
#[inline(always)]
pub fn ours([x, y]: Pair) -> Told {
    let both = fade_compoundf(x, y);
    Told { r: both as u32, via: (both >> 32) as u32 }
}

// The Rust's answer, and the route of the retelling, which must have come to the same answer.
#[inline(always)]
pub fn rust(pair: Pair) -> Told {
    let [x, y] = pair.map(f32::from_bits);
    let (via, r) = retold(x, y);
    let told = Told::new(via, crate::compound::compoundf::f_compoundf(x, y));
    assert!(told == Told::new(via, r), "retold wrongly at {pair:08x?}");
    told
}

// The same by the retelling alone, which does the work of `f_compoundf` once.
#[inline(always)]
pub fn once(pair: Pair) -> Told {
    let [x, y] = pair.map(f32::from_bits);
    let (via, r) = retold(x, y);
    Told::new(via, r)
}

// The tests of `f_compoundf` in their order, and the private functions that it calls.
fn retold(x: f32, y: f32) -> (Route, f32) {
    if special_test(x, y).is_some() {
        return (Route::Rule, as_compoundf_special(x, y));
    }
    if whole_test(x, y).is_none() {
        return (Route::Whole, whole(x, y));
    }
    let t = compoundf_log2p1_fast(x as f64) * y as f64;
    if let Some((_, r)) = edge(t) {
        return (Route::Edge, r);
    }
    let v = exp2_fast(t);
    if v != -1.0 {
        return (Route::Fast, v as f32);
    }
    (Route::Slow, compoundf_accurate(x, y))
}

// The number of the first test that makes the pair a special one.
fn special_test(x: f32, y: f32) -> Option<usize> {
    const INFINITY: u32 = 0xff << 24;
    let (nx, ax, ay) = (x.to_bits(), x.to_bits() << 1, y.to_bits() << 1);
    let mone = (-1.0f32).to_bits();
    [nx >= mone, ax == 0, ax >= INFINITY, ay == 0, ay >= INFINITY].into_iter().position(|is| is)
}

// The number of the first test that keeps the pair from the whole exponents.
fn whole_test(x: f32, y: f32) -> Option<usize> {
    let (ax, ay) = (x.to_bits() << 1, y.to_bits() << 1);
    [!is_integerf(y), ay > 0x8300_0000, ax > 0xbeff_fffe].into_iter().position(|is| is)
}

// Whether |x| is so small that the whole exponents give 1.0 + y * x.
fn whole_tiny(x: f32) -> bool {
    x.to_bits() << 1 <= 0x6200_0000
}

// The answer for a whole exponent.
fn whole(x: f32, y: f32) -> f32 {
    if whole_tiny(x) {
        return 1.0 + y * x;
    }
    let n = y.abs() as u32;
    let (mut s, mut acc) = (x as f64 + 1.0, 1.0);
    for bit in 0..5 {
        if n >> bit & 1 == 1 {
            acc *= s;
        }
        s *= s;
    }
    (if y < 0.0 { 1.0 / acc } else { acc }) as f32
}

// The number and the answer of the edge that t is beyond: below, above, and tiny of either sign.
fn edge(t: f64) -> Option<(i64, f32)> {
    let t = t.to_bits();
    if t << 1 >= 0x406 << 53 {
        if t >= 0x3018b << 46 {
            return Some((0, 0.0));
        }
        if t >> 63 == 0 {
            return Some((1, f32::INFINITY));
        }
    }
    (t << 1 <= 0x3e67_1547_6ba9_7f14).then_some((2 + (t >> 63) as i64, 1.0))
}
