// The functions under test: our export, the Rust beside it, and the values that both are given.

use crate::common::{dd_fmla, is_integerf};
use crate::compare::Tally;
use crate::double_double::DoubleDouble;
use crate::draw::Pair;
use crate::ours;
use crate::rounding::round_ties_even::round_ties_even;
use crate::told::{self, Route, Told};
use crate::values::{
    each_f32, each_f64, each_for_narrow, each_for_rounding, each_pair, each_pattern, each_tuple,
    Share,
};
use Route::{Edge, Fast, Rule, Slow, Whole};

// A name for the report, and what does one thread's share of the comparing.
pub type Check = (&'static str, fn(&mut Tally, &Share));

pub const CHECKS: [Check; 19] = [
    ("to_bits_f32", |t, s| {
        each_f32(s, |p| {
            let rust = if f32::from_bits(p).is_nan() { 0x7fc0_0000 } else { p };
            t.note([p], ours::fade_to_bits_f32(f32::from_bits(p)), rust)
        })
    }),
    ("from_bits_f32", |t, s| {
        each_f32(s, |p| t.note([p], ours::fade_from_bits_f32(p), f32::from_bits(p)))
    }),
    ("widen", |t, s| {
        each_f32(s, |p| t.note([p], ours::fade_widen(f32::from_bits(p)), f32::from_bits(p) as f64))
    }),
    ("absf", |t, s| {
        each_f32(s, |p| t.note([p], ours::fade_absf(f32::from_bits(p)), f32::from_bits(p).abs()))
    }),
    ("is_integerf", |t, s| {
        each_f32(s, |p| t.note([p], ours::fade_is_integerf(p), is_integerf(f32::from_bits(p))))
    }),
    ("to_bits_f64", |t, s| {
        each_f64(s, |x| {
            let rust = if x.is_nan() { 0x7ff8_0000_0000_0000 } else { x.to_bits() };
            t.note([x], ours::fade_to_bits_f64(x), rust)
        })
    }),
    ("from_bits_f64", |t, s| {
        each_f64(s, |x| t.note([x], ours::fade_from_bits_f64(x.to_bits()), x))
    }),
    ("abs", |t, s| each_f64(s, |x| t.note([x], ours::fade_abs(x), x.abs()))),
    ("narrow", |t, s| each_for_narrow(s, |x| t.note([x], ours::fade_narrow(x), x as f32))),
    ("round_ties_even, the crate's", |t, s| {
        each_for_rounding(s, |x| t.note([x], ours::fade_round_ties_even(x), round_ties_even(x)))
    }),
    ("round_ties_even, the standard library's", |t, s| {
        each_for_rounding(s, |x| t.note([x], ours::fade_round_ties_even(x), x.round_ties_even()))
    }),
    ("split", |t, s| each_f64(s, |a| t.note([a], ours::split(a), DoubleDouble::split(a)))),
    ("from_exact_mult", |t, s| {
        each_tuple(s, |[a, b]| {
            t.note([a, b], ours::from_exact_mult(a, b), DoubleDouble::from_exact_mult(a, b))
        })
    }),
    ("from_exact_add", |t, s| {
        each_tuple(s, |[a, b]| {
            t.note([a, b], ours::from_exact_add(a, b), DoubleDouble::from_exact_add(a, b))
        })
    }),
    ("from_full_exact_add", |t, s| {
        each_tuple(s, |[a, b]| {
            t.note([a, b], ours::from_full_exact_add(a, b), DoubleDouble::from_full_exact_add(a, b))
        })
    }),
    ("quick_mult", |t, s| {
        each_tuple(s, |[a_lo, a_hi, b_lo, b_hi]| {
            let (a, b) = (DoubleDouble::new(a_lo, a_hi), DoubleDouble::new(b_lo, b_hi));
            let rust = DoubleDouble::quick_mult(a, b);
            t.note([a_lo, a_hi, b_lo, b_hi], ours::quick_mult(a, b), rust)
        })
    }),
    ("quick_mult_f64", |t, s| {
        each_tuple(s, |[a_lo, a_hi, b]| {
            let a = DoubleDouble::new(a_lo, a_hi);
            t.note([a_lo, a_hi, b], ours::quick_mult_f64(a, b), DoubleDouble::quick_mult_f64(a, b))
        })
    }),
    ("full_add_f64", |t, s| {
        each_tuple(s, |[a_lo, a_hi, b]| {
            let a = DoubleDouble::new(a_lo, a_hi);
            t.note([a_lo, a_hi, b], ours::full_add_f64(a, b), DoubleDouble::full_add_f64(a, b))
        })
    }),
    ("dd_fmla", |t, s| {
        each_tuple(s, |[a, b, c]| t.note([a, b, c], ours::fade_dd_fmla(a, b, c), dd_fmla(a, b, c)))
    }),
];

// The answers for pairs, with their routes: pairs that are drawn.
pub const DRAWN_PAIRS: Check = ("compoundf, drawn pairs", |t, s| each_pair(s, |p| note_pair(t, p)));

// And every x with one y: a whole one, one next to 1, and a whole one past the route of whole ones.
pub const SWEEPS: [Check; 3] = [
    ("compoundf, every x, y = 7", |t, s| each_pattern(s, |x| note_pair(t, [x, 0x40e0_0000]))),
    ("compoundf, every x, y = 0.99999", |t, s| each_pattern(s, |x| note_pair(t, [x, 0x3f7f_ff58]))),
    ("compoundf, every x, y = 100000", |t, s| each_pattern(s, |x| note_pair(t, [x, 0x47c3_5000]))),
];

// Compares one pair.
#[inline(always)]
fn note_pair(tally: &mut Tally, pair: Pair) {
    tally.note_told(pair, told::ours(pair), told::rust(pair));
}

// Compares the pairs of a list.
pub fn listed_pairs(pairs: &[Pair]) -> Tally {
    let mut tally = Tally::default();
    pairs.iter().for_each(|&pair| note_pair(&mut tally, pair));
    tally
}

// The table "Pairs at the edges" of document 01: x and y, and the answer and the route for them.
pub const PAIRS: [(Pair, u32, Route); 17] = [
    ([0x00000000, 0x7f800000], 0x3f800000, Rule),
    ([0x00000000, 0x7fc00000], 0x7fc00000, Rule),
    ([0xbf800000, 0x80000000], 0x3f800000, Rule),
    ([0xbf800000, 0x3f800000], 0x00000000, Rule),
    ([0xbf800000, 0xbf800000], 0x7f800000, Rule),
    ([0xbf800001, 0x00000000], 0x7fc00000, Rule),
    ([0x3f000000, 0x40000000], 0x40100000, Whole),
    ([0x3f800000, 0x41800000], 0x47800000, Whole),
    ([0x3f800000, 0xc1800000], 0x37800000, Whole),
    ([0x31000000, 0x41800000], 0x3f800000, Whole),
    ([0x5f7fffff, 0x3f800000], 0x5f7fffff, Whole),
    ([0x5f800000, 0x3f800000], 0x5f800000, Fast),
    ([0x3f800000, 0x3f000000], 0x3fb504f3, Fast),
    ([0x3f800000, 0x43000000], 0x7f800000, Edge),
    ([0x3f800000, 0xc3160000], 0x00000000, Edge),
    ([0x3f800000, 0xc3150000], 0x00000001, Slow),
    ([0x21800000, 0x5d800000], 0x3f800000, Edge),
];

// The document's answers beside the Rust's: the copied files are the function that it speaks of.
pub fn document_pairs() -> Tally {
    let mut tally = Tally::default();
    for (pair, r, via) in PAIRS {
        tally.note(pair, Told { r, via: via as u32 }, told::rust(pair));
    }
    tally
}
