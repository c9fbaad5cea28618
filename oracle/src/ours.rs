// Our side: the exports of the static libraries, declared by hand, and those of the double-doubles in
// the crate's own type. None has a precondition.

use crate::double_double::DoubleDouble;

// A double-double as our library lays it out. The crate's own type has Rust's layout.
#[repr(C)]
#[derive(Clone, Copy)]
pub struct Pair {
    lo: f64,
    hi: f64,
}

impl From<DoubleDouble> for Pair {
    #[inline(always)]
    fn from(a: DoubleDouble) -> Pair {
        Pair { lo: a.lo, hi: a.hi }
    }
}

impl From<Pair> for DoubleDouble {
    #[inline(always)]
    fn from(a: Pair) -> DoubleDouble {
        DoubleDouble::new(a.lo, a.hi)
    }
}

unsafe extern "C" {
    pub safe fn fade_to_bits_f32(x: f32) -> u32;
    pub safe fn fade_from_bits_f32(n: u32) -> f32;
    pub safe fn fade_to_bits_f64(x: f64) -> u64;
    pub safe fn fade_from_bits_f64(n: u64) -> f64;
    pub safe fn fade_widen(x: f32) -> f64;
    pub safe fn fade_narrow(x: f64) -> f32;
    pub safe fn fade_round_ties_even(x: f64) -> f64;
    pub safe fn fade_is_integerf(n: u32) -> bool;
    pub safe fn fade_absf(x: f32) -> f32;
    pub safe fn fade_abs(x: f64) -> f64;
    pub safe fn fade_dd_fmla(a: f64, b: f64, c: f64) -> f64;
    pub safe fn fade_compoundf(x: u32, y: u32) -> u64;

    safe fn fade_split(a: f64) -> Pair;
    safe fn fade_from_exact_mult(a: f64, b: f64) -> Pair;
    safe fn fade_from_exact_add(a: f64, b: f64) -> Pair;
    safe fn fade_from_full_exact_add(a: f64, b: f64) -> Pair;
    safe fn fade_quick_mult(a: Pair, b: Pair) -> Pair;
    safe fn fade_quick_mult_f64(a: Pair, b: f64) -> Pair;
    safe fn fade_full_add_f64(a: Pair, b: f64) -> Pair;
}

// Our `split`.
pub fn split(a: f64) -> DoubleDouble {
    fade_split(a).into()
}

// Our `from_exact_mult`.
pub fn from_exact_mult(a: f64, b: f64) -> DoubleDouble {
    fade_from_exact_mult(a, b).into()
}

// Our `from_exact_add`.
pub fn from_exact_add(a: f64, b: f64) -> DoubleDouble {
    fade_from_exact_add(a, b).into()
}

// Our `from_full_exact_add`.
pub fn from_full_exact_add(a: f64, b: f64) -> DoubleDouble {
    fade_from_full_exact_add(a, b).into()
}

// Our `quick_mult`.
pub fn quick_mult(a: DoubleDouble, b: DoubleDouble) -> DoubleDouble {
    fade_quick_mult(a.into(), b.into()).into()
}

// Our `quick_mult_f64`.
pub fn quick_mult_f64(a: DoubleDouble, b: f64) -> DoubleDouble {
    fade_quick_mult_f64(a.into(), b).into()
}

// Our `full_add_f64`.
pub fn full_add_f64(a: DoubleDouble, b: f64) -> DoubleDouble {
    fade_full_add_f64(a.into(), b).into()
}
