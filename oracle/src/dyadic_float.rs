// A stand-in for the crate's `dyadic_float`: only `dyad_fmla` of the copied files names it, and no
// function under test reaches that.

use std::ops::{Add, Mul};

pub(crate) struct DyadicFloat128;

impl DyadicFloat128 {
    // Not reached.
    pub(crate) fn new_from_f64(_: f64) -> Self {
        unreachable!()
    }

    // Not reached.
    pub(crate) fn fast_as_f64(&self) -> f64 {
        unreachable!()
    }
}

impl Add for DyadicFloat128 {
    type Output = Self;

    // Not reached.
    fn add(self, _: Self) -> Self {
        unreachable!()
    }
}

impl Mul for DyadicFloat128 {
    type Output = Self;

    // Not reached.
    fn mul(self, _: Self) -> Self {
        unreachable!()
    }
}
