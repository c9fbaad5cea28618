// A stand-in for the crate's `bits`: the copied files name it, and no function under test reaches
// it.

// The exponent field of an f64. Named only by `is_integer` and `is_odd_integer`, not under test.
pub(crate) const EXP_MASK: u64 = 0x7ff0_0000_0000_0000;

// Called only by `two_product_compatible`, which is not under test.
pub(crate) fn get_exponent_f64(_: f64) -> i64 {
    unreachable!()
}
