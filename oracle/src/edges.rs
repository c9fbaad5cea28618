// The values at the edges: where an exponent, a split or a rounding changes its ways.

// Fractions of `width` bits at their edges: about each single bit, and the same inverted.
pub fn fractions(width: u32) -> Vec<u64> {
    let all = (1u64 << width) - 1;
    let mut list = vec![0, all];
    for bit in (0..width).map(|i| 1u64 << i) {
        for near in [bit - 1, bit, bit + 1] {
            list.extend([near & all, !near & all]);
        }
    }
    list.sort();
    list.dedup();
    list
}

// The f32 patterns of every sign and exponent with those fractions.
pub fn f32_patterns() -> impl Iterator<Item = u32> {
    let list = fractions(23);
    (0..512u32).flat_map(move |top| list.clone().into_iter().map(move |f| top << 23 | f as u32))
}

// The f64s of every sign and exponent with those fractions.
pub fn f64_values() -> impl Iterator<Item = f64> {
    let list = fractions(52);
    (0..4096u64)
        .flat_map(move |top| list.clone().into_iter().map(move |f| f64::from_bits(top << 52 | f)))
}

// The f64s up to 64 steps below and above a positive x, of both signs.
pub fn around(x: f64) -> impl Iterator<Item = f64> {
    (x.to_bits() - 64..=x.to_bits() + 64).map(f64::from_bits).flat_map(|x| [x, -x])
}

// The power of two, for a normal exponent.
pub const fn power(exponent: i64) -> f64 {
    f64::from_bits(((1023 + exponent) as u64) << 52)
}

// 2^27 + 1, the factor of `split`.
const SPLIT: f64 = 134_217_729.0;

// Magnitudes for the double-double functions; the first SHORT serve where they come in fours.
const SHORT: usize = 10;
const MAGNITUDES: [f64; 29] = [
    0.0,
    f64::from_bits(1),
    f64::MIN_POSITIVE,
    1.0,
    1.0 + f64::EPSILON,
    SPLIT,
    power(53),
    power(997),
    f64::MAX,
    f64::INFINITY,
    f64::from_bits(0x000f_ffff_ffff_ffff),
    f64::from_bits(0x0010_0000_0000_0001),
    power(-969),
    power(-537),
    power(-53),
    0.1,
    1.0 - f64::EPSILON / 2.0,
    3.0,
    power(27),
    SPLIT - power(-25),
    SPLIT + power(-25),
    power(53) - 1.0,
    power(53) + 2.0,
    power(512),
    power(969),
    power(970),
    // The greatest number that splits without overflow, about 2^997 - 2^970, and its neighbour.
    f64::from_bits(0x7e3f_ffff_fbff_ffff),
    f64::from_bits(0x7e3f_ffff_fc00_0000),
    power(1000),
];

// The edge values for tuples of n: the magnitudes of both signs, and NaN.
pub fn tuple_values(n: usize) -> Vec<f64> {
    let count = if n < 4 { MAGNITUDES.len() } else { SHORT };
    let mut list: Vec<f64> = MAGNITUDES[..count].iter().flat_map(|&x| [x, -x]).collect();
    list.push(f64::NAN);
    list
}
