// The time of our exports and of the Rust beside them: the same inputs in one process, and of
// several rounds the best. The parts are called and not inlined on both sides, as our exports can
// only be called; compoundf of the Rust is left as its user has it.

use crate::common::{dd_fmla, is_integerf};
use crate::compound::compoundf::f_compoundf;
use crate::double_double::DoubleDouble;
use crate::draw::{self, Pair};
use crate::ours;
use crate::random::Random;
use crate::rounding::round_ties_even::round_ties_even;
use crate::told::{self, Route};
use std::hint::black_box;
use std::time::Instant;

const INPUTS: usize = 4096;
const PASSES: usize = 256;
const ROUNDS: usize = 60;

// Pairs come in greater number, so that the processor cannot learn their order.
const PAIRS: usize = 65_000;

// Nanoseconds for one call of `f`, over all inputs.
fn round<A: Copy, R>(inputs: &[A], f: &impl Fn(A) -> R) -> f64 {
    let start = Instant::now();
    for _ in 0..PASSES {
        for &input in inputs {
            black_box(f(input));
        }
    }
    start.elapsed().as_nanos() as f64 / (PASSES * inputs.len()) as f64
}

// Nanoseconds for one pair: nothing is done with the results but to add them up.
fn pair_round(pairs: &[Pair], f: &impl Fn(Pair) -> u64) -> f64 {
    let start = Instant::now();
    black_box(black_box(pairs).iter().fold(0u64, |sum, &pair| sum.wrapping_add(f(pair))));
    start.elapsed().as_nanos() as f64 / pairs.len() as f64
}

// One line: ours, the Rust's, and ours as a part of the Rust's. The two take turns.
fn report(name: &str, ours: impl Fn() -> f64, rust: impl Fn() -> f64) {
    let (mut best, mut best_rust) = (f64::INFINITY, f64::INFINITY);
    for _ in 0..ROUNDS {
        best = best.min(ours());
        best_rust = best_rust.min(rust());
    }
    let ratio = best / best_rust;
    println!("{name}: ours {best:.2} ns, the Rust {best_rust:.2} ns, ratio {ratio:.2}");
}

// The line of a part.
fn line<A: Copy, R>(name: &str, inputs: &[A], ours: impl Fn(A) -> R, rust: impl Fn(A) -> R) {
    report(name, || round(inputs, &ours), || round(inputs, &rust));
}

// The line of compoundf for some pairs.
fn pair_line(name: &str, pairs: &[Pair]) {
    let ours = |[x, y]: Pair| ours::fade_compoundf(x, y);
    let rust = |[x, y]: Pair| f_compoundf(f32::from_bits(x), f32::from_bits(y)).to_bits() as u64;
    report(name, || pair_round(pairs, &ours), || pair_round(pairs, &rust));
}

#[inline(never)]
fn rust_narrow(x: f64) -> f32 {
    x as f32
}

#[inline(never)]
fn rust_round_ties_even(x: f64) -> f64 {
    round_ties_even(x)
}

#[inline(never)]
fn rust_is_integerf(p: u32) -> bool {
    is_integerf(f32::from_bits(p))
}

#[inline(never)]
fn rust_from_exact_mult([a, b]: [f64; 2]) -> DoubleDouble {
    DoubleDouble::from_exact_mult(a, b)
}

#[inline(never)]
fn rust_quick_mult([a, b]: [DoubleDouble; 2]) -> DoubleDouble {
    DoubleDouble::quick_mult(a, b)
}

#[inline(never)]
fn rust_dd_fmla([a, b, c]: [f64; 3]) -> f64 {
    dd_fmla(a, b, c)
}

// The inputs that `make` gives.
fn inputs<A>(make: impl Fn(&mut Random) -> A) -> Vec<A> {
    let mut random = Random::new(0);
    (0..INPUTS).map(|_| make(&mut random)).collect()
}

// Drawn pairs of one route.
fn pairs_via(route: Route, count: usize) -> Vec<Pair> {
    let mut random = Random::new(0);
    let drawn = (1..).map(|number| draw::pair(&mut random, number));
    drawn.filter(|&pair| told::rust(pair).via == route as u32).take(count).collect()
}

// Drawn pairs of all routes in equal shares, shuffled.
fn mixed_pairs() -> Vec<Pair> {
    let routes = [Route::Rule, Route::Whole, Route::Edge, Route::Fast, Route::Slow];
    let of = |route| pairs_via(route, PAIRS / routes.len());
    let mut pairs: Vec<_> = routes.into_iter().flat_map(of).collect();
    let mut random = Random::new(1);
    (1..pairs.len()).for_each(|i| pairs.swap(i, random.below(i as u64 + 1) as usize));
    pairs
}

// What fade is for: x from -1e-2 to -1e-6, evenly in the logarithm, and y up to 1e5, half of them
// whole and above 16, half of them fractions. None takes the route of the whole exponents.
pub fn fade_pairs(count: usize) -> Vec<Pair> {
    let mut random = Random::new(0);
    let mut pair = |i: usize| {
        let x = -10f64.powf(random.real(-6.0, -2.0)) as f32;
        let mut y = random.within(17, 100_000) as f32;
        while i % 2 == 0 && y.fract() == 0.0 {
            y = random.real(1.0, 1e5) as f32;
        }
        [x, y].map(f32::to_bits)
    };
    (0..count).map(&mut pair).collect()
}

// Prints a line for each function, and for compoundf one for each kind of pairs.
pub fn bench() {
    bench_parts();
    pair_line("compoundf, all routes in equal shares", &mixed_pairs());
    pair_line("compoundf, fade's own range", &fade_pairs(PAIRS));
    pair_line("compoundf, slow pairs", &pairs_via(Route::Slow, PAIRS));
    pair_line("compoundf, whole exponents", &pairs_via(Route::Whole, PAIRS));
    pair_line("compoundf, special operands", &pairs_via(Route::Rule, PAIRS));
    pair_line("compoundf, edges", &pairs_via(Route::Edge, PAIRS));
    pair_line("compoundf, fast pairs", &pairs_via(Route::Fast, PAIRS));
}

// The parts.
fn bench_parts() {
    let f32_sizes = inputs(|r| r.between(-126, 127));
    line("narrow, normal f32s", &f32_sizes, |x| ours::fade_narrow(x), rust_narrow);
    let subnormal = inputs(|r| r.between(-160, -127));
    line("narrow, subnormal f32s", &subnormal, |x| ours::fade_narrow(x), rust_narrow);
    let exponents = inputs(|r| r.between(-20, 7));
    line("round_ties_even", &exponents, |x| ours::fade_round_ties_even(x), rust_round_ties_even);
    let patterns = inputs(|r| r.bits() as u32);
    line("is_integerf", &patterns, |p| ours::fade_is_integerf(p), rust_is_integerf);
    let two = inputs(|r| [r.moderate(), r.moderate()]);
    line("from_exact_mult", &two, |[a, b]| ours::from_exact_mult(a, b), rust_from_exact_mult);
    let pairs = inputs(|r| [r.pair(), r.pair()].map(|[lo, hi]| DoubleDouble::new(lo, hi)));
    line("quick_mult", &pairs, |[a, b]| ours::quick_mult(a, b), rust_quick_mult);
    let three = inputs(|r| [r.moderate(), r.moderate(), r.moderate()]);
    line("dd_fmla", &three, |[a, b, c]| ours::fade_dd_fmla(a, b, c), rust_dd_fmla);
}
