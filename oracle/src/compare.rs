// When two results are equal, and how many of them were.

use crate::double_double::DoubleDouble;
use crate::draw::Pair;
use crate::told::{Told, WORDS};

// How many differing inputs a line of the report shows.
const SHOWN: usize = 5;

// A value that has a bit pattern.
pub trait Pattern {
    // Whether two results count as equal: the same bits, or NaN on both sides.
    fn same(&self, other: &Self) -> bool;

    // The pattern in hexadecimal digits, highest first.
    fn hex(&self) -> String;
}

macro_rules! whole_pattern {
    ($($kind:ty, $digits:literal;)*) => {$(
        impl Pattern for $kind {
            // Plainly equal.
            fn same(&self, other: &Self) -> bool {
                self == other
            }

            // As many digits as the kind has.
            fn hex(&self) -> String {
                format!($digits, self)
            }
        }
    )*};
}

whole_pattern! { bool, "{}"; u32, "{:08x}"; u64, "{:016x}"; }

macro_rules! float_pattern {
    ($($kind:ty),*) => {$(
        impl Pattern for $kind {
            // The same bits, or NaN on both sides.
            fn same(&self, other: &Self) -> bool {
                self.to_bits() == other.to_bits() || (self.is_nan() && other.is_nan())
            }

            // The digits of its bits.
            fn hex(&self) -> String {
                self.to_bits().hex()
            }
        }
    )*};
}

float_pattern! { f32, f64 }

impl Pattern for String {
    // Plainly equal.
    fn same(&self, other: &Self) -> bool {
        self == other
    }

    // A line stands for itself, and a long one is cut.
    fn hex(&self) -> String {
        format!("{self:.100}")
    }
}

impl Pattern for DoubleDouble {
    // Both parts the same.
    fn same(&self, other: &Self) -> bool {
        self.lo.same(&other.lo) && self.hi.same(&other.hi)
    }

    // lo, then hi.
    fn hex(&self) -> String {
        format!("lo {} hi {}", self.lo.hex(), self.hi.hex())
    }
}

// What was compared for one function.
#[derive(Default)]
pub struct Tally {
    compared: u64,
    differ: u64,
    by_route: [u64; WORDS.len()],
    shown: Vec<String>,
}

impl Tally {
    // Counts one comparison.
    #[inline(always)]
    pub fn note<I: Pattern, R: Pattern, const N: usize>(
        &mut self,
        input: [I; N],
        ours: R,
        rust: R,
    ) {
        self.compared += 1;
        if !ours.same(&rust) {
            self.note_difference(input, ours, rust);
        }
    }

    // Counts one comparison of answers with their routes, under the route of the Rust.
    #[inline(always)]
    pub fn note_told(&mut self, pair: Pair, ours: Told, rust: Told) {
        self.by_route[rust.via as usize] += 1;
        self.note(pair, ours, rust);
    }

    // Counts one difference and keeps the first few in words.
    #[cold]
    fn note_difference<I: Pattern, R: Pattern, const N: usize>(
        &mut self,
        input: [I; N],
        ours: R,
        rust: R,
    ) {
        self.differ += 1;
        if self.shown.len() < SHOWN {
            let input = input.map(|x| x.hex()).join(" ");
            self.shown.push(format!(
                "  at {input}: {}, but the Rust gives {}",
                ours.hex(),
                rust.hex()
            ));
        }
    }

    // The two counts together.
    pub fn plus(mut self, other: Tally) -> Tally {
        self.compared += other.compared;
        self.differ += other.differ;
        self.by_route.iter_mut().zip(other.by_route).for_each(|(all, more)| *all += more);
        self.shown.extend(other.shown);
        self.shown.truncate(SHOWN);
        self
    }

    // Whether each route has a tenth of the pairs. If not, it says so.
    pub fn reaches_all_routes(&self) -> bool {
        let all = self.by_route.iter().all(|&pairs| pairs * 10 >= self.compared);
        if !all {
            println!("  a route has less than a tenth of these pairs");
        }
        all
    }

    // Prints the line of one function, and one for the routes if there are any, and says whether
    // all was equal.
    pub fn report(&self, name: &str) -> bool {
        println!("{name}: {} compared, {} differ", grouped(self.compared), grouped(self.differ));
        if self.by_route.iter().any(|&pairs| pairs > 0) {
            let parts = WORDS.iter().zip(self.by_route);
            let parts: Vec<_> = parts.map(|(word, n)| format!("{word} {}", grouped(n))).collect();
            println!("  {}", parts.join(", "));
        }
        for line in &self.shown {
            println!("{line}");
        }
        self.differ == 0
    }
}

// A number with commas between its thousands.
fn grouped(n: u64) -> String {
    if n < 1000 {
        n.to_string()
    } else {
        format!("{},{:03}", grouped(n / 1000), n % 1000)
    }
}
