// Our answers for pairs that are asked on standard input; and which pairs with a whole exponent are
// worth asking. The lines are those of the replay's two files: `xxxxxxxx yyyyyyyy`, and the same with
// `rrrrrrrr via` after it.

use crate::compare::Pattern;
use crate::draw::Pair;
use crate::told;
use std::io::{stdin, stdout, BufRead, BufWriter, Write};

// Answers every line, up to the end of the input.
pub fn answer() {
    let mut out = BufWriter::new(stdout().lock());
    for line in stdin().lock().lines() {
        let line = line.expect("the pairs cannot be read");
        let pair = pair(&line).unwrap_or_else(|| panic!("`{line}` is no pair of patterns"));
        writeln!(out, "{line} {}", told::ours(pair).hex()).expect("the answers cannot be written");
    }
}

// The pair of one line, if it is one.
fn pair(line: &str) -> Option<Pair> {
    let (x, y) = line.split_once(' ')?;
    let pattern = |digits| u32::from_str_radix(digits, 16).ok();
    Some([pattern(x)?, pattern(y)?])
}

// What fade's range has for x: the patterns of -1e-6 to -1e-2.
const LOSSES: std::ops::RangeInclusive<u32> = 0xb58637bd..=0xbc23d70a;

// Lists every pair of a loss and a whole exponent, 1 to 16 in size, that may be misrounded: those
// whose power in f64 is within 128 of its last places of the middle of two f32s. The power here has
// at most 33 roundings, as that of the answer has, so the exact one is within 66 last places, and an
// answer is the nearest f32 wherever no middle is nearer than that.
pub fn near_midpoints() {
    let mut out = BufWriter::new(stdout().lock());
    for x in LOSSES {
        let s = f32::from_bits(x) as f64 + 1.0;
        let mut power = 1.0;
        for n in 1..=16u32 {
            power *= s;
            for (y, v) in [(n as f32, power), (-(n as f32), 1.0 / power)] {
                if (v.to_bits() % (1 << 29)).abs_diff(1 << 28) <= 128 {
                    writeln!(out, "{x:08x} {:08x}", y.to_bits()).expect("the list cannot be written");
                }
            }
        }
    }
}
