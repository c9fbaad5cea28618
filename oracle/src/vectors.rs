// The list of pairs for the replay, and its two files: the pairs, and the pairs with the Rust's
// answers. The list is the same each time: document 01's pairs, those by every threshold, answers
// by midpoints, and what a search finds for every branch that some pair takes (told/trace.rs).

use crate::checks::PAIRS;
use crate::compare::Pattern;
use crate::compound::compoundf::compoundf_log2p1_accurate;
use crate::draw::{self, Pair, SIGN, T_THRESHOLDS, X_THRESHOLDS, Y_THRESHOLDS};
use crate::files::File;
use crate::random::Random;
use crate::told;
use crate::told::trace::{trace, Label, REACHED, SLOW_K};
use std::collections::{HashMap, HashSet};

// How many pairs the search gives each branch, if it finds so many.
const WANTED: u32 = 2;

// How many pairs it draws, and how often it tries where it aims.
const DRAWS: u64 = 200_000;
const TRIES: u64 = 20_000;

// The list while it grows, and how many of its pairs take each branch.
struct List {
    pairs: Vec<Pair>,
    known: HashSet<Pair>,
    found: HashMap<Label, u32>,
}

impl List {
    // No pairs.
    fn new() -> List {
        let labels =
            REACHED.into_iter().flat_map(|(place, ways)| ways.map(move |way| (place, way)));
        let found = labels.map(|label| (label, 0)).collect();
        List { pairs: Vec::new(), known: HashSet::new(), found }
    }

    // Adds a pair, if it is new.
    fn add(&mut self, pair: Pair) {
        if self.known.insert(pair) {
            for label in trace(pair) {
                let found = self.found.get_mut(&label);
                *found.unwrap_or_else(|| panic!("{label:?} was thought out of reach")) += 1;
            }
            self.pairs.push(pair);
        }
    }

    // Adds a pair, if it takes a branch of which more are wanted.
    fn offer(&mut self, pair: Pair) {
        if trace(pair).into_iter().any(|label| self.wants(label)) {
            self.add(pair);
        }
    }

    // Offers what `pair` makes until no more pairs of a branch are wanted, or the tries are spent.
    fn seek(&mut self, label: Label, mut pair: impl FnMut() -> Option<Pair>) {
        let mut tries = 0..TRIES;
        while self.wants(label) && tries.next().is_some() {
            pair().into_iter().for_each(|pair| self.offer(pair));
        }
    }

    // Whether more pairs of a branch are wanted.
    fn wants(&self, label: Label) -> bool {
        self.found.get(&label).is_none_or(|&found| found < WANTED)
    }

    // Adds the pairs of x with y and with the patterns on either side of y.
    fn add_about(&mut self, x: u32, y: f32) {
        beside(y.to_bits()).into_iter().for_each(|y| self.add([x, y]));
    }
}

// The list.
pub fn list() -> Vec<Pair> {
    let mut list = List::new();
    PAIRS.iter().for_each(|row| list.add(row.0));
    add_x_thresholds(&mut list);
    add_y_thresholds(&mut list);
    add_log_turns(&mut list);
    add_t_thresholds(&mut list);
    draw::midpoints().into_iter().for_each(|pair| list.add(pair));
    draw::almost_midpoints().into_iter().step_by(5).for_each(|pair| list.add(pair));
    search(&mut list);
    let lacking: Vec<_> = list.found.iter().filter(|(_, &found)| found == 0).collect();
    assert!(lacking.is_empty(), "no pair was found for {lacking:?}");
    list.pairs
}

// A pattern and those on either side of it.
fn beside(pattern: u32) -> [u32; 3] {
    [-1, 0, 1].map(|n| pattern.wrapping_add_signed(n))
}

// Both signs.
fn both(pattern: u32) -> [u32; 2] {
    [pattern, pattern | SIGN]
}

// The thresholds of x, with their neighbours: against y of every kind, of both paths too.
fn add_x_thresholds(list: &mut List) {
    for threshold in X_THRESHOLDS.into_iter().flat_map(both) {
        for x in beside(threshold) {
            let base = f32::from_bits(x);
            let y = |t| draw::y_for(base, t);
            for y in [3.0, -16.0, 17.0, 0.999, f32::INFINITY, y(77.7), y(-140.3)] {
                list.add([x, y.to_bits()]);
            }
        }
    }
}

// The thresholds of y, with their neighbours: against x of every kind.
fn add_y_thresholds(list: &mut List) {
    let whole = (1..=16).map(|n| (n as f32).to_bits());
    for y in whole.chain(Y_THRESHOLDS).flat_map(both) {
        for x in [0x3f00_0000, 0xbc23_d70a, 0x5f80_0000, 0x2500_0001, 0xbf40_0000] {
            list.add_about(x, f32::from_bits(y));
        }
    }
}

// The x's at which the exponent or the index of the logarithm changes, on both paths.
fn add_log_turns(list: &mut List) {
    let exponents = (-23..=128).map(|e| (e, 0));
    let indexes = (1..=45).map(|i| (0, i));
    for (e, i) in exponents.chain(indexes) {
        for x in beside(draw::log_turn(e, i).to_bits()) {
            for t in [33.3, -133.3] {
                list.add([x, draw::y_for(f32::from_bits(x), t).to_bits()]);
            }
        }
    }
}

// The t's at which a test, or an index of the exponential, changes: by the first t and by the slow
// path's, which differ where x is tiny.
fn add_t_thresholds(list: &mut List) {
    let turns = (0..32).map(|i| (i as f64 - 15.5) / 32.0 + if i % 2 == 0 { -140.0 } else { 3.0 });
    for t in T_THRESHOLDS.into_iter().chain(turns) {
        for x in [0x3f80_0000, 0xbc23_d70a, 0xbf7f_fff0, 0x7149_f2ca, 0x2500_0001, 0xa4ff_ffff] {
            let base = f32::from_bits(x);
            list.add_about(x, draw::y_for(base, t));
            list.add_about(x, slow_y_for(base, t));
        }
    }
}

// The y that brings the slow path's logarithm times y to about t.
fn slow_y_for(x: f32, t: f64) -> f32 {
    (t / compoundf_log2p1_accurate(x as f64).hi) as f32
}

// Draws pairs, and then aims at what is seldom drawn: each k of the slow path, and each index of
// the logarithm with answers at the end of the fast path's test.
fn search(list: &mut List) {
    let mut r = Random::new(0);
    (1..DRAWS).for_each(|number| list.offer(draw::pair(&mut r, number)));
    for k in SLOW_K {
        list.seek(("exp2_accurate: k", k), || slow_with_k(&mut r, k));
    }
    for i in 0..=45 {
        for place in [
            "exp2_fast: just failed, index of the logarithm",
            "exp2_fast: just passed, index of the logarithm",
        ] {
            list.seek((place, i), || by_end_of_test(&mut r, i as u32));
        }
    }
}

// A pair whose answer is by the end of the fast path's test, and whose x has the index. The
// exponent is 0 and t is large, so that the last bits of the logarithm count.
fn by_end_of_test(r: &mut Random, i: u32) -> Option<Pair> {
    let [start, end] = [i, i + 1].map(|i| draw::log_turn(0, i) as f64);
    let x = r.real(start, end) as f32;
    let t = r.pick(&[1.0, -1.0]) * r.real(64.0, 126.0);
    Some([x, draw::y_by_midpoint(x, t, 0.9..1.1)?].map(f32::to_bits))
}

// A pair that is slow, as its answer is subnormal or by a midpoint, and whose k there is likely the
// given one.
fn slow_with_k(r: &mut Random, k: i64) -> Option<Pair> {
    let (x, t) = if (-150..128).contains(&k) {
        (draw::base(r), k as f64 + r.real(-0.5, 0.5))
    } else {
        two_thirds(r, k as f64)
    };
    let y = if t < -126.0 { draw::y_for(x, t) } else { draw::y_by_midpoint(x, t, 0.0..0.9)? };
    Some([x, y].map(f32::to_bits))
}

// For a k past all t's: an x from 1 to 1.5 * 2^-52, which 1 + x takes for 2^-52, and a t, which
// there is as much smaller than the slow path's.
fn two_thirds(r: &mut Random, k: f64) -> (f32, f64) {
    let least = (k.abs() - 0.5) / 1.5;
    let t = if k < 0.0 { -r.real(least.max(126.0), 150.0) } else { r.real(least, 128.0) };
    ((k / t * f64::EPSILON) as f32, t)
}

// The two files of the list.
pub fn files(list: &[Pair]) -> [File; 2] {
    let question = |&[x, y]: &Pair| format!("{x:08x} {y:08x}\n");
    let answer = |&[x, y]: &Pair| format!("{x:08x} {y:08x} {}\n", told::rust([x, y]).hex());
    let [stdin, stdout]: [String; 2] =
        [list.iter().map(question).collect(), list.iter().map(answer).collect()];
    [("crates/replay/stdin", stdin.into()), ("crates/replay/stdout", stdout.into())]
}
