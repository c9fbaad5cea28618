// Which values each kind of function is given: edges, random ones, or a whole range.

use crate::draw::{self, Pair};
use crate::edges::{around, f32_patterns, f64_values, fractions, power, tuple_values};
use crate::random::Random;

// One thread's share of the work.
pub struct Share {
    pub part: u64,
    pub parts: u64,
    pub long: bool,
    pub random: u64,
}

impl Share {
    // The edges are few: the first thread takes them all.
    fn has_edges(&self) -> bool {
        self.part == 0
    }

    // This thread's piece of the numbers 0 up to, but without, n.
    fn piece(&self, n: u64) -> std::ops::Range<u64> {
        n * self.part / self.parts..n * (self.part + 1) / self.parts
    }

    // Calls `f` with the generator and a running number, as often as the share says.
    fn randomly(&self, mut f: impl FnMut(&mut Random, u64)) {
        let mut random = Random::new(self.part);
        (0..self.random).for_each(|i| f(&mut random, i));
    }
}

// f32 patterns: edges and random ones; in the long form every pattern there is.
pub fn each_f32(share: &Share, mut f: impl FnMut(u32)) {
    if share.long {
        return each_pattern(share, f);
    }
    f32_patterns().for_each(&mut f);
    share.randomly(|r, _| f(r.bits() as u32));
}

// Every f32 pattern there is. The threads take turns, block by block, as not all cost the same.
pub fn each_pattern(share: &Share, mut f: impl FnMut(u32)) {
    const BITS: u32 = 20;
    for block in (share.part as u32..1 << (32 - BITS)).step_by(share.parts as usize) {
        (0..1 << BITS).for_each(|low| f(block << BITS | low));
    }
}

// Pairs of f32 patterns, drawn as draw.rs says.
pub fn each_pair(share: &Share, mut f: impl FnMut(Pair)) {
    share.randomly(|r, i| f(draw::pair(r, i)));
}

// f64s: the edges of every exponent, and random ones of any and of moderate size.
pub fn each_f64(share: &Share, mut f: impl FnMut(f64)) {
    if share.has_edges() {
        f64_values().for_each(&mut f);
    }
    share.randomly(|r, i| f(if i % 2 == 0 { r.any() } else { r.moderate() }));
}

// f64s about f32s (see `about_f32`): about all subnormals, edges and random ones, in the long form
// about every f32. Then the ends of the range, NaNs, and random f64s.
pub fn each_for_narrow(share: &Share, mut f: impl FnMut(f64)) {
    const INFINITY: u64 = 0x7f80_0000;
    const SUBNORMALS: u64 = 0x0080_0000;
    let mut both = |p| about_f32(p).into_iter().for_each(|x| [x, -x].into_iter().for_each(&mut f));
    if share.long {
        share.piece(INFINITY + 1).for_each(|p| both(p as u32));
    } else {
        share.piece(SUBNORMALS).for_each(|p| both(p as u32));
        f32_patterns().filter(|&p| p >> 31 == 0).for_each(&mut both);
        share.randomly(|r, _| both(r.below(INFINITY) as u32));
    }
    if share.has_edges() {
        f64_values().for_each(&mut f);
        let ends = [power(128) - power(103), power(128), power(-126), power(-149), power(-150)];
        ends.into_iter().flat_map(around).for_each(&mut f);
    }
    share.randomly(|r, i| {
        f(match i % 4 {
            0 => r.any(),
            1 if i % 64 == 1 => f64::from_bits(r.bits() | 0x7ff0_0000_0000_0001),
            _ => r.between(-152, 129),
        })
    });
}

// A positive f32 as an f64 and its upper neighbour, the midpoint of the two (for the greatest finite
// f32 the one to 2^128), and the f64s next below and next above the first and the midpoint.
#[inline(always)]
fn about_f32(p: u32) -> [f64; 7] {
    const GREATEST: u32 = 0x7f7f_ffff;
    let low = f32::from_bits(p) as f64;
    let high = f32::from_bits(p + 1) as f64;
    let middle = (low + if p == GREATEST { power(128) } else { high }) / 2.0;
    let beside = |x: f64| [x.next_down(), x, x.next_up()];
    let ([a, b, c], [d, e, f]) = (beside(low), beside(middle));
    [a, b, c, d, e, f, high]
}

// f64s about whole numbers and halves, the edges of every exponent, and random ones: of any size,
// and with exponent fields from 1000 to 1080.
pub fn each_for_rounding(share: &Share, mut f: impl FnMut(f64)) {
    let mut both =
        |k| about_whole(k).into_iter().for_each(|x| [x, -x].into_iter().for_each(&mut f));
    if share.has_edges() {
        both(0);
        for e in 0..60 {
            fractions(e).into_iter().for_each(|low| both(1 << e | low));
        }
    }
    share.randomly(|r, i| {
        if i % 8 == 0 {
            both((1 << 63 | r.bits()) >> (10 + r.below(54)))
        }
    });
    if share.has_edges() {
        f64_values().for_each(&mut f);
        let turns = [power(-1), 1.0, power(51), power(52), power(53)];
        turns.into_iter().flat_map(around).for_each(&mut f);
    }
    share
        .randomly(|r, i| f(if i % 4 == 0 { r.any() } else { r.between(1000 - 1023, 1080 - 1023) }));
}

// A whole number and the half above it, each with its neighbours.
#[inline(always)]
fn about_whole(k: u64) -> [f64; 6] {
    let whole = k as f64;
    let half = whole + 0.5;
    [whole.next_down(), whole, whole.next_up(), half.next_down(), half, half.next_up()]
}

// Tuples of f64s: all over the edge list, and random ones of four kinds.
pub fn each_tuple<const N: usize>(share: &Share, mut f: impl FnMut([f64; N])) {
    if share.has_edges() {
        let list = tuple_values(N);
        for number in 0..list.len().pow(N as u32) {
            f(std::array::from_fn(|i| list[number / list.len().pow(i as u32) % list.len()]));
        }
    }
    share.randomly(|r, i| f(random_tuple(r, i)));
}

// Kind 0: any patterns. 1: moderate. 2: lo and hi of double-doubles, sometimes the other way round.
// 3: the last about minus the product of the others, so that a sum cancels.
#[inline(always)]
fn random_tuple<const N: usize>(r: &mut Random, i: u64) -> [f64; N] {
    let mut tuple = std::array::from_fn(|_| if i % 4 == 0 { r.any() } else { r.moderate() });
    if i % 4 == 2 {
        for two in tuple.chunks_exact_mut(2) {
            two.copy_from_slice(&r.pair());
        }
        if i % 16 == 2 {
            tuple.reverse();
        }
    }
    if i % 4 == 3 {
        let product = tuple[..N - 1].iter().product::<f64>();
        tuple[N - 1] = f64::from_bits((-product).to_bits() + r.below(9) - 4);
    }
    tuple
}
