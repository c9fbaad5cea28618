// The functions of the static libraries, and all of this crate's unsafe code. They are proved: none
// of these functions asks anything of the values that it gets, and none keeps a pointer after it
// returns. What is left to see to is that the declarations fit the library, and that the memory that is
// lent is there.

use crate::{State, Tail, Tallies, TOTALS};
use std::mem::{align_of, offset_of, size_of};

// What a feed hands back: the state after it, the number of a refusal or 0, and how many bytes were
// written.
#[repr(C)]
pub(crate) struct Handed {
    pub(crate) state: State,
    pub(crate) number: u32,
    pub(crate) wrote: usize,
}

// The layout that the library reads and writes.
const _: () = assert!(size_of::<Tail>() == 36 && align_of::<Tail>() == 4);
const _: () = assert!(offset_of!(Tail, bytes) == 0 && offset_of!(Tail, count) == 32);
const _: () = assert!(size_of::<Tallies>() == 24 && align_of::<Tallies>() == 4);
const _: () = assert!(offset_of!(Tallies, rule) == 0 && offset_of!(Tallies, whole) == 4);
const _: () = assert!(offset_of!(Tallies, edge) == 8 && offset_of!(Tallies, fast) == 12);
const _: () = assert!(offset_of!(Tallies, slow) == 16 && offset_of!(Tallies, bad) == 20);
const _: () = assert!(size_of::<State>() == 64 && align_of::<State>() == 4);
const _: () = assert!(offset_of!(State, tail) == 0 && offset_of!(State, lines) == 36);
const _: () = assert!(offset_of!(State, tallies) == 40);
const _: () = assert!(size_of::<Handed>() == 80 && align_of::<Handed>() == 8);
const _: () = assert!(offset_of!(Handed, state) == 0 && offset_of!(Handed, number) == 64);
const _: () = assert!(offset_of!(Handed, wrote) == 72);

extern "C" {
    fn fade_compoundf(x: u32, y: u32) -> u64;
    fn fade_fresh() -> State;
    fn fade_feed(
        state: State,
        piece: *const u8,
        length: usize,
        out: *mut u8,
        room: usize,
    ) -> Handed;
    fn fade_close(state: State) -> u32;
    fn fade_write_totals(state: State, end: u32, out: *mut [u8; TOTALS]) -> usize;
}

// The route's number in the upper half, the pattern of the answer in the lower.
#[inline]
pub(crate) fn compoundf(x: u32, y: u32) -> u64 {
    // SAFETY: numbers alone go in and out, and every number is accepted.
    unsafe { fade_compoundf(x, y) }
}

// The state before the first piece.
#[inline]
pub(crate) fn fresh() -> State {
    // SAFETY: nothing goes in, and a state comes out by value.
    unsafe { fade_fresh() }
}

// The answer lines of the lines that the piece completes, to the front of `out`.
#[inline]
pub(crate) fn feed(state: State, piece: &[u8], out: &mut [u8]) -> Handed {
    // SAFETY: each pointer goes with the length of its slice and is not null, also where the slice is
    // empty. `out` is borrowed for writing, so nothing else is in it. Every state is accepted.
    unsafe { fade_feed(state, piece.as_ptr(), piece.len(), out.as_mut_ptr(), out.len()) }
}

// Whether the input may end here.
#[inline]
pub(crate) fn close(state: State) -> u32 {
    // SAFETY: a state goes in by value, and every state is accepted.
    unsafe { fade_close(state) }
}

// The line of totals, and the end's line where `end` is not 0, to the front of `out`.
#[inline]
pub(crate) fn write_totals(state: State, end: u32, out: &mut [u8; TOTALS]) -> usize {
    // SAFETY: `out` is borrowed for writing and has the length that the library takes it to have.
    // Every state and every number are accepted.
    unsafe { fade_write_totals(state, end, out) }
}
