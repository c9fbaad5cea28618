//! Battery fade factors, (1+x)^y in f32, and the reader of batch lines.
//!
//! A thin layer over two static libraries whose functions are proved; `rt lib` in `crates/exports`
//! and in `crates/batch_exports` builds them.
//! Every function here takes every value of its types. Before a pack is sized on an answer, read
//! docs/ERROR-BUDGET.md. The libraries hold code translated from the crate pxfm 0.1.30
//! (BSD-3-Clause OR Apache-2.0; NOTICE has both licences).
//!
//! ```
//! // A cell that loses 0.02 % a cycle, after 500 cycles.
//! let answer = fade::compound(-0.0002, 500.0);
//! assert_eq!(answer.value.to_bits(), 0x3f67a2d5); // 0.9048
//! assert_eq!(answer.route, fade::Route::Fast);
//!
//! let mut reader = fade::Reader::new();
//! let piece = b"id=7 x=3f000000 y=40000000\nid=07 x=3f000000 y=40000000\n";
//! let mut out = vec![0; fade::room(piece.len())];
//! let wrote = reader.feed(piece, &mut out)?;
//! assert_eq!(&out[..wrote], b"id=7 r=40100000 via=whole\nbad=2\n");
//! let totals = reader.totals(reader.close().err());
//! assert_eq!(totals.as_bytes(), b"lines=2 rule=0 whole=1 edge=0 fast=0 slow=0 bad=1\n");
//! # Ok::<(), fade::Refusal>(())
//! ```

#![deny(unsafe_code)]

#[allow(unsafe_code)]
mod ffi;

use std::fmt::{self, Display, Formatter, Write};

/// The longest line, in bytes before its feed.
pub const LONGEST: usize = 30;

/// The tail count that marks an over-long line.
pub const OVER_LONG: u32 = LONGEST as u32 + 1;

// Room for the line of totals and the end's line, whatever their numbers.
const TOTALS: usize = 128;

/// (1+x)^y, in the place of the crate's function of this name. Every pair is accepted, and the bits are
/// those of pxfm 0.1.30 built for x86_64 without fma and sse4.1, any two NaNs taken as alike; a NaN
/// from here is always 7fc00000. docs/DIFFERENCES.md says what was compared.
#[inline]
pub fn f_compoundf(x: f32, y: f32) -> f32 {
    compound(x, y).value
}

/// (1+x)^y as [`f_compoundf`] gives it, with the route that the pair takes.
#[inline]
pub fn compound(x: f32, y: f32) -> Answer {
    let both = ffi::compoundf(x.to_bits(), y.to_bits());
    let route = match both >> 32 {
        0 => Route::Rule,
        1 => Route::Whole,
        2 => Route::Edge,
        3 => Route::Fast,
        _ => Route::Slow, // 4, the last
    };
    Answer { route, value: f32::from_bits(both as u32) }
}

/// The answer for a pair.
#[derive(Clone, Copy, Debug, PartialEq)]
pub struct Answer {
    /// The route that the pair takes.
    pub route: Route,
    /// (1+x)^y.
    pub value: f32,
}

/// How an answer was found.
#[derive(Clone, Copy, Debug, PartialEq, Eq, Hash)]
pub enum Route {
    /// x <= -1, or x or y is a zero, an infinity or a NaN: the special table answers.
    Rule,
    /// y is whole and at most 16 in size, x below 2^64: 1 + x is multiplied out, or the answer is 1
    /// for an x of at most 2^-29 in size.
    Whole,
    /// The answer underflows to 0, overflows to infinity, or is 1 because 1 + x lost x.
    Edge,
    /// By tables, and the rounding is certain by the crate's own account.
    Fast,
    /// By tables in double-doubles.
    Slow,
}

impl Route {
    /// The word after `via=`.
    pub fn as_str(self) -> &'static str {
        match self {
            Route::Rule => "rule",
            Route::Whole => "whole",
            Route::Edge => "edge",
            Route::Fast => "fast",
            Route::Slow => "slow",
        }
    }
}

impl Display for Route {
    fn fmt(&self, f: &mut Formatter) -> fmt::Result {
        f.pad(self.as_str())
    }
}

/// The unfinished line that a state holds. Two bytes between the fields have no meaning.
#[repr(C)]
#[derive(Clone, Copy, Debug, Default, PartialEq, Eq, Hash)]
pub struct Tail {
    /// Its bytes, and zeros past their count; zeros alone where the line is over-long.
    pub bytes: [u8; LONGEST],
    /// How many bytes it has; [`OVER_LONG`] marks an over-long line.
    pub count: u32,
}

/// How many lines took each route, and how many were bad.
#[repr(C)]
#[derive(Clone, Copy, Debug, Default, PartialEq, Eq, Hash)]
pub struct Tallies {
    pub rule: u32,
    pub whole: u32,
    pub edge: u32,
    pub fast: u32,
    pub slow: u32,
    pub bad: u32,
}

/// What a reader carries from one piece to the next. It may be stored and restored: every value is a
/// state, and one that no reader can come to is refused with 5. The default is the fresh state.
#[repr(C)]
#[derive(Clone, Copy, Debug, Default, PartialEq, Eq, Hash)]
pub struct State {
    /// The unfinished line.
    pub tail: Tail,
    /// The lines so far.
    pub lines: u32,
    /// The lines so far, by what they got.
    pub tallies: Tallies,
}

/// Why a feed took nothing, or why the input may not end here.
#[derive(Clone, Copy, Debug, PartialEq, Eq, Hash)]
pub enum Refusal {
    /// The tail count is over 31, the tail has a byte 10, a place past the count (or any place, at 31)
    /// is not zero, or the tallies do not add up to the lines.
    BrokenState = 5,
    /// The lines so far and the line feeds of the piece are together over 4,294,967,295.
    TooManyLines = 6,
    /// The output is shorter than the answer lines of the piece.
    NoRoom = 7,
    /// Close while the tail count is not 0.
    Unfinished = 8,
}

impl Refusal {
    /// Its number, 5 to 8.
    pub fn number(self) -> u32 {
        self as u32
    }

    // What a number of the library says; it gives 0 and 5 to 8 alone.
    fn of(number: u32) -> Result<(), Refusal> {
        match number {
            0 => Ok(()),
            5 => Err(Refusal::BrokenState),
            6 => Err(Refusal::TooManyLines),
            7 => Err(Refusal::NoRoom),
            _ => Err(Refusal::Unfinished),
        }
    }
}

impl Display for Refusal {
    fn fmt(&self, f: &mut Formatter) -> fmt::Result {
        let cause = match self {
            Refusal::BrokenState => "the state is broken",
            Refusal::TooManyLines => "more lines than can be counted",
            Refusal::NoRoom => "the output is shorter than the answer lines",
            Refusal::Unfinished => "the input ended in the middle of a line",
        };
        write!(f, "{cause} ({})", self.number())
    }
}

impl std::error::Error for Refusal {}

/// A length of output that is enough for the answer lines of any piece of so many bytes.
///
/// An answer line is at most 5 bytes longer than its line, each with its line feed. The tail counts
/// for at most 31 bytes, and a piece of n bytes has at most n line feeds: 31 + n + 5n.
pub const fn room(piece_length: usize) -> usize {
    piece_length.saturating_mul(6).saturating_add(OVER_LONG as usize)
}

/// The reader of batch lines: pieces of input go in, answer lines come out.
#[derive(Clone, Debug, Default, PartialEq, Eq)]
pub struct Reader {
    state: State,
}

impl Reader {
    /// A reader before its first piece.
    pub fn new() -> Reader {
        Reader { state: ffi::fresh() }
    }

    /// A reader with a state that was stored.
    pub fn from_state(state: State) -> Reader {
        Reader { state }
    }

    /// The state, with the lines so far and their tallies.
    pub fn state(&self) -> State {
        self.state
    }

    /// Takes a piece of input, writes the answer lines of the lines whose line feed lies in it to the
    /// front of `out`, and says how many bytes these are; the bytes after them keep their values. Where
    /// it refuses, with 5 to 7, state and output stay as they were.
    pub fn feed(&mut self, piece: &[u8], out: &mut [u8]) -> Result<usize, Refusal> {
        let handed = ffi::feed(self.state, piece, out);
        Refusal::of(handed.number)?;
        self.state = handed.state;
        Ok(handed.wrote)
    }

    /// Whether the input may end here; 5 or 8 where it may not. The reader stays as it is.
    pub fn close(&self) -> Result<(), Refusal> {
        Refusal::of(ffi::close(self.state))
    }

    /// The line of totals, as they stand in the state. For an end with a number, as
    /// [`Reader::close`] gives it, the line of that number follows.
    pub fn totals(&self, end: Option<Refusal>) -> Totals {
        let mut bytes = [0; TOTALS];
        let length = ffi::write_totals(self.state, end.map_or(0, Refusal::number), &mut bytes);
        Totals { bytes, length }
    }
}

/// The line of totals with its line feed, and the end's line if there is one.
#[derive(Clone, Copy, Debug)]
pub struct Totals {
    bytes: [u8; TOTALS],
    length: usize,
}

impl Totals {
    /// Its bytes, which are all ASCII.
    pub fn as_bytes(&self) -> &[u8] {
        &self.bytes[..self.length]
    }
}

impl Display for Totals {
    fn fmt(&self, f: &mut Formatter) -> fmt::Result {
        self.as_bytes().iter().try_for_each(|&byte| f.write_char(char::from(byte)))
    }
}
