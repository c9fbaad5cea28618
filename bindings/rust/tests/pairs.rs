// Answers for pairs, held against document 01 and against the Rust.

use fade::{compound, f_compoundf, Route};

// Lines `x y r via`: the pairs of document 01, and those of the replay, with the Rust's answers.
const DOCUMENT: &str = include_str!("../../pairs.txt");
const REPLAY: &str = include_str!("../../../crates/replay/stdout");

// Holds both functions to each line, and answers how many lines there are.
fn hold(text: &str) -> usize {
    for line in text.lines() {
        let pattern = |at| u32::from_str_radix(&line[at..at + 8], 16).expect(line);
        let (nx, ny) = (pattern(0), pattern(9));
        let (x, y) = (f32::from_bits(nx), f32::from_bits(ny));
        let answer = compound(x, y);
        let r = answer.value.to_bits();
        assert_eq!(format!("{nx:08x} {ny:08x} {r:08x} {}", answer.route), line);
        assert_eq!(f_compoundf(x, y).to_bits(), r, "{line}");
    }
    text.lines().count()
}

#[test]
fn pairs_of_document_01() {
    assert_eq!(hold(DOCUMENT), 17);
}

#[test]
fn pairs_of_the_replay() {
    assert!(hold(REPLAY) > 5000);
    for via in ["rule", "whole", "edge", "fast", "slow"] {
        assert!(REPLAY.lines().any(|line| line.ends_with(via)), "{via}");
    }
}

// Quiet and signalling NaNs of both signs, in either place.
#[test]
fn a_nan_is_7fc00000() {
    let nans = [0x7fc00000, 0xffc00000, 0x7f800001, 0xff800001, 0x7fffffff, 0xffffffff];
    let others = [0, 0x80000000, 0x3f800000, 0xbf800000, 0x7f800000, 0xff800000, 0xc0000000];
    for nan in nans.map(f32::from_bits) {
        for other in others.map(f32::from_bits).into_iter().chain([nan]) {
            for (x, y) in [(nan, other), (other, nan)] {
                assert_eq!(compound(x, y).route, Route::Rule);
                assert_eq!(f_compoundf(x, y).to_bits(), 0x7fc00000, "{x} {y}");
            }
        }
    }
}

#[test]
fn the_word_of_a_route() {
    assert_eq!(Route::Edge.as_str(), "edge");
    assert_eq!(format!("{:>6}", Route::Slow), "  slow");
}
