// Batches, held against what fade prints for them: those files are made from the Rust.

use fade::{room, Reader, Refusal, State, Tail, Tallies};

const SAMPLE: &[u8] = include_bytes!("../../../samples/cells.txt");
const SAMPLE_PRINTED: &[u8] = include_bytes!("../../../samples/cells.out");
const LARGE: &[u8] = include_bytes!("../../../crates/fade/stdin");
const LARGE_PRINTED: &[u8] = include_bytes!("../../../crates/fade/stdout");

// What the output holds before a feed.
const BEFORE: u8 = 0xa5;

// What fade prints for these pieces. The state is stored and restored after each.
fn printed<'a>(pieces: impl IntoIterator<Item = &'a [u8]>) -> Vec<u8> {
    let mut reader = Reader::new();
    let mut printed = Vec::new();
    for piece in pieces {
        let mut out = vec![BEFORE; room(piece.len())];
        let wrote = reader.feed(piece, &mut out).expect("there is room");
        assert!(out[wrote..].iter().all(|&byte| byte == BEFORE));
        printed.extend(&out[..wrote]);
        reader = Reader::from_state(reader.state());
    }
    printed.extend(reader.totals(reader.close().err()).as_bytes());
    printed
}

#[test]
fn the_sample_whole() {
    assert_eq!(printed([SAMPLE]), SAMPLE_PRINTED);
}

#[test]
fn the_sample_byte_by_byte() {
    assert_eq!(printed(SAMPLE.chunks(1)), SAMPLE_PRINTED);
}

#[test]
fn the_sample_cut_in_two_at_every_place() {
    for at in 0..=SAMPLE.len() {
        let (first, second) = SAMPLE.split_at(at);
        assert_eq!(printed([first, second]), SAMPLE_PRINTED, "cut at {at}");
    }
}

// 59 kB with every route, every refusal of a line, and an unfinished line at the end.
#[test]
fn the_large_batch_in_pieces() {
    for length in [1, 7, 31, 8192, LARGE.len()] {
        assert!(printed(LARGE.chunks(length)) == LARGE_PRINTED, "pieces of {length}");
    }
}

#[test]
fn nothing_at_all() {
    assert_eq!(printed([]), b"lines=0 rule=0 whole=0 edge=0 fast=0 slow=0 bad=0\n");
    assert_eq!(Reader::new(), Reader::default());
    assert_eq!(Reader::new().state(), State::default());
}

// Empty slices, whose pointers point at nothing, do nothing to a reader in the middle of a line.
#[test]
fn empty_pieces_and_outputs() {
    let mut reader = Reader::new();
    let mut out = [BEFORE; 100];
    for byte in SAMPLE.chunks(1) {
        reader.feed(byte, &mut out).expect("there is room");
        let state = reader.state();
        assert_eq!(reader.feed(&[], &mut []), Ok(0));
        assert_eq!(reader.feed(&Vec::new(), &mut Vec::new()), Ok(0));
        assert_eq!(reader.state(), state);
    }
    assert_eq!(reader.feed(b"id=1 x=", &mut []), Ok(0));
    assert_eq!(reader.close(), Err(Refusal::Unfinished));
}

#[test]
fn the_state_after_a_piece() {
    let mut reader = Reader::new();
    let piece = b"id=7 x=3f000000 y=40000000\n\nid=8 x";
    reader.feed(piece, &mut [0; 100]).expect("there is room");
    let mut bytes = [0; 30];
    bytes[..6].copy_from_slice(b"id=8 x");
    let tallies = Tallies { whole: 1, bad: 1, ..Tallies::default() };
    assert_eq!(reader.state(), State { tail: Tail { bytes, count: 6 }, lines: 2, tallies });
    reader.feed(&[b'-'; 25], &mut []).expect("no line is complete");
    assert_eq!(reader.state().tail, Tail { bytes: [0; 30], count: 31 });
}

// Each tally under its own word, and the longest numbers.
#[test]
fn totals_and_the_end() {
    let tallies = Tallies { rule: 1, whole: 20, edge: 300, fast: 4000, slow: 50000, bad: 600000 };
    let reader = Reader::from_state(State { lines: 654321, tallies, ..State::default() });
    let line = "lines=654321 rule=1 whole=20 edge=300 fast=4000 slow=50000 bad=600000\n";
    assert_eq!(reader.totals(None).to_string(), line);
    let ended = reader.totals(Some(Refusal::TooManyLines)).to_string();
    assert_eq!(ended, format!("{line}end=6\n"));

    let most = u32::MAX;
    let tallies =
        Tallies { rule: most, whole: most, edge: most, fast: most, slow: most, bad: most };
    let reader = Reader::from_state(State { lines: most, tallies, ..State::default() });
    let line = format!(
        "lines={most} rule={most} whole={most} edge={most} fast={most} slow={most} bad={most}\n"
    );
    assert_eq!(reader.totals(None).as_bytes(), line.as_bytes());
}

// After an over-long line, a piece of line feeds alone: each byte has an answer line of 6.
#[test]
fn room_is_enough() {
    for length in 0..100 {
        let tail = Tail { bytes: [0; 30], count: 31 };
        let mut reader = Reader::from_state(State { tail, ..State::default() });
        let piece = vec![b'\n'; length];
        assert_eq!(reader.feed(&piece, &mut vec![0; room(length)]), Ok(6 * length));
    }
    assert_eq!((room(0), room(8192), room(usize::MAX)), (31, 31 + 6 * 8192, usize::MAX));
}
