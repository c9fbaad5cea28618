// The refusals, rows 5 to 8 of document 01: each in its row's case, with state and output as they
// were, and not beside it.

use fade::{Reader, Refusal, State, Tail, Tallies};

// What the output holds before a feed.
const BEFORE: u8 = 0xa5;

// A line of 26 bytes and its answer line.
const LINE: &[u8] = b"id=7 x=3f000000 y=40000000\n";
const ANSWER: &[u8] = b"id=7 r=40100000 via=whole\n";

// A state in the middle of a line, with 9 lines.
fn sound() -> State {
    let mut bytes = [0; 30];
    bytes[..7].copy_from_slice(b"id=7 x=");
    let tallies = Tallies { rule: 1, whole: 1, edge: 2, fast: 3, slow: 1, bad: 1 };
    State { tail: Tail { bytes, count: 7 }, lines: 9, tallies }
}

// A state with so many lines, half of them bad, and no tail.
fn counted(lines: u32) -> State {
    let tallies = Tallies { fast: lines / 2, bad: lines - lines / 2, ..Tallies::default() };
    State { lines, tallies, ..State::default() }
}

// Feeds, and answers what came back, the state and the output after it.
fn fed(state: State, piece: &[u8], room: usize) -> (Result<usize, Refusal>, State, Vec<u8>) {
    let mut reader = Reader::from_state(state);
    let mut out = vec![BEFORE; room];
    let answer = reader.feed(piece, &mut out);
    (answer, reader.state(), out)
}

// A feed must be refused so, and change nothing.
fn refused(why: Refusal, state: State, piece: &[u8], room: usize) {
    assert_eq!(fed(state, piece, room), (Err(why), state, vec![BEFORE; room]));
}

// The broken states, by the clauses of row 5.
fn broken() -> Vec<State> {
    let mut states = Vec::new();
    let mut tail = |count, place: usize, byte| {
        let mut tail = Tail { bytes: [0; 30], count };
        tail.bytes[place] = byte;
        states.push(State { tail, ..sound() });
    };
    for count in [32, 33, 256, 1 << 31, u32::MAX] {
        tail(count, 0, 0); // count over 31
    }
    for (count, place) in [(1, 0), (30, 29), (30, 15), (0, 0), (7, 20), (31, 3)] {
        tail(count, place, 10); // byte 10 in the tail
    }
    for (count, place) in [(0, 0), (0, 29), (7, 7), (28, 29), (29, 29)] {
        tail(count, place, 1); // a place past the count
    }
    for place in 0..30 {
        tail(31, place, b'i'); // any place, at 31
    }
    let mut tallies = |lines, [rule, whole, edge, fast, slow, bad]: [u32; 6]| {
        let tallies = Tallies { rule, whole, edge, fast, slow, bad };
        states.push(State { lines, tallies, ..sound() });
    };
    tallies(1, [0; 6]); // not adding up
    tallies(0, [0, 0, 0, 0, 0, 1]);
    tallies(8, [1, 1, 2, 3, 1, 1]);
    tallies(10, [1, 1, 2, 3, 1, 1]);
    tallies(0, [u32::MAX, 1, 0, 0, 0, 0]); // adding up only modulo 2^32
    tallies(0, [1 << 31, 0, 0, 0, 0, 1 << 31]);
    tallies(u32::MAX - 5, [u32::MAX; 6]);
    states
}

#[test]
fn row_5_by_its_clauses() {
    for state in broken() {
        for piece in [&b""[..], b"id", LINE] {
            for room in [0, 1, 200] {
                refused(Refusal::BrokenState, state, piece, room);
            }
        }
        assert_eq!(Reader::from_state(state).close(), Err(Refusal::BrokenState), "{state:?}");
    }
}

// Row 5 is tried before rows 6 to 8.
#[test]
fn row_5_comes_first() {
    let mut state = counted(u32::MAX);
    state.tail.count = 1;
    assert_eq!(Reader::from_state(state).close(), Err(Refusal::Unfinished));
    refused(Refusal::TooManyLines, state, b"\n", 0);
    state.tail.bytes[0] = 10;
    assert_eq!(Reader::from_state(state).close(), Err(Refusal::BrokenState));
    refused(Refusal::BrokenState, state, b"\n", 0);
}

// States at the edge of row 5 are no broken ones: a full tail, an over-long one, zeros within the
// count, the largest tallies.
#[test]
fn not_row_5() {
    let tails = [([b'x'; 30], 30), ([0; 30], 31), ([0; 30], 30), ([0; 30], 1), ([0; 30], 0)];
    for (bytes, count) in tails {
        for counts in [counted(0), counted(u32::MAX), sound()] {
            let state = State { tail: Tail { bytes, count }, ..counts };
            assert_eq!(fed(state, b"", 0), (Ok(0), state, vec![]));
        }
    }
}

#[test]
fn row_6_at_the_limit() {
    let most = counted(u32::MAX);
    for piece in [&b"\n"[..], b"\n\n", LINE, b"id=1\nid=2"] {
        for room in [0, 200] {
            refused(Refusal::TooManyLines, most, piece, room);
        }
    }
    let (answer, after, _) = fed(most, b"id=7 x=", 0);
    assert_eq!((answer, after.lines, after.tail.count), (Ok(0), u32::MAX, 7));

    let (answer, after, out) = fed(counted(u32::MAX - 1), LINE, 30);
    assert_eq!((answer, after.lines, &out[..26]), (Ok(26), u32::MAX, ANSWER));
    refused(Refusal::TooManyLines, counted(u32::MAX - 1), &[LINE, b"\n"].concat(), 200);
    refused(Refusal::TooManyLines, counted(u32::MAX - 9), &[10; 10], 200);
    assert_eq!(fed(counted(u32::MAX - 9), &[10; 9], 200).0, Ok(54));
}

#[test]
fn row_7_by_a_byte() {
    let rest = &LINE[7..];
    let two = [rest, LINE].concat();
    for (piece, answers) in [(rest, ANSWER.to_vec()), (&two, ANSWER.repeat(2))] {
        let need = answers.len();
        for room in 0..need {
            refused(Refusal::NoRoom, sound(), piece, room);
        }
        for room in [need, need + 1, need + 50] {
            let (answer, after, out) = fed(sound(), piece, room);
            assert_eq!((answer, after.tail), (Ok(need), Tail::default()));
            assert_eq!(&out[..need], answers);
            assert!(out[need..].iter().all(|&byte| byte == BEFORE));
        }
    }
    refused(Refusal::NoRoom, State::default(), b"\n", 5);
    assert_eq!(fed(State::default(), b"\n", 6).2, b"bad=2\n");
}

#[test]
fn row_8_by_the_count() {
    for count in 0..=31 {
        let state = State { tail: Tail { bytes: [0; 30], count }, ..sound() };
        let wanted = if count == 0 { Ok(()) } else { Err(Refusal::Unfinished) };
        let reader = Reader::from_state(state);
        assert_eq!(reader.close(), wanted, "{count}");
        assert_eq!(reader.state(), state);
    }
}

// After a refusal a reader goes on as if there had been no call.
#[test]
fn a_refused_piece_can_be_fed_again() {
    let mut reader = Reader::from_state(sound());
    let mut out = [BEFORE; 26];
    assert_eq!(reader.feed(&LINE[7..], &mut out[..25]), Err(Refusal::NoRoom));
    assert_eq!(reader.feed(&LINE[7..], &mut out), Ok(26));
    assert_eq!(&out, ANSWER);
}

#[test]
fn numbers_and_words() {
    use Refusal::*;
    let numbers = [BrokenState, TooManyLines, NoRoom, Unfinished].map(Refusal::number);
    assert_eq!(numbers, [5, 6, 7, 8]);
    let error: Box<dyn std::error::Error> = Box::new(BrokenState);
    assert_eq!(error.to_string(), "the state is broken (5)");
}
