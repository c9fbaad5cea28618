// Random states and pieces: each feed is accepted or refused with 5, 6 or 7, as document 01 says.

use fade::{room, Reader, Refusal, State, Tail, Tallies};

// How many states are drawn.
const DRAWN: usize = 100_000;

// What the output holds before a feed.
const BEFORE: u8 = 0xa5;

// Random numbers by xorshift with a fixed seed, so that every run repeats.
struct Random(u64);

impl Random {
    // A number from 0 up to, but without, n.
    fn below(&mut self, n: u64) -> u64 {
        self.0 ^= self.0 << 13;
        self.0 ^= self.0 >> 7;
        self.0 ^= self.0 << 17;
        (self.0 >> 11) % n
    }

    // True once in n times.
    fn once_in(&mut self, n: u64) -> bool {
        self.below(n) == 0
    }

    // A byte of a batch, or any byte.
    fn byte(&mut self) -> u8 {
        let bytes = b"id=7 x=3f000000 y=40000000\n";
        match self.below(40) {
            at if at < 27 => bytes[at as usize],
            _ => self.below(256) as u8,
        }
    }

    // A number of lines: a few, any, or nearly as many as can be counted.
    fn lines(&mut self) -> u32 {
        match self.below(4) {
            0 => self.below(1 << 32) as u32,
            1 => u32::MAX - self.below(4) as u32,
            _ => self.below(100) as u32,
        }
    }

    // A state that is sound, or damaged in one place or two.
    fn state(&mut self) -> State {
        let (count, lines) = (self.below(32) as u32, self.lines());
        let mut tail = Tail { bytes: [0; 30], count };
        let held = if count == 31 { 0 } else { count as usize };
        for byte in &mut tail.bytes[..held] {
            *byte = Some(self.byte()).filter(|&byte| byte != 10).unwrap_or(b'-');
        }
        let mut left = lines;
        let [rule, whole, edge, fast, slow] = [(); 5].map(|()| {
            let part = self.below(u64::from(left) + 1) as u32;
            left -= part;
            part
        });
        let mut tallies = Tallies { rule, whole, edge, fast, slow, bad: left };
        match self.below(10) {
            0 => tail.count = self.below(40) as u32,
            1 => tail.bytes[self.below(30) as usize] = self.byte(),
            2 => tallies.edge = self.lines(),
            3 => {
                tallies.fast = fast.wrapping_add(1 << 31); // the sum stays the same modulo 2^32
                tallies.bad = left.wrapping_add(1 << 31);
            }
            _ => {}
        }
        State { tail, lines, tallies }
    }

    // A line now and then, and other bytes.
    fn piece(&mut self) -> Vec<u8> {
        let mut piece = Vec::new();
        for _ in 0..self.below(4) {
            let length = self.below(40);
            piece.extend((0..length).map(|_| self.byte()));
            if self.once_in(2) {
                piece.extend(b"\nid=321 x=bc23d70a y=41200000\n");
            }
        }
        piece
    }
}

// Row 5.
fn broken(state: &State) -> bool {
    let Tail { bytes, count } = state.tail;
    let Tallies { rule, whole, edge, fast, slow, bad } = state.tallies;
    let sum: u64 = [rule, whole, edge, fast, slow, bad].map(u64::from).iter().sum();
    let used = if count == 31 { 0 } else { count as usize };
    count > 31
        || bytes.contains(&10)
        || bytes.iter().skip(used).any(|&byte| byte != 0)
        || sum != u64::from(state.lines)
}

// The tail after a piece.
fn tail_after(tail: &Tail, piece: &[u8]) -> Tail {
    let mut line = vec![0; tail.count as usize];
    line[..tail.count.min(30) as usize].copy_from_slice(&tail.bytes[..tail.count.min(30) as usize]);
    line.extend(piece);
    let line = line.rsplit(|&byte| byte == 10).next().unwrap_or_default();
    let mut bytes = [0; 30];
    if line.len() > 30 {
        return Tail { bytes, count: 31 };
    }
    bytes[..line.len()].copy_from_slice(line);
    Tail { bytes, count: line.len() as u32 }
}

// How many line feeds a piece has.
fn line_feeds(piece: &[u8]) -> u32 {
    piece.iter().filter(|&&byte| byte == 10).count() as u32
}

// What a feed must answer, if the answer lines have `need` bytes.
fn wanted(state: &State, piece: &[u8], room: usize, need: usize) -> Result<usize, Refusal> {
    if broken(state) {
        Err(Refusal::BrokenState)
    } else if state.lines.checked_add(line_feeds(piece)).is_none() {
        Err(Refusal::TooManyLines)
    } else if room < need {
        Err(Refusal::NoRoom)
    } else {
        Ok(need)
    }
}

// What close must answer.
fn wanted_close(state: &State) -> Result<(), Refusal> {
    match state.tail.count {
        _ if broken(state) => Err(Refusal::BrokenState),
        0 => Ok(()),
        _ => Err(Refusal::Unfinished),
    }
}

// How many of the answer lines have this in them.
fn having(answers: &str, word: &str) -> u32 {
    answers.lines().filter(|line| line.contains(word)).count() as u32
}

// The state after an accepted feed: the tail is held, the lines are counted, and each is tallied
// under what its answer line says.
fn state_after(state: &State, piece: &[u8], answers: &[u8]) -> State {
    let answers = std::str::from_utf8(answers).expect("answer lines are ASCII");
    assert_eq!(answers.lines().count() as u32, line_feeds(piece));
    let before = state.tallies;
    let tallies = Tallies {
        rule: before.rule + having(answers, "via=rule"),
        whole: before.whole + having(answers, "via=whole"),
        edge: before.edge + having(answers, "via=edge"),
        fast: before.fast + having(answers, "via=fast"),
        slow: before.slow + having(answers, "via=slow"),
        bad: before.bad + having(answers, "bad="),
    };
    State { tail: tail_after(&state.tail, piece), lines: state.lines + line_feeds(piece), tallies }
}

#[test]
fn random_states() {
    let mut random = Random(0x0fad_e000_c0de_2019);
    let mut met = [0; 9];
    for _ in 0..DRAWN {
        let (state, piece) = (random.state(), random.piece());
        let ample = room(piece.len());
        let need = Reader::from_state(state).feed(&piece, &mut vec![0; ample]).unwrap_or(0);
        for room in [ample, random.below(100) as usize] {
            let mut reader = Reader::from_state(state);
            let mut out = vec![BEFORE; room];
            let answer = reader.feed(&piece, &mut out);
            assert_eq!(answer, wanted(&state, &piece, room, need), "{state:?} {piece:?} {room}");
            let wrote = answer.unwrap_or(0);
            assert!(out[wrote..].iter().all(|&byte| byte == BEFORE));
            let after = match answer {
                Ok(wrote) => state_after(&state, &piece, &out[..wrote]),
                Err(_) => state,
            };
            assert_eq!(reader.state(), after, "{state:?} {piece:?}");
            met[answer.map_or_else(Refusal::number, |_| 0) as usize] += 1;
        }
        let closed = Reader::from_state(state).close();
        assert_eq!(closed, wanted_close(&state), "{state:?}");
        met[closed.map_or_else(Refusal::number, |()| 0) as usize] += 1;
    }
    let enough = |&number: &usize| met[number] > DRAWN / 100;
    assert!([0, 5, 6, 7, 8].iter().all(enough), "how often each number came: {met:?}");
}
