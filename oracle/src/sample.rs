// Batches for fade, the same each time. The large one goes with what fade must print for it: it has
// every route, every refusal in many ways, lines about as long as the longest, and pieces of the
// input that end in odd places of a line. The small one is for cutting it at every place. Others
// are for the README and for measuring the time.

use crate::batch::{self, LONGEST};
use crate::bench::fade_pairs;
use crate::checks::PAIRS;
use crate::compare::Tally;
use crate::draw::{self, Pair};
use crate::files::{each_line, File};
use crate::lines;
use crate::random::Random;
use crate::told::WORDS;

// fade reads its input in pieces of so many bytes.
const PIECE: usize = 8192;

// The bytes of the large batch, about; and of the line in it that spans whole pieces.
const SIZE: usize = 59_000;
const LONG_LINE: usize = 20_000;

// How many lines the plain program is given besides.
const LINES: u64 = 200_000;

// The ids at the ends of their lengths.
const IDS: [u16; 10] = [0, 9, 10, 99, 100, 999, 1000, 9999, 10_000, 65_535];

// Operands, each against each: zeros, subnormals, -1 with its neighbours, 1, infinities, a NaN of
// each kind, a loss and a number of cycles.
#[rustfmt::skip]
const OPERANDS: [u32; 14] = [
    0x0000_0000, 0x8000_0000, 0x0000_0001, 0x807f_ffff, 0xbf7f_ffff, 0xbf80_0000, 0xbf80_0001,
    0x3f80_0000, 0x7f80_0000, 0xff80_0000, 0x7f80_0001, 0xffff_ffff, 0xbc23_d70a, 0x447a_0000,
];

// What is no first field. Good others follow it, and the refusal is 2.
#[rustfmt::skip]
const NO_ID: [&[u8]; 58] = [
    b"id=65536 ", b"id=65543 ", b"id=70000 ", b"id=99999 ", b"id=00 ", b"id=01 ", b"id=007 ",
    b"id=0000 ", b"id=00000 ", b"id=01234 ", b"id= ", b"id=-1 ", b"id=-0 ", b"id=+1 ", b"id=1a ",
    b"id=a ", b"id=0x7 ", b"id=7. ", b"id=1,0 ", b"id=1_0 ", b"id=1e3 ", b"id=/ ", b"id=: ",
    b"id=7/ ", b"id=7: ", b"id=~ ", b"i=7 ", b"d=7 ", b"ID=7 ", b"Id=7 ", b"iD=7 ", b"id:7 ",
    b"id==7 ", b"id7 ", b"id =7 ", b"id= 7 ", b" id=7 ", b"id=7", b"id=7\t", b"id=7,", b"\tid=7 ",
    b"x=7 ", b"=7 ", b"7 ", b" ", b"", b"id=7\0", b"id=7\0 ", b"id=\x007 ", b"i\0d=7 ", b"\0id=7 ",
    b"id=7\r", b"\rid=7 ", b"\xef\xbb\xbfid=7 ", b"id=\xb2 ", b"id=7\xa0", b"\xe9d=7 ", b"id\xbd7 ",
];

// What is no second field. A good first one stands before it, a good last one after it: refusal 3.
#[rustfmt::skip]
const NO_X: [&[u8]; 40] = [
    b"x=3f00000 ", b"x=3f0000000 ", b"x=3F000000 ", b"x=3f00000A ", b"x=3f00000g ", b"x=3f00000/ ",
    b"x=3f00000: ", b"x=3f00000@ ", b"x=3f00000` ", b"x=+3f00000 ", b"x=-3f00000 ", b"x=0x3f0000 ",
    b"x=3f00_000 ", b"x=3f00 000 ", b"X=3f000000 ", b"y=3f000000 ", b"r=3f000000 ", b"x 3f000000 ",
    b"x:3f000000 ", b"x==3f00000 ", b"x3f000000 ", b"x =3f000000 ", b"x= 3f000000 ",
    b" x=3f000000 ", b"x=3f000000", b"x=3f000000\t", b"x=3f000000,", b"x= ", b"x=", b"x ", b"",
    b" ", b"x=3f000000\0", b"x=3f0000\0\0 ", b"\0x=3f000000 ", b"x=3f000000\r",
    b"x=3f\xc3\xa90000 ", b"x=\xb3f000000 ", b"\xf8=3f000000 ", b"x=3f000000\xa0",
];

// What is no rest. Two good fields stand before it: refusal 4.
#[rustfmt::skip]
const NO_Y: [&[u8]; 44] = [
    b"y=4000000", b"y=400000000", b"y=4000000A", b"y=C0000000", b"y=4000000g", b"y=4000000/",
    b"y=4000000:", b"y=4000000@", b"y=4000000`", b"y=+4000000", b"y=-4000000", b"y=0x400000",
    b"y=4000 000", b"Y=40000000", b"x=40000000", b"=40000000", b"40000000", b"y:40000000",
    b"y==4000000", b"y40000000", b"y =40000000", b"y= 40000000", b" y=40000000", b"y=40000000 ",
    b"y=40000000\t", b"y=40000000,", b"y=40000000 z", b"y=40000000x", b"y=40000000y=", b"y=", b"y",
    b"", b" ", b"y=NaN", b"y=2.0", b"y=40000000\r", b"y=40000000\r\r", b"\ry=40000000",
    b"y=40000000\0", b"y=4000000\0", b"y=\x004000000", b"y=40000000\x80", b"y=\xb40000000",
    b"\xfd=40000000",
];

// Lines that are no line in ways of their own.
#[rustfmt::skip]
const NO_LINE: [&[u8]; 22] = [
    b"id", b"id=", b"id=7", b"id=7 ", b"id=7 x", b"id=7 x=", b"id=7 x=3f000000",
    b"id=7 x=3f000000 ", b"id=7 x=3f000000 y=", b"x=3f000000 y=40000000",
    b"id=7 y=40000000 x=3f000000", b"y=40000000 x=3f000000 id=7", b"id=7 r=40100000 via=whole",
    b"lines=0", b"end=8", b"bad=2", b"id=100000 x=3f000000 y=", b"id=000007 x=3f000000",
    b"id=4294967303 x=3f000000", b"id=18446744073709551623 x=3f00",
    b"id=99999999999999999999999999", b"\r",
];

// Lines for the ends of pieces, and how many bytes of each stand before the end: a longest line
// without its feed, an over-long one before and after the byte that makes it one, a line with its
// feed, and one up to the middle of x.
const AT_ENDS: [(&[u8], usize); 5] = [
    (b"id=65535 x=bc23d70a y=447a0000", 30),
    (b"id=65535 x=bc23d70a y=447a00000", 30),
    (b"id=65535 x=bc23d70a y=447a00001", 31),
    (b"id=65534 x=bc23d70a y=447a0000", 31),
    (b"id=10 x=bc23d70a y=447a0000", 12),
];

// The batch of the README: three cells with their loss per cycle and number of cycles, and a line
// with a wrong letter.
const README: &[u8] = b"\
id=1 x=b951b717 y=43fa0000
id=2 x=ba03126f y=453b8000
id=3 x=bc23d70a y=41200000
id=4 x=BA03126F y=453b8000
";

// The small batch: a line of every route and of every refusal, a longest and an over-long one, an
// empty one, a carriage return and a NUL; and an unfinished tail.
const SMALL: &[u8] = b"\
id=0 x=bf800001 y=00000000
id=7 x=3f000000 y=40000000
id=07 x=3f000000 y=40000000
id=10 x=3f800000 y=43000000
id=65535 x=3f800000 y=3f000000
id=65535 x=3f800000 y=3f0000000
id=321 x=3f800000 y=c3150000

id=7 x=3F000000 y=40000000
id=7 x=3f000000 y=4000000
id=7 x=3f000000 y=40000000\r
id=7\0x=3f000000 y=40000000
id=9 x=bc23d70a y=447a0000
id=9 x=bc2";

// What cuts prints after the answers to the small batch: how many checks each group made, and that
// none was wrong.
const CHECKED: &[u8] = b"\
whole: checks of feed 1, of close 0, wrong 0
cut in two: checks of feed 2716, of close 349, wrong 0
byte by byte: checks of feed 722, of close 0, wrong 0
broken states: checks of feed 200, of close 40, wrong 0
most lines: checks of feed 12, of close 0, wrong 0
close: checks of feed 0, of close 5, wrong 0
";

// A batch while it grows, and the lines that still wait for the end of a piece.
struct Batch {
    bytes: Vec<u8>,
    at_ends: std::array::IntoIter<(&'static [u8], usize), 5>,
}

impl Batch {
    // Adds a line. If a piece is about to end, the next line for that comes before.
    fn add(&mut self, line: &[u8]) {
        let left = PIECE - self.bytes.len() % PIECE;
        if (40..80).contains(&left) {
            if let Some((line, before)) = self.at_ends.next() {
                self.push(&vec![b'-'; left - before - 1]);
                self.push(line);
            }
        }
        self.push(line);
    }

    // Adds a line and its feed.
    fn push(&mut self, line: &[u8]) {
        self.bytes.extend(line);
        self.bytes.push(b'\n');
    }

    // Adds a line that must be refused with the number.
    fn add_bad(&mut self, number: u32, line: &[u8]) {
        assert_eq!(batch::answer(line), Err(number), "for {}", line.escape_ascii());
        self.add(line);
    }
}

// The large batch.
fn large() -> Vec<u8> {
    let mut r = Random::new(0);
    let mut batch = Batch { bytes: README.to_vec(), at_ends: AT_ENDS.into_iter() };
    batch.add(b"id=7 x=3f000000 y=40000000");
    batch.add(b"id=07 x=3f000000 y=40000000");
    PAIRS.into_iter().enumerate().for_each(|(id, row)| batch.add(&line(id as u16, row.0)));
    IDS.into_iter().for_each(|id| batch.add(&line(id, draw::pair(&mut r, 9))));
    for x in OPERANDS {
        OPERANDS.into_iter().for_each(|y| batch.add(&line(some_id(&mut r), [x, y])));
    }
    add_refused(&mut batch, &mut r);
    add_lengths(&mut batch);
    for empty in [1, 2, 5] {
        (0..empty).for_each(|_| batch.add(b""));
        batch.add(&line(empty, draw::pair(&mut r, 9)));
    }
    let long = line(7, PAIRS[6].0).into_iter().chain(*b"\r\0 ").cycle();
    batch.add_bad(1, &long.take(LONG_LINE).collect::<Vec<_>>());
    (1..=9).for_each(|id| batch.add(&line(id, draw::pair(&mut r, 16 + id as u64))));
    for number in 1.. {
        if batch.bytes.len() > SIZE {
            break;
        }
        drawn(&mut r, number).iter().for_each(|line| batch.add(line));
    }
    assert!(batch.at_ends.next().is_none(), "too few pieces end");
    batch.bytes.extend(b"id=7 x=3f0000");
    batch.bytes
}

// Lines with one wrong field, and those with several: the first counts. Some are over-long besides.
fn add_refused(batch: &mut Batch, r: &mut Random) {
    let good = |r: &mut Random| {
        let (id, [x, y]) = (r.pick(&IDS[..6]), draw::pair(r, 9));
        [format!("id={id} "), format!("x={x:08x} "), format!("y={y:08x}")].map(String::into_bytes)
    };
    for (place, wrong) in [&NO_ID[..], &NO_X, &NO_Y].into_iter().enumerate() {
        for &field in wrong {
            let mut fields = good(r);
            fields[place] = field.to_vec();
            batch.add_bad(place as u32 + 2, &fields.concat());
        }
    }
    for n in 0..20 {
        let wrong = [r.pick(&NO_ID), r.pick(&NO_X), r.pick(&NO_Y)];
        let mut fields = good(r);
        let kept = n % 4;
        let others = (0..3).filter(|&place| place != kept);
        others.for_each(|place| fields[place] = wrong[place].to_vec());
        batch.add(&fields.concat());
        batch.add_bad(1, &[fields.concat(), vec![b'0'; LONGEST]].concat());
    }
    NO_LINE.into_iter().for_each(|line| batch.add(line));
}

// Good lines of 29 and 30 bytes, and bad ones of 29 to 32 and some of more.
fn add_lengths(batch: &mut Batch) {
    for id in [4321, 9999, 10_000, 65_535] {
        let good = line(id, PAIRS[12].0);
        batch.add(&good);
        for more in ["0", " ", "\r", "\0", "\r\0", "  "] {
            batch.add(&[&good, more.as_bytes()].concat());
        }
        for wrong in 0..good.len() {
            let mut line = good.clone();
            line[wrong] = b'g';
            batch.add(&line);
        }
    }
    let start = line(7, PAIRS[6].0);
    let lengths = (29..=32).flat_map(|length| [b' ', b'0', 0, 255].map(|byte| (length, byte)));
    for (length, byte) in lengths {
        let bytes = vec![byte; length];
        for start in [&start[..], b"id=", b""] {
            batch.add(&[start, &bytes[start.len()..]].concat());
        }
    }
    for length in [33, 59, 60, 61, 62, 64, 128, 256, 257, 300] {
        batch.add_bad(1, &[&start[..], &vec![b' '; length - start.len()]].concat());
    }
    for id in ["65536", "99999", "100000", "000007", "1000000", "-10000"] {
        batch.add(format!("id={id} x=3f000000 y=40000000").as_bytes());
    }
}

// A drawn pair in a good line, and the same misspelt.
fn drawn(r: &mut Random, number: u64) -> [Vec<u8>; 2] {
    let pair = draw::pair(r, number);
    let good = line(some_id(r), pair);
    let bad = misspelt(r, good.clone());
    [good, bad]
}

// The line of an id and a pair.
fn line(id: u16, [x, y]: Pair) -> Vec<u8> {
    format!("id={id} x={x:08x} y={y:08x}").into_bytes()
}

// An id of any length.
fn some_id(r: &mut Random) -> u16 {
    let (any, end) = (r.bits() as u16 >> r.below(16), r.pick(&IDS));
    r.pick(&[any, any, any, end])
}

// A line with a byte changed, added, taken out or repeated, or cut off. It may still be a good one.
fn misspelt(r: &mut Random, mut line: Vec<u8>) -> Vec<u8> {
    let place = r.below(line.len() as u64) as usize;
    match r.below(8) {
        0..=2 => line[place] = other_byte(r),
        3 | 4 => line.insert(place + 1, other_byte(r)),
        5 => _ = line.remove(place),
        6 => line.insert(place, line[place]),
        _ => line.truncate(place),
    }
    line
}

// A byte that is no feed: mostly one that a line has somewhere, or that is taken for such a one.
fn other_byte(r: &mut Random) -> u8 {
    let any = r.within(11, 255) as u8;
    r.pick(&[b' ', b'=', b'0', b'9', b'a', b'f', b'A', b'F', b'g', b'y', b'\t', b'\r', b'\0', any])
}

// The files: the large batch and what fade prints for it, the small batch and what cuts prints for
// it, and the README's batch and what fade prints for it.
pub fn files() -> [File; 6] {
    let large = large();
    assert_varied(&large, 40);
    assert_varied(SMALL, 1);
    let printed = batch::printed(&large);
    [
        ("crates/fade/stdin", large),
        ("crates/fade/stdout", printed),
        ("crates/cuts/stdin", SMALL.to_vec()),
        ("crates/cuts/stdout", [&batch::answers(SMALL)[..], CHECKED].concat()),
        ("samples/cells.txt", README.to_vec()),
        ("samples/cells.out", batch::printed(README)),
    ]
}

// A batch has at least so many lines of each route and of each refusal.
fn assert_varied(bytes: &[u8], least: usize) {
    let mut counts = [0; WORDS.len() + 4];
    for line in batch::lines(bytes).0 {
        let kind = batch::answer(line).map(|(_, told)| told.via as usize);
        counts[kind.unwrap_or_else(|number| WORDS.len() - 1 + number as usize)] += 1;
    }
    assert!(counts.iter().all(|&count| count >= least), "a route or a refusal is rare: {counts:?}");
}

// The plain program's output beside what fade must print: for the batches, and for drawn lines.
pub fn plain_program() -> Tally {
    let mut r = Random::new(1);
    let drawn = (1..=LINES / 2).flat_map(|number| drawn(&mut r, number));
    let drawn = drawn.flat_map(|line| [line, vec![b'\n']]).collect::<Vec<_>>().concat();
    let batches = [drawn, large(), SMALL.to_vec(), Vec::new()];
    batches.iter().map(|batch| plain(batch)).fold(Tally::default(), Tally::plus)
}

// The same for one batch.
fn plain(batch: &[u8]) -> Tally {
    let mut out = Vec::new();
    lines::run(batch, &mut out).expect("a list can be read and written");
    each_line(&out, &batch::printed(batch))
}

// Writes a batch of fade's own range for the measuring, and one with the first tenth of its lines.
pub fn write_timed(count: usize) {
    let pairs = fade_pairs(count).into_iter().enumerate();
    let lines: Vec<_> = pairs.map(|(id, pair)| line(id as u16, pair)).collect();
    for (path, lines) in [
        ("target/oracle/lines.txt", &lines[..]),
        ("target/oracle/lines-tenth.txt", &lines[..count.div_ceil(10)]),
    ] {
        let batch = lines.iter().flat_map(|line| [&line[..], b"\n"]).collect::<Vec<_>>().concat();
        std::fs::write(path, batch).expect("a batch was not written");
    }
}
