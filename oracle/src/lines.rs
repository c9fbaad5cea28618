// The batch program as one would write it in Rust over the crate, with no proofs. It prints what
// fade prints, and fade's time is compared with its time.

use crate::told::{self, WORDS};
use std::io::{self, BufRead, Write};

// The digits of a pattern, and for each byte the digit that it is, or NONE.
const DIGITS: &[u8; 16] = b"0123456789abcdef";
const NONE: u8 = 255;
const VALUES: [u8; 256] = {
    let mut values = [NONE; 256];
    let mut digit = 0;
    while digit < DIGITS.len() {
        values[DIGITS[digit] as usize] = digit as u8;
        digit += 1;
    }
    values
};

// Answers the lines of the input up to its end.
pub fn run(mut input: impl BufRead, mut output: impl Write) -> io::Result<()> {
    let mut line = Vec::new();
    let mut reply = Vec::new();
    let mut routes = [0u32; WORDS.len()];
    let mut bad = 0;
    let unfinished = loop {
        line.clear();
        input.read_until(b'\n', &mut line)?;
        let Some((b'\n', line)) = line.split_last() else {
            break !line.is_empty();
        };
        reply.clear();
        match parse(line) {
            Ok((id, x, y)) => {
                let told = told::once([x, y]);
                routes[told.via as usize] += 1;
                reply.extend_from_slice(b"id=");
                reply.extend_from_slice(id);
                reply.extend_from_slice(b" r=");
                reply.extend_from_slice(&hex(told.r));
                reply.extend_from_slice(b" via=");
                reply.extend_from_slice(WORDS[told.via as usize].as_bytes());
                reply.push(b'\n');
            }
            Err(number) => {
                bad += 1;
                reply.extend_from_slice(b"bad=");
                reply.extend_from_slice(&[b'0' + number, b'\n']);
            }
        }
        output.write_all(&reply)?;
    };
    write!(output, "lines={}", routes.iter().sum::<u32>() + bad)?;
    for (word, count) in WORDS.iter().zip(routes) {
        write!(output, " {word}={count}")?;
    }
    writeln!(output, " bad={bad}")?;
    if unfinished {
        writeln!(output, "end=8")?;
    }
    output.flush()
}

// The digits of the id, x and y; or the number of the refusal.
fn parse(line: &[u8]) -> Result<(&[u8], u32, u32), u8> {
    if line.len() > 30 {
        return Err(1);
    }
    let (id, rest) = parse_id(line).ok_or(2)?;
    let (x, rest) = parse_pattern(rest, b"x=").ok_or(3)?;
    let (b' ', rest) = rest.split_first().ok_or(3)? else { return Err(3) };
    match parse_pattern(rest, b"y=") {
        Some((y, [])) => Ok((id, x, y)),
        _ => Err(4),
    }
}

// The id's digits, which are written again as they stand, and what follows the space after them.
fn parse_id(line: &[u8]) -> Option<(&[u8], &[u8])> {
    let rest = line.strip_prefix(b"id=")?;
    let space = rest.iter().position(|byte| !byte.is_ascii_digit())?;
    let (id, rest) = rest.split_at(space);
    let fits = match id {
        [] => false,
        [b'0', ..] => id.len() == 1,
        _ => id.len() < 5 || id.len() == 5 && id <= b"65535",
    };
    let rest = rest.strip_prefix(b" ")?;
    fits.then_some((id, rest))
}

// A key and the eight digits of a pattern, and what follows them.
fn parse_pattern<'a>(text: &'a [u8], key: &[u8; 2]) -> Option<(u32, &'a [u8])> {
    let (digits, rest) = text.strip_prefix(key)?.split_first_chunk::<8>()?;
    let mut pattern = 0;
    for &digit in digits {
        let value = VALUES[digit as usize];
        if value == NONE {
            return None;
        }
        pattern = pattern << 4 | value as u32;
    }
    Some((pattern, rest))
}

// The eight digits of a pattern.
fn hex(pattern: u32) -> [u8; 8] {
    std::array::from_fn(|place| DIGITS[(pattern >> (28 - 4 * place) & 15) as usize])
}
