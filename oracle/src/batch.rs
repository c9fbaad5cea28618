// What a batch line is and how it is answered, as document 01 says, and what fade must print for a
// whole batch. Answers and routes are the Rust's.

use crate::draw::Pair;
use crate::told::{self, Told, WORDS};

// The bytes of the longest line, without its feed.
pub const LONGEST: usize = 30;

// What a line gets: its id with the answer and the route, or the number of its refusal.
pub type Answer = Result<(u16, Told), u32>;

// The answer for a line without its feed.
pub fn answer(line: &[u8]) -> Answer {
    let (id, pair) = read(line)?;
    Ok((id, told::rust(pair)))
}

// The answer line, with its feed.
fn answer_line(answer: &Answer) -> Vec<u8> {
    let text = match answer {
        Ok((id, told)) => format!("id={id} r={:08x} via={}\n", told.r, WORDS[told.via as usize]),
        Err(number) => format!("bad={number}\n"),
    };
    text.into_bytes()
}

// The id and the pair of a line, or the first of the refusals 1 to 4 that fits it.
fn read(line: &[u8]) -> Result<(u16, Pair), u32> {
    if line.len() > LONGEST {
        return Err(1);
    }
    let (id, rest) = field(line, "id=", id).ok_or(2u32)?;
    let (x, rest) = field(rest, "x=", pattern).ok_or(3u32)?;
    let y = rest.strip_prefix(b"y=").and_then(pattern).ok_or(4u32)?;
    Ok((id, [x, y]))
}

// A key, a value and a space: the value, and what follows the space. No value has a space in it.
fn field<'a, V>(
    text: &'a [u8],
    key: &str,
    value: impl Fn(&[u8]) -> Option<V>,
) -> Option<(V, &'a [u8])> {
    let text = text.strip_prefix(key.as_bytes())?;
    let space = text.iter().position(|&byte| byte == b' ')?;
    Some((value(&text[..space])?, &text[space + 1..]))
}

// D: the number 0 to 65535 that is written just so.
fn id(text: &[u8]) -> Option<u16> {
    let number: u16 = std::str::from_utf8(text).ok()?.parse().ok()?;
    (number.to_string().as_bytes() == text).then_some(number)
}

// H: the pattern that is written just so.
fn pattern(text: &[u8]) -> Option<u32> {
    let pattern = u32::from_str_radix(std::str::from_utf8(text).ok()?, 16).ok()?;
    (format!("{pattern:08x}").as_bytes() == text).then_some(pattern)
}

// The complete lines of a batch, without their feeds, and what follows the last feed.
pub fn lines(batch: &[u8]) -> (Vec<&[u8]>, &[u8]) {
    let mut lines: Vec<&[u8]> = batch.split(|&byte| byte == b'\n').collect();
    let tail = lines.pop().unwrap_or_default();
    (lines, tail)
}

// The answer lines of a batch.
pub fn answers(batch: &[u8]) -> Vec<u8> {
    lines(batch).0.into_iter().flat_map(|line| answer_line(&answer(line))).collect()
}

// What fade prints for a batch: the answer lines, the totals, and `end=8` if something follows the
// last feed. No batch here has more lines than a u32 counts, so that none ends with 6.
pub fn printed(batch: &[u8]) -> Vec<u8> {
    let (lines, tail) = lines(batch);
    let answers: Vec<Answer> = lines.into_iter().map(answer).collect();
    let mut out: Vec<u8> = answers.iter().flat_map(answer_line).collect();
    out.extend(totals(&answers).into_bytes());
    out.extend(if tail.is_empty() { "" } else { "end=8\n" }.bytes());
    out
}

// The line of totals: how many lines, of each route, and bad.
fn totals(answers: &[Answer]) -> String {
    let mut text = format!("lines={}", answers.len());
    for (via, word) in WORDS.iter().enumerate() {
        let is_via = |answer: &&Answer| answer.is_ok_and(|(_, told)| told.via == via as u32);
        text += &format!(" {word}={}", answers.iter().filter(is_via).count());
    }
    text + &format!(" bad={}\n", answers.iter().filter(|answer| answer.is_err()).count())
}
