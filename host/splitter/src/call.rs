//! One call of the list that a program is asked: its line as text, and read from text.

use crate::state::{decimal, or_dash, parse_or_dash, State};

/// The most that a line may say: bytes of the pending buffer, of the output, numbers of the rows,
/// bytes of the payload.
pub const MOST_PENDING: usize = 8_200;
pub const MOST_OUTPUT: usize = 73_800;
pub const MOST_ROWS: usize = 84_280;
pub const MOST_PAYLOAD: usize = 65_600;

/// A run of equal bytes is written as one word from this length on.
const LEAST_RUN: usize = 8;

pub enum Call {
    New(u32),
    /// Sets the state, and the front of the pending buffer to the bytes.
    Set(State, Vec<u8>),
    Push(Option<i64>, Lent, Vec<u8>),
    Flush(Lent),
    Reset,
    Unlock,
    /// A line that is none of these: what is wrong with it, and its text.
    Malformed(&'static str, String),
}

/// How much of each buffer is lent: bytes, bytes, numbers.
#[derive(Clone, Copy)]
pub struct Lent {
    pub pending: usize,
    pub output: usize,
    pub rows: usize,
}

impl Call {
    /// The line without its line feed.
    pub fn text(&self) -> String {
        match self {
            Call::New(code) => format!("n {code}"),
            Call::Set(state, bytes) => format!("s {}{}", state.text(' '), words(bytes)),
            Call::Push(pts, lent, payload) => {
                format!("p {} {}{}", or_dash(*pts), lent.text(), words(payload))
            }
            Call::Flush(lent) => format!("f {}", lent.text()),
            Call::Reset => "r".into(),
            Call::Unlock => "u".into(),
            Call::Malformed(_, text) => text.clone(),
        }
    }

    /// The call that a line asks for; `None` where it is malformed.
    pub fn parse(line: &str) -> Option<Call> {
        let words: Vec<&str> = line.split(' ').collect();
        match words.as_slice() {
            ["n", code] => Some(Call::New(decimal(code)?)),
            ["s", code, pending, pts, anchor, discarded, locked, hex @ ..] => {
                let state = State::parse([code, pending, pts, anchor, discarded, locked])?;
                Some(Call::Set(state, bytes(hex, MOST_PENDING)?))
            }
            ["p", pts, pending, output, rows, hex @ ..] => {
                let pts = parse_or_dash(pts, decimal)?;
                let lent = Lent::parse(pending, output, rows)?;
                Some(Call::Push(pts, lent, bytes(hex, MOST_PAYLOAD)?))
            }
            ["f", pending, output, rows] => Some(Call::Flush(Lent::parse(pending, output, rows)?)),
            ["r"] => Some(Call::Reset),
            ["u"] => Some(Call::Unlock),
            _ => None,
        }
    }
}

impl Lent {
    fn text(&self) -> String {
        format!("{} {} {}", self.pending, self.output, self.rows)
    }

    fn parse(pending: &str, output: &str, rows: &str) -> Option<Lent> {
        Some(Lent {
            pending: decimal(pending).filter(|n| *n <= MOST_PENDING)?,
            output: decimal(output).filter(|n| *n <= MOST_OUTPUT)?,
            rows: decimal(rows).filter(|n| *n <= MOST_ROWS)?,
        })
    }
}

/// Bytes in hexadecimal, behind `text`.
pub fn push_hex(text: &mut String, bytes: &[u8]) {
    const DIGITS: &[u8; 16] = b"0123456789ABCDEF";
    for byte in bytes {
        text.push(DIGITS[usize::from(byte >> 4)].into());
        text.push(DIGITS[usize::from(byte & 15)].into());
    }
}

/// Bytes as the words of a line, a space before each word: long runs of one byte as `HEX*N`.
fn words(bytes: &[u8]) -> String {
    let mut text = String::new();
    let mut in_word = false;
    for run in bytes.chunk_by(|a, b| a == b) {
        let is_long = run.len() >= LEAST_RUN;
        if is_long || !in_word {
            text.push(' ');
        }
        if is_long {
            text.push_str(&format!("{:02X}*{}", run[0], run.len()));
        } else {
            push_hex(&mut text, run);
        }
        in_word = !is_long;
    }
    text
}

/// The bytes of all words, at most `most` of them.
fn bytes(words: &[&str], most: usize) -> Option<Vec<u8>> {
    let mut bytes = Vec::new();
    for word in words {
        let (hex, times) = match word.split_once('*') {
            Some((hex, times)) => (hex, decimal(times)?),
            None => (*word, 1),
        };
        let part = from_hex(hex)?;
        if part.len().checked_mul(times)? > most - bytes.len() {
            return None;
        }
        bytes.extend(part.repeat(times));
    }
    Some(bytes)
}

/// The bytes of one word, which must have at least one.
fn from_hex(word: &str) -> Option<Vec<u8>> {
    let digit = |c: u8| char::from(c).to_digit(16);
    let byte = |pair: &[u8]| Some((digit(pair[0])? * 16 + digit(*pair.get(1)?)?) as u8);
    match word {
        "" => None,
        _ => word.as_bytes().chunks(2).map(byte).collect(),
    }
}
