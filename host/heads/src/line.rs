//! The lines that the program `head` is asked, and the answers that it must give.

use crate::reference::{self, Expected, Side};
use crate::writes::{Fields, Table};

/// The most bytes that a line may give, and the longest tape that it may ask for.
pub const MOST_BYTES: usize = 128;

/// Each byte of a tape before a head is written there.
const BLANK: u8 = 0xA5;

pub enum Line {
    /// What the head says: a syntax code and the head's bytes.
    Head(u32, Vec<u8>),
    /// What an MPEG audio head says by the chart: the head's bytes.
    Chart(Vec<u8>),
    /// How many bytes an ADTS head has: the head's bytes.
    HeadLength(Vec<u8>),
    /// Where a head can begin: a syntax code and the bytes to search.
    Skip(u32, Vec<u8>),
    /// The ticks of so many samples at that rate.
    Duration(u32, u32),
    /// A head written on a tape: its table and fields, the place, and the tape's length.
    Write(Table, Fields, u64, usize),
    /// A line that is none of these: what is wrong with it, and its text.
    Malformed(&'static str, Vec<u8>),
}

impl Line {
    /// The line as it is asked, without its line feed.
    pub fn text(&self) -> Vec<u8> {
        match self {
            Line::Head(code, bytes) => with_bytes(code.to_string(), bytes),
            Line::Chart(bytes) => with_bytes("m".into(), bytes),
            Line::HeadLength(bytes) => with_bytes("h".into(), bytes),
            Line::Skip(code, bytes) => with_bytes(format!("s {code}"), bytes),
            Line::Duration(samples, rate) => format!("d {samples} {rate}").into(),
            Line::Write(table, fields, at, room) => {
                let numbers = fields[..table.fields()].iter().map(|field| format!(" {field}"));
                format!("w {} {at} {room}{}", table.word(), numbers.collect::<String>()).into()
            }
            Line::Malformed(_, text) => text.clone(),
        }
    }

    /// The answer that it must get. An error says that the references contradict each other.
    pub fn answer(&self) -> Result<Reply, String> {
        Ok(match self {
            Line::Head(code, head) => said(reference::head(*code, head)?, spaced),
            Line::Chart(head) => said(reference::head(1, head)?, spaced),
            Line::HeadLength(head) => said(reference::head_length(head)?, |n| n.to_string()),
            Line::Skip(code, bytes) => {
                let place = reference::place(*code, bytes)?;
                Reply::plain(place.map_or_else(refused, |place| place.to_string()))
            }
            Line::Duration(samples, rate) => {
                Reply::plain(reference::duration(*samples, *rate)?.to_string())
            }
            Line::Write(table, fields, at, room) => {
                let mut tape = [BLANK; MOST_BYTES];
                let tape = &mut tape[..*room];
                said(table.write(fields, tape, *at)?, |()| octets(tape))
            }
            Line::Malformed(..) => Reply::plain("?".into()),
        })
    }
}

/// The answer to a line.
pub struct Reply {
    /// Without its line feed.
    pub text: String,
    /// Which modules gave it, where it is about a head that they were asked to read.
    pub side: Option<Side>,
}

impl Reply {
    fn plain(text: String) -> Reply {
        Reply { text, side: None }
    }
}

/// What is expected, in words, or that it is refused.
fn said<T>(expected: Expected<T>, words: impl FnOnce(T) -> String) -> Reply {
    Reply { text: expected.answer.map_or_else(refused, words), side: expected.side }
}

/// The six numbers of a head.
fn spaced(six: [u32; 6]) -> String {
    six.map(|number| number.to_string()).join(" ")
}

fn refused(number: u32) -> String {
    format!("refused {number}")
}

/// The start of a line and bytes, a space before each.
fn with_bytes(start: String, bytes: &[u8]) -> Vec<u8> {
    let mut text = start.into_bytes();
    for &byte in bytes {
        text.push(b' ');
        text.extend(digits(byte));
    }
    text
}

/// Bytes in hexadecimal, a space between them.
fn octets(bytes: &[u8]) -> String {
    let text: Vec<u8> = bytes.iter().flat_map(|&byte| [&digits(byte)[..], b" "].concat()).collect();
    String::from_utf8_lossy(&text).trim_end().into()
}

fn digits(byte: u8) -> [u8; 2] {
    const DIGITS: &[u8; 16] = b"0123456789ABCDEF";
    [DIGITS[usize::from(byte >> 4)], DIGITS[usize::from(byte & 15)]]
}
