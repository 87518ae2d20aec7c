//! The answers to expect. Of a head: what it says, from the Rust as requested; why it is refused, from
//! the number table; and inside the domain of equality the unchanged Rust must say the same. Of an ADTS
//! head's length: the number table's, which the Rust as requested must not contradict. Of a skip: the
//! second definition's place, which neither of the two may contradict.

use crate::{cases, numbers, skip};
use common::samples;
use oracle::domain::{self, Request};
use oracle::{answers, requested};

/// Which modules gave an answer.
#[derive(Clone, Copy, Debug, PartialEq)]
pub enum Side {
    /// Inside the domain of equality: both.
    Inside,
    /// Outside it, by that request: the module as requested alone.
    Outside(Request),
}

impl Side {
    pub const NAMES: [&'static str; 3] = ["inside", "outside by K3", "outside by K6"];

    pub fn name(self) -> &'static str {
        let place = match self {
            Side::Inside => 0,
            Side::Outside(request) => 1 + request as usize,
        };
        Side::NAMES[place]
    }
}

/// The answer to expect, or the number of the refusal, and which modules gave it. None did where a call
/// is refused whatever its head is.
#[derive(Clone, Copy)]
pub struct Expected<T> {
    pub answer: Result<T, u32>,
    pub side: Option<Side>,
}

impl<T> Expected<T> {
    /// The refusal of a call, which no module was asked about.
    pub fn refused(number: u32) -> Self {
        Expected { answer: Err(number), side: None }
    }

    /// The same with another answer in the place of what was read.
    pub fn map<U>(self, other: impl FnOnce(T) -> U) -> Expected<U> {
        Expected { answer: self.answer.map(other), side: self.side }
    }
}

/// What to expect of a head. An error says which references contradict each other.
pub fn head(code: u32, head: &[u8]) -> Result<Expected<[u32; 6]>, String> {
    let read = requested::answers::read(code, head);
    let side = side(code, head);
    if side == Some(Side::Inside) {
        equal(answers::read(code, head), read)?;
    }
    let answer = match (read, numbers::of_head(code, head)) {
        (Some(six), None) => Ok(six),
        (None, Some(number)) => Err(number),
        (read, number) => {
            let table = number.map_or("does not refuse it".into(), |n| format!("refuses with {n}"));
            return Err(format!("the Rust as requested {}, the number table {table}", reads(read)));
        }
    };
    Ok(Expected { answer, side })
}

/// The side of a head, by the domain's own definition; none where no module has a reader for the code.
fn side(code: u32, head: &[u8]) -> Option<Side> {
    answers::syntax(code)?;
    Some(domain::taken_out(code, head).map_or(Side::Inside, Side::Outside))
}

/// Inside the domain both modules must say the same.
fn equal(unchanged: Option<[u32; 6]>, requested: Option<[u32; 6]>) -> Result<(), String> {
    if unchanged == requested {
        return Ok(());
    }
    let [unchanged, requested] = [unchanged, requested].map(reads);
    Err(format!(
        "inside the domain the unchanged Rust {unchanged}, the Rust as requested {requested}"
    ))
}

/// What a module does, in words.
fn reads(read: Option<[u32; 6]>) -> String {
    read.map_or("does not read it".into(), |six| format!("reads {six:?}"))
}

/// The bytes to expect of an ADTS head. An error says which references contradict each other: it must
/// be the least frame_length with which the Rust as requested reads the head.
pub fn head_length(bytes: &[u8]) -> Result<Expected<u64>, String> {
    let expected = head(2, bytes)?.map(|_| numbers::adts_header_len(bytes));
    if let Ok(length) = expected.answer {
        for (frame_length, reads) in [(length, true), (length - 1, false)] {
            if reads_with(bytes, frame_length) != reads {
                let what = if reads { "does not read it" } else { "reads it" };
                return Err(format!(
                    "the number table says {length}, the Rust as requested {what} with a \
                     frame_length of {frame_length}"
                ));
            }
        }
    }
    Ok(expected)
}

/// True where the Rust as requested reads the ADTS head with that frame_length in it.
fn reads_with(head: &[u8], frame_length: u64) -> bool {
    let mut bytes = [0; 16];
    bytes[..7].copy_from_slice(&head[..7]);
    let other = samples::with_fields(bytes, &[(30, 13, frame_length)]);
    requested::answers::read(2, &other[..7]).is_some()
}

/// The duration to expect, which is no matter of heads: both modules must say the same.
pub fn duration(samples: u32, rate: u32) -> Result<u32, String> {
    let unchanged = answers::duration_90k(samples, rate);
    match requested::answers::duration_90k(samples, rate) {
        requested if requested == unchanged => Ok(unchanged),
        requested => {
            Err(format!("the unchanged Rust {unchanged}, the Rust as requested {requested}"))
        }
    }
}

/// The place to expect of a skip, or the number that refuses it. An error says that one of the modules
/// reads a head at a place that the skip passes.
pub fn place(code: u32, bytes: &[u8]) -> Result<Result<usize, u32>, String> {
    let answer = skip::place(code, bytes);
    let passed = 0..answer.unwrap_or(0);
    match passed.into_iter().find(|&place| may_read(code, &bytes[place..])) {
        None => Ok(answer),
        Some(place) => Err(format!("the skip is {answer:?}, but the Rust reads a head at {place}")),
    }
}

/// True where a module reads a head at the front of `bytes`, as they are, or with the rest of one of
/// document 01's heads behind them.
fn may_read(code: u32, bytes: &[u8]) -> bool {
    let corners = cases::CORNERS.iter().filter(|case| case.code == code);
    let mut rests = corners.filter_map(|case| case.head.get(bytes.len()..));
    either_reads(code, bytes) || rests.any(|rest| either_reads(code, &[bytes, rest].concat()))
}

fn either_reads(code: u32, head: &[u8]) -> bool {
    answers::read(code, head).is_some() || requested::answers::read(code, head).is_some()
}
