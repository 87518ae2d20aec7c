//! The splitter's state as numbers, and its two texts: in a line that sets it, and in an answer.

use std::fmt::Display;
use std::str::FromStr;

/// A state that calls may reach, or any other: the fields hold whatever the port's can hold.
#[derive(Clone)]
pub struct State {
    pub code: u32,
    /// How many bytes are pending.
    pub pending: u64,
    /// The pending stamp.
    pub pts: Option<i64>,
    pub anchor: Option<Anchor>,
    pub discarded: u64,
    pub locked: bool,
}

#[derive(Clone, Copy)]
pub struct Anchor {
    pub pts: i64,
    pub frames: u32,
    pub samples: u32,
    pub rate: u32,
    /// Made by an unread tail, its geometry yet to be learnt. The unchanged module knows no mark.
    pub unread: bool,
}

impl State {
    /// Of a new splitter.
    pub fn new(code: u32) -> Self {
        State { code, pending: 0, pts: None, anchor: None, discarded: 0, locked: false }
    }

    /// The six fields, `separator` between them.
    pub fn text(&self, separator: char) -> String {
        let s = separator;
        let (pts, anchor) = (or_dash(self.pts), or_dash(self.anchor.map(Anchor::text)));
        let lock = u8::from(self.locked);
        format!("{}{s}{}{s}{pts}{s}{anchor}{s}{}{s}{lock}", self.code, self.pending, self.discarded)
    }

    /// The mark of the other's anchor, if both have one. The unchanged module's has none, so that the
    /// mark is left out where answers are compared with it.
    pub fn take_mark(&mut self, other: &State) {
        if let (Some(anchor), Some(other)) = (&mut self.anchor, &other.anchor) {
            anchor.unread = other.unread;
        }
    }

    /// From the words of a line that sets it.
    pub fn parse(words: [&str; 6]) -> Option<State> {
        let [code, pending, pts, anchor, discarded, locked] = words;
        Some(State {
            code: decimal(code)?,
            pending: decimal(pending)?,
            pts: parse_or_dash(pts, decimal)?,
            anchor: parse_or_dash(anchor, Anchor::parse)?,
            discarded: decimal(discarded)?,
            locked: bit(locked)?,
        })
    }
}

impl Anchor {
    fn text(self) -> String {
        let Anchor { pts, frames, samples, rate, unread } = self;
        format!("{pts}:{frames}:{samples}:{rate}:{}", u8::from(unread))
    }

    fn parse(text: &str) -> Option<Anchor> {
        let numbers: Vec<&str> = text.split(':').collect();
        let [pts, frames, samples, rate, unread] = numbers.try_into().ok()?;
        Some(Anchor {
            pts: decimal(pts)?,
            frames: decimal(frames)?,
            samples: decimal(samples)?,
            rate: decimal(rate)?,
            unread: bit(unread)?,
        })
    }
}

/// A thing that may be absent, as text.
pub fn or_dash(thing: Option<impl Display>) -> String {
    thing.map_or("-".into(), |thing| thing.to_string())
}

/// `-` as an absent thing, else what `parse` makes of the text.
pub fn parse_or_dash<T>(text: &str, parse: fn(&str) -> Option<T>) -> Option<Option<T>> {
    match text {
        "-" => Some(None),
        _ => parse(text).map(Some),
    }
}

/// `0` or `1`.
fn bit(text: &str) -> Option<bool> {
    match text {
        "0" => Some(false),
        "1" => Some(true),
        _ => None,
    }
}

/// A number of that type. Rust alone would take a plus sign too.
pub fn decimal<T: FromStr>(text: &str) -> Option<T> {
    match text.starts_with('+') {
        true => None,
        false => text.parse().ok(),
    }
}
