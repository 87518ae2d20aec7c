//! Short streams cut everywhere: every string of two or three words of a small alphabet for each
//! syntax, and document 01's streams at every pair of places with every pattern of timestamps.

use super::talk::Talk;
use crate::call::Call;
use crate::state::{Anchor, State};

/// A stream cut into three payloads, the last of which may be empty.
pub struct Short {
    code: u32,
    bytes: Vec<u8>,
    cuts: [usize; 2],
    /// Which payloads have a timestamp: one bit for each.
    stamped: u32,
}

/// F, then with CRC, then a false head that is longer than F, then other geometry; with CRC and a
/// further block a frame of 11 bytes, and one that says 9, fewer than its head has, by which it is
/// outside the domain of equality; and loose bytes.
const ADTS: [&[u8]; 8] = [
    &[0xFF, 0xF1, 0x50, 0x80, 0x00, 0xE0, 0x00],
    &[0xFF, 0xF0, 0x50, 0x80, 0x01, 0x20, 0x00, 0xFF, 0xF1],
    &[0xFF, 0xF1, 0x50, 0x80, 0x01, 0x40, 0x00, 0xFF, 0xF1, 0x50],
    &[0xFF, 0xF1, 0x4C, 0x80, 0x00, 0xE0, 0x01],
    &[0xFF, 0xF0, 0x50, 0x80, 0x01, 0x60, 0x01, 0x00, 0x00, 0xFF, 0xF1],
    &[0xFF, 0xF0, 0x50, 0x80, 0x01, 0x20, 0x01, 0xFF, 0xF1],
    &[0xFF],
    &[0x00],
];

/// Frames of 8 and 10 bytes that end in a sync word, heads that say 2 and 6 bytes; one of stream type 3
/// that says 8, by which it is outside the domain of equality; and loose bytes.
const EAC3: [&[u8]; 7] = [
    &[0x0B, 0x77, 0x00, 0x03, 0x3F, 0x80, 0x0B, 0x77],
    &[0x0B, 0x77, 0x00, 0x04, 0x4F, 0x80, 0x00, 0x00, 0x0B, 0x77],
    &[0x0B, 0x77, 0x00, 0x00, 0x3F, 0x80],
    &[0x0B, 0x77, 0x00, 0x02, 0x3F, 0x80, 0x00],
    &[0x0B, 0x77, 0xC0, 0x03, 0x3F, 0x80, 0x0B, 0x77],
    &[0x0B],
    &[0x00],
];

/// Frames of 24 and 26 bytes, a bit rate index of 0, and loose bytes.
const MPEG: [&[u8]; 5] = [
    &[0xFF, 0xF3, 0x14, 0x00, 0, 0, 0, 0, 0, 0, 0, 0, 0, 0, 0, 0, 0, 0, 0, 0, 0, 0, 0, 0xFF],
    &[
        0xFF, 0xF3, 0x10, 0x00, 0, 0, 0, 0, 0, 0, 0, 0, 0, 0, 0, 0, 0, 0, 0, 0, 0, 0, 0, 0xFF,
        0xF3, 0x14,
    ],
    &[0xFF, 0xF3, 0x04, 0x00],
    &[0xFF],
    &[0x00],
];

/// The alphabets by their codes.
const WORDS: [(u32, &[&[u8]]); 3] = [(2, &ADTS), (0, &EAC3), (1, &MPEG)];

/// A stream of two words that is longer than this is cut into two payloads only.
const MOST_BYTES_IN_THREE: usize = 20;

/// All of them.
pub fn all() -> Vec<Short> {
    let mut all = Vec::new();
    for (code, bytes) in document_streams() {
        for pattern in 0..8 {
            three_payloads(&mut all, code, &bytes, |_| pattern);
        }
    }
    for (code, words) in WORDS {
        for a in words {
            for b in words {
                two_words(&mut all, code, &[*a, *b].concat());
                for c in words {
                    two_payloads(&mut all, code, &[*a, *b, *c].concat());
                }
            }
        }
    }
    all
}

fn two_words(all: &mut Vec<Short>, code: u32, bytes: &[u8]) {
    match bytes.len() {
        0..=MOST_BYTES_IN_THREE => three_payloads(all, code, bytes, |n| n % 8),
        _ => two_payloads(all, code, bytes),
    }
}

/// F F F; F and six or seven 00; F and six bytes of F; the same with a frame of E-AC-3. Then eight
/// bytes whose head says 2: with all of them there one is lost, and the others' stamp stays.
fn document_streams() -> Vec<(u32, Vec<u8>)> {
    let streams = [(2, ADTS[0], 7), (0, EAC3[0], 8)].map(|(code, frame, need)| {
        let with = |more: &[u8]| (code, [frame, more].concat());
        let zeros = [0; 8];
        [
            with(&frame.repeat(2)),
            with(&zeros[..need - 1]),
            with(&zeros[..need]),
            with(&frame[..need - 1]),
        ]
    });
    let below_need = (0, [EAC3[2], &[0x00, 0x00]].concat());
    streams.into_iter().flatten().chain([below_need]).collect()
}

/// The stream cut at every place, the patterns of timestamps in turn.
fn two_payloads(all: &mut Vec<Short>, code: u32, bytes: &[u8]) {
    for cut in 0..=bytes.len() {
        let (bytes, cuts, stamped) = (bytes.to_vec(), [cut, bytes.len()], (cut % 4) as u32);
        all.push(Short { code, bytes, cuts, stamped });
    }
}

/// The stream cut at every pair of places, `pattern` giving the pattern of each from its number.
fn three_payloads(all: &mut Vec<Short>, code: u32, bytes: &[u8], pattern: impl Fn(u32) -> u32) {
    for first in 0..=bytes.len() {
        for second in first..=bytes.len() {
            let stamped = pattern((first * 5 + second) as u32);
            all.push(Short { code, bytes: bytes.to_vec(), cuts: [first, second], stamped });
        }
    }
}

impl Short {
    /// Pushes its payloads to a new splitter, or to one that is locked and has an anchor: by the number
    /// of the stream, which also says whether another call stands between two payloads. Flushes.
    pub fn tell(&self, number: u64, talk: &mut Talk) {
        talk.ask(match number % 8 {
            0 => Call::Set(locked_state(self.code, false), Vec::new()),
            4 => Call::Set(locked_state(self.code, true), Vec::new()),
            _ => Call::New(self.code),
        });
        let [first, second] = self.cuts;
        let payloads = [&self.bytes[..first], &self.bytes[first..second], &self.bytes[second..]];
        for (n, payload) in payloads.into_iter().enumerate() {
            let is_stamped = self.stamped >> n & 1 == 1;
            // Without a timestamp an empty payload at the end would bring nothing new.
            if !payload.is_empty() || is_stamped || n < 2 {
                talk.push(is_stamped.then_some(1_000 + 8_000 * n as i64), payload);
            }
            match (n, number % 29) {
                (0, 3) | (1, 9) => talk.flush(),
                (0, 13) => talk.ask(Call::Reset),
                (0, 23) => talk.ask(Call::Unlock),
                _ => {}
            }
        }
        talk.flush();
    }
}

/// Each word cut everywhere: its first part is pending in a state that is set, and flushed; then
/// its second part is pushed. Some of what is pending here no call leaves behind: whole frames, and
/// heads that do not read.
pub fn pending_words(talk: &mut Talk) {
    let words = WORDS.into_iter().flat_map(|(code, words)| words.iter().map(move |w| (code, *w)));
    for (code, word) in words {
        for cut in 0..=word.len() {
            let (first, second) = word.split_at(cut);
            let states = [State::new(code), locked_state(code, false), locked_state(code, true)];
            for state in states {
                let state = State { pending: cut as u64, pts: Some(77), ..state };
                talk.ask(Call::Set(state, first.to_vec()));
                talk.flush();
                talk.push(None, second);
            }
        }
    }
}

/// Locked, and with an anchor: of the geometry of the code's first word, or marked and of another.
fn locked_state(code: u32, unread: bool) -> State {
    let (samples, rate) = match code {
        _ if unread => (1_152, 44_100),
        0 => (1_536, 48_000),
        1 => (576, 24_000),
        _ => (1_024, 44_100),
    };
    let anchor = Anchor { pts: 500, frames: 3, samples, rate, unread };
    State { anchor: Some(anchor), locked: true, ..State::new(code) }
}
