//! A splitter talked to: calls by chance, each with the answers that it must get. The lent lengths
//! depend on what is pending, so that the calls are made beside the models.

use crate::answer::Outcome;
use crate::call::{Call, Lent, MOST_OUTPUT, MOST_PAYLOAD, MOST_PENDING, MOST_ROWS};
use crate::oracles::{Answers, Oracles};
use crate::state::State;
use common::random::Random;

/// A stream is cut into no more payloads than this: the last one has the rest, as far as a line may.
const MOST_CUTS: usize = 24;

/// The farthest timestamps that a push takes, their neighbours, and the ends of the range.
#[rustfmt::skip]
pub const FAR: [i64; 10] = [
    1 << 62, -(1 << 62), (1 << 62) - 1, 1 - (1 << 62), (1 << 62) - 1000,
    (1 << 62) + 1, -(1 << 62) - 1, i64::MAX, i64::MIN, i64::MIN + 1,
];

/// A call, the state before it as requested, and what it must be answered.
pub struct Exchange {
    pub call: Call,
    pub before: State,
    pub answers: Answers,
}

#[derive(Default)]
pub struct Talk {
    oracles: Oracles,
    said: Vec<Exchange>,
}

impl Talk {
    /// All exchanges since they were last taken.
    pub fn take(&mut self) -> Vec<Exchange> {
        std::mem::take(&mut self.said)
    }

    pub fn state(&self) -> State {
        self.oracles.state()
    }

    pub fn ask(&mut self, call: Call) {
        let before = self.oracles.state();
        let answers = self.oracles.answer(&call);
        self.said.push(Exchange { call, before, answers });
    }

    /// A push with buffers that are just long enough.
    pub fn push(&mut self, pts: Option<i64>, payload: &[u8]) {
        let lent = self.enough_to_push(payload.len());
        self.ask(Call::Push(pts, lent, payload.to_vec()));
    }

    /// A flush with buffers that are just long enough.
    pub fn flush(&mut self) {
        self.ask(Call::Flush(self.enough_to_flush()));
    }

    /// Pushes a stream in payloads of some sort of sizes, with some sort of timestamps, and other
    /// calls between them.
    pub fn feed(&mut self, stream: &[u8], random: &mut Random) {
        let (sizes, times) = (random.below(8), random.below(6));
        let mut rest = stream;
        for n in 0..=MOST_CUTS {
            let size = match n {
                // Else the small sizes would hardly ever bring a head, without which none is taken.
                0 if random.below(4) > 0 => size(sizes, random).max(24),
                MOST_CUTS => rest.len().min(MOST_PAYLOAD),
                _ => size(sizes, random),
            };
            let (payload, later) = rest.split_at(size.min(rest.len()));
            self.push_by_chance(time(times, n, random), payload, random);
            if later.is_empty() || self.is_stuck(random) {
                break;
            }
            rest = later;
            self.other_call(random);
        }
    }

    /// A push with lent lengths by chance. Half of the refused ones are made again, with enough lent
    /// and no timestamp.
    fn push_by_chance(&mut self, pts: Option<i64>, payload: &[u8], random: &mut Random) {
        let lent = by_chance(self.enough_to_push(payload.len()), random);
        self.ask(Call::Push(pts, lent, payload.to_vec()));
        if matches!(self.last_outcome(), Some(Outcome::Refused(_))) && random.below(2) == 0 {
            self.push(None, payload);
        }
    }

    /// True where most of a stream's further payloads would be answered like the last one: refused
    /// on the state's own grounds, or, sooner or later, not taken.
    fn is_stuck(&self, random: &mut Random) -> bool {
        match self.last_outcome() {
            Some(Outcome::Refused(7 | 8 | 11)) => true,
            Some(Outcome::Nothing) => random.below(2) == 0,
            _ => false,
        }
    }

    fn last_outcome(&self) -> Option<&Outcome> {
        self.said.last().map(|last| &last.answers.requested.outcome)
    }

    /// Now and then a call that is no push.
    fn other_call(&mut self, random: &mut Random) {
        match random.below(96) {
            0..=7 => self.flush_by_chance(random),
            8 | 9 => self.ask(Call::Reset),
            10 | 11 => self.ask(Call::Unlock),
            12 => self.ask(Call::New(self.state().code)),
            _ => {}
        }
    }

    pub fn flush_by_chance(&mut self, random: &mut Random) {
        let lent = by_chance(self.enough_to_flush(), random);
        self.ask(Call::Flush(lent));
    }

    /// The shortest buffers that a push of so many bytes takes.
    fn enough_to_push(&self, payload_len: usize) -> Lent {
        let joined = self.state().pending.saturating_add(payload_len as u64);
        let joined = joined.min(MOST_OUTPUT as u64) as usize;
        Lent { pending: 8_190, output: joined, rows: MOST_ROWS.min(8 * (joined / 7)) }
    }

    /// The shortest buffers that a flush takes.
    fn enough_to_flush(&self) -> Lent {
        let output = self.state().pending.min(MOST_OUTPUT as u64) as usize;
        Lent { pending: 8_190, output, rows: 8 }
    }
}

/// Mostly those lengths; sometimes one of them too short, or longer ones.
fn by_chance(enough: Lent, random: &mut Random) -> Lent {
    let Lent { mut pending, mut output, mut rows } = enough;
    match random.below(32) {
        0 => pending = random.pick(&[0, 8_188, 8_189]),
        1 => output = random.pick(&[0, output.saturating_sub(1)]),
        2 => rows = random.pick(&[0, rows.saturating_sub(1), rows.saturating_sub(8)]),
        3..=9 => {
            pending += random.below(11) as usize;
            output += random.pick(&[0, 1, 100, MOST_OUTPUT]);
            rows += random.pick(&[0, 1, 100, MOST_ROWS]);
        }
        _ => {}
    }
    Lent {
        pending: pending.min(MOST_PENDING),
        output: output.min(MOST_OUTPUT),
        rows: rows.min(MOST_ROWS),
    }
}

/// A payload's size, of one of eight sorts.
fn size(sort: u64, random: &mut Random) -> usize {
    match sort {
        0 => 1,
        1 => random.below(9) as usize,
        2 => 1 + random.below(40) as usize,
        3 => random.pick(&[0, 1, 6, 7, 8, 24, 100]),
        4 => random.below(300) as usize,
        5 => 184,
        6 => 4_096,
        _ => 65_535,
    }
}

/// The timestamp of a stream's `n`th payload, of one of six sorts.
fn time(sort: u64, n: usize, random: &mut Random) -> Option<i64> {
    let near = 1_000_000 + 3_003 * n as i64 + random.below(1_000) as i64;
    let is_given = match sort {
        0 => false,
        1 => n == 0,
        2 | 3 => random.below(2) == 0,
        _ => true,
    };
    match sort {
        5 => any_time(random),
        _ => is_given.then_some(near),
    }
}

/// Absent, at the bounds, or any number that is not too far.
pub fn any_time(random: &mut Random) -> Option<i64> {
    match random.below(8) {
        0 => None,
        1 => Some(random.pick(&FAR)),
        2 => Some(random.word() as i64 >> 1),
        _ => Some(random.word() as i64 >> (2 + random.below(61))),
    }
}
