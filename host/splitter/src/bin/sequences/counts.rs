//! How many calls of each kind were compared, and what they did.

use crate::stamps;
use common::counts::{self, group};
use oracle::domain::{Asked, Left, Stamped};
use splitter::answer::{Answer, Outcome};
use splitter::call::{Call, Lent};
use splitter::calls::malformed::WAYS;
use splitter::calls::talk::Exchange;
use splitter::oracles::Answers;
use splitter::state::State;
use std::fmt;

/// What must be seen: groups, and what is told apart in each. Calls outside the domain of equality
/// are compared with the module as requested alone.
const GROUPS: [(&str, &[&str]); 29] = [
    ("calls", &["new", "set", "push", "flush", "reset", "unlock", "malformed"]),
    ("new splitters", &["made", "refused 7"]),
    ("pushes", &["taken", "not taken"]),
    ("pushes refused", &["7", "8", "9", "10", "11", "12"]),
    ("pushes with too little lent of", &["pending", "output", "rows"]),
    ("pushes taken with timestamp", &["absent", "present", "2^62", "-2^62"]),
    ("payloads taken, bytes", &["0", "1", "184", "4096", "65535"]),
    ("payloads refused, bytes", &["65536"]),
    ("taken, bytes pending before", &["0", "8190"]),
    ("frames pushed out, kind", &["1", "2", "3", "4", "5", "6"]),
    ("frames pushed out, bytes", &["7", "8", "9", "8191"]),
    ("stamps", &["absent", "present"]),
    ("bytes lost, code", &["0", "1", "2"]),
    ("tails of code 0", TAILS),
    ("tails of code 1", TAILS),
    ("tails of code 2", TAILS),
    ("short tails of code 0, bytes", &["1", "2", "3", "4", "5", "6", "7"]),
    ("flushes", &["frame", "no frame", "refused 7", "refused 8", "refused 12"]),
    ("flushed, bytes", &["6", "7", "8190"]),
    ("calls, domain", SIDES),
    ("pushes made, domain", SIDES),
    ("frames, domain", SIDES),
    ("calls that leave a marked anchor, domain", SIDES),
    (Left::GROUPS[0], &Asked::NAMES),
    (Left::GROUPS[1], &Asked::NAMES),
    (Left::GROUPS[2], &Stamped::NAMES),
    // Then the calls are compared with both modules once more.
    ("runs brought back by", &["reset", "unlock"]),
    ("calls inside again", &["push", "flush", "reset", "unlock"]),
    ("frames inside again", &["with a stamp", "without"]),
];

/// Of the domain.
const SIDES: &[&str] = &["inside", "outside"];

/// What a push leaves pending, by where it begins.
const TAILS: &[&str] =
    &["none", "part of a frame", "part of an older frame", "short", "short and older"];

const MALFORMED: &str = "malformed";

pub struct Counts {
    counts: counts::Counts,
}

impl Counts {
    /// No call yet.
    pub fn new() -> Counts {
        let malformed = group(MALFORMED, &WAYS.map(|(name, _)| name));
        let groups = GROUPS.into_iter().chain(stamps::GROUPS);
        let groups = groups.map(|(name, names)| group(name, names)).chain([malformed]);
        Counts { counts: counts::Counts::new(groups.collect()) }
    }

    /// Counts an exchange whose answer was the expected one.
    pub fn count(&mut self, exchange: &Exchange) {
        let Exchange { call, before, answers } = exchange;
        let answer = &answers.requested;
        self.add("calls", call_name(call));
        self.domain(call, answers);
        for (group, name) in stamps::seen(call, before, answer) {
            self.add(group, name);
        }
        match call {
            Call::New(_) => self.add("new splitters", outcome_name(answer, ["made", ""])),
            Call::Push(pts, lent, payload) => self.push(*pts, lent, payload.len(), before, answer),
            Call::Flush(_) => self.flush(answer),
            Call::Malformed(way, _) => self.add(MALFORMED, *way),
            Call::Set(..) | Call::Reset | Call::Unlock => {}
        }
    }

    fn domain(&mut self, call: &Call, answers: &Answers) {
        let Answers { requested: answer, left, .. } = answers;
        let side = if answers.is_inside() { "inside" } else { "outside" };
        self.add("calls, domain", side);
        if let (Call::Push(..), Outcome::Written | Outcome::Nothing) = (call, &answer.outcome) {
            self.add("pushes made, domain", side);
        }
        self.counts.add("frames, domain", side, answer.rows.len() as u64);
        if answer.state.anchor.is_some_and(|anchor| anchor.unread) {
            self.add("calls that leave a marked anchor, domain", side);
        }
        left.iter().for_each(|left| self.add(left.group(), left.name()));
        if answers.is_back {
            self.add("runs brought back by", call_name(call));
        }
        if answers.is_inside_again {
            self.add("calls inside again", call_name(call));
            for [.., present, _] in &answer.rows {
                let name = if *present == 1 { "with a stamp" } else { "without" };
                self.add("frames inside again", name);
            }
        }
    }

    fn push(&mut self, pts: Option<i64>, lent: &Lent, len: usize, before: &State, answer: &Answer) {
        match answer.outcome {
            Outcome::Refused(number) => {
                self.add("pushes refused", number.to_string());
                self.add("payloads refused, bytes", len.to_string());
                if number == 12 {
                    self.add("pushes with too little lent of", too_short(lent, len, before));
                }
            }
            Outcome::Written => {
                self.add("pushes", "taken");
                self.add("pushes taken with timestamp", time_name(pts));
                self.add("payloads taken, bytes", len.to_string());
                self.add("taken, bytes pending before", before.pending.to_string());
                self.done(len, before, answer);
            }
            _ => self.add("pushes", "not taken"),
        }
    }

    /// What a push that took its payload did.
    fn done(&mut self, payload_len: usize, before: &State, answer: &Answer) {
        for [length, kind, .., present, _] in &answer.rows {
            self.add("frames pushed out, kind", kind.to_string());
            self.add("frames pushed out, bytes", length.to_string());
            self.add("stamps", if *present == 1 { "present" } else { "absent" });
        }
        let lost = answer.state.discarded - before.discarded;
        self.counts.add("bytes lost, code", answer.state.code.to_string(), lost);
        let tail = answer.pending.len();
        let (group, need) = match answer.state.code {
            0 => ("tails of code 0", 8),
            1 => ("tails of code 1", 4),
            _ => ("tails of code 2", 7),
        };
        if need == 8 && tail < need {
            self.add("short tails of code 0, bytes", tail.to_string());
        }
        let name = match (tail, tail < need, tail <= payload_len) {
            (0, ..) => "none",
            (_, false, true) => "part of a frame",
            (_, false, false) => "part of an older frame",
            (_, true, true) => "short",
            (_, true, false) => "short and older",
        };
        self.add(group, name);
    }

    fn flush(&mut self, answer: &Answer) {
        self.add("flushes", outcome_name(answer, ["frame", "no frame"]));
        if let Outcome::Written = answer.outcome {
            self.add("flushed, bytes", answer.output.len().to_string());
        }
    }

    fn add(&mut self, group: &'static str, name: impl Into<String>) {
        self.counts.add(group, name, 1);
    }

    /// All calls.
    pub fn calls(&self) -> u64 {
        GROUPS[0].1.iter().map(|name| self.counts.seen("calls", name)).sum()
    }

    /// What had to be seen and never was.
    pub fn unseen(&self) -> Vec<String> {
        self.counts.unseen()
    }
}

impl fmt::Display for Counts {
    fn fmt(&self, f: &mut fmt::Formatter) -> fmt::Result {
        self.counts.fmt(f)
    }
}

fn call_name(call: &Call) -> &'static str {
    match call {
        Call::New(_) => "new",
        Call::Set(..) => "set",
        Call::Push(..) => "push",
        Call::Flush(_) => "flush",
        Call::Reset => "reset",
        Call::Unlock => "unlock",
        Call::Malformed(..) => "malformed",
    }
}

/// A refusal by its number; else the first name where something was done, the second where not.
fn outcome_name(answer: &Answer, [done, not_done]: [&str; 2]) -> String {
    match answer.outcome {
        Outcome::Refused(number) => format!("refused {number}"),
        Outcome::Nothing => not_done.into(),
        _ => done.into(),
    }
}

fn time_name(pts: Option<i64>) -> &'static str {
    const FAR: i64 = 1 << 62;
    match pts {
        None => "absent",
        Some(FAR) => "2^62",
        Some(pts) if pts == -FAR => "-2^62",
        Some(_) => "present",
    }
}

/// The first of the lent buffers that is too short for a push.
fn too_short(lent: &Lent, payload_len: usize, before: &State) -> &'static str {
    let joined = before.pending as usize + payload_len;
    match (lent.pending < 8_190, lent.output < joined) {
        (true, _) => "pending",
        (false, true) => "output",
        _ => "rows",
    }
}
