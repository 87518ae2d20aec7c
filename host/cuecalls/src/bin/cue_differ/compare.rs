//! One list and time asked of the library and of the second definition.

use crate::seen::Seen;
use cuecalls::{returned, Lender, Touched};
use cues::cue::{cue, Answer};
use cues::line;
use std::fmt;

/// How a run ends: with every answer as it should be, or at the first one that is not, in words.
pub type Outcome = Result<(), String>;

/// Counts of compared calls.
#[derive(Default)]
pub struct Tally {
    lender: Lender,
    lists: u64,
    numbers: u64,
    pub seen: Seen,
}

impl Tally {
    /// Compares a list at that time.
    pub fn list(&mut self, rows: &[i64], time: i64) -> Outcome {
        self.agreed(rows, time).map(|_| ())
    }

    /// Compares a list at that time, and returns the answer that both sides give.
    pub fn agreed(&mut self, rows: &[i64], time: i64) -> Result<Answer, String> {
        let answer = cue(rows, time);
        let library = self.lender.cue(rows, time);
        if library != Ok(returned(answer)) {
            return Err(difference(rows, time, library, answer));
        }
        self.lists += 1;
        self.numbers += rows.len() as u64;
        self.seen.count(rows, time, answer);
        Ok(answer)
    }

    pub fn add(&mut self, other: &Tally) {
        self.lists += other.lists;
        self.numbers += other.numbers;
        self.seen.sum(&other.seen);
    }
}

impl fmt::Display for Tally {
    fn fmt(&self, f: &mut fmt::Formatter) -> fmt::Result {
        write!(f, "{} lists, {} numbers; {}", self.lists, self.numbers, self.seen.answers())
    }
}

fn difference(rows: &[i64], time: i64, library: Result<i64, Touched>, answer: Answer) -> String {
    let library = match library {
        Ok(number) => format!("returns {number}"),
        Err(Touched(place)) => format!("changes number {place}"),
    };
    let (expected, answer) = (returned(answer), line::words(answer));
    // The whole list, in the form in which the program `cue` is asked, unless it is very long.
    let mut text = line::text(time, rows);
    text.truncate(2_000);
    format!(
        "'{text}', {} numbers: the library {library}, expected {expected} ({answer})",
        rows.len()
    )
}
