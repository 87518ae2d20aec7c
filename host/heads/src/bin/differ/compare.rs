//! One head or duration asked of the libraries, the oracles and the second definition of the numbers.

use crate::reads::{write_counts, Reads};
use crate::sides::Sides;
use crate::tapes::Writes;
use heads::library::{self, Answer, Touched};
use heads::numbers;
use heads::reference::{self, Expected};
use heads::writes::TABLES;
use std::fmt;

/// Lent lengths that are long enough, taken in turn. Five of them, so that the turn does not keep
/// step with a run that counts through bits.
const OUT_LENGTHS: [usize; 5] = [24, 25, 28, 31, 40];

/// How a run ends: with every answer as it should be, or at the first one that is not.
pub type Outcome = Result<(), Difference>;

/// The first call whose answer is not the expected one, in words.
pub struct Difference(pub String);

/// Counts of compared calls.
#[derive(Default)]
pub struct Tally {
    reads: Reads,
    /// Of the heads that were read.
    pub sides: Sides,
    /// Of the chart reader, which every MPEG audio head is asked of, and every one that was written.
    pub by_chart: Reads,
    durations: u64,
    pub writes: Writes,
}

impl Tally {
    /// Compares a head at the next lent length.
    pub fn head(&mut self, code: u32, head: &[u8]) -> Outcome {
        let turn = self.reads.heads % OUT_LENGTHS.len() as u64;
        self.head_into(code, head, OUT_LENGTHS[turn as usize])
    }

    /// Compares a head at that lent length.
    pub fn head_into(&mut self, code: u32, head: &[u8], out_len: usize) -> Outcome {
        self.agreed(code, head, out_len).map(|_| ())
    }

    /// Compares a head at that lent length and returns the answer that all sides give. An MPEG audio head
    /// is read by the chart too, and the fields of one that reads are written again.
    pub fn agreed(&mut self, code: u32, head: &[u8], out_len: usize) -> Result<Answer, Difference> {
        let library = library::read_guarded(code, head, out_len);
        match expected(code, head, out_len) {
            Ok(Expected { answer, side }) if library == Ok(answer) => {
                self.reads.count(answer);
                self.sides.count(side);
                if code == 1 {
                    self.chart(head, out_len, answer)?;
                }
                if let Ok(six) = answer {
                    self.rewrite(head, six[0])?;
                }
                Ok(answer)
            }
            expected => {
                let expected = expected.map(|expected| expected.answer);
                Err(wrong_answer("the library", code, head, out_len, library, expected))
            }
        }
    }

    /// Compares the chart reader at that lent length with the answer that all other sides give.
    pub fn chart(&mut self, head: &[u8], out_len: usize, answer: Answer) -> Outcome {
        let chart = library::read_by_chart_guarded(head, out_len);
        if chart != Ok(answer) {
            return Err(wrong_answer("the chart reader", 1, head, out_len, chart, Ok(answer)));
        }
        self.by_chart.count(answer);
        Ok(())
    }

    /// Compares a duration.
    pub fn duration(&mut self, samples: u32, rate: u32) -> Outcome {
        let at = |what| Difference(format!("{samples} samples at {rate} Hz: {what}"));
        let library = library::duration_90k(samples, rate);
        let rust = reference::duration(samples, rate).map_err(at)?;
        if library != rust {
            return Err(at(format!("the library says {library}, the Rust {rust}")));
        }
        self.durations += 1;
        Ok(())
    }

    pub fn add(&mut self, other: &Tally) {
        self.reads.add(&other.reads);
        self.sides.add(&other.sides);
        self.by_chart.add(&other.by_chart);
        self.durations += other.durations;
        self.writes.add(&other.writes);
    }

    /// The kinds 1 to 6 and the numbers 1 to 7 and 12 that no head has shown; of the chart reader those
    /// that MPEG audio has; and the sides of the domain on which no head was, read or to be written.
    pub fn unseen(&self) -> Vec<String> {
        let unseen = self.reads.unseen(&[1, 2, 3, 4, 5, 6], &[1, 2, 3, 4, 5, 6, 7, 12]);
        let by_chart = self.by_chart.unseen(&[3, 4, 5], &[1, 2, 3, 4, 5, 12]);
        unseen
            .into_iter()
            .chain(by_chart.iter().map(|what| format!("{what} by the chart")))
            .chain(self.sides.unseen("a head"))
            .chain(self.writes.sides.unseen("a head to be written"))
            .collect()
    }
}

impl fmt::Display for Tally {
    fn fmt(&self, f: &mut fmt::Formatter) -> fmt::Result {
        write!(f, "{}", self.reads)?;
        let more = [
            (self.by_chart.heads, "by the chart"),
            (self.durations, "durations"),
            (self.writes.rewritten, "rewritten"),
            (self.writes.total(), "writes"),
            (self.sides.outside(), "outside the domain"),
            (self.writes.sides.outside(), "writes outside the domain"),
        ];
        for (count, name) in more.into_iter().filter(|(count, _)| *count > 0) {
            write!(f, "; {count} {name}")?;
        }
        for (table, answers) in TABLES.into_iter().zip(&self.writes.answers) {
            write_counts(f, &format!("; {} by number", table.word()), answers)?;
        }
        Ok(())
    }
}

/// What the call must answer. An error says that the references contradict each other.
fn expected(code: u32, head: &[u8], out_len: usize) -> Result<Expected<[u32; 6]>, String> {
    match numbers::of_call(code, out_len) {
        Some(number) => Ok(Expected::refused(number)),
        None => reference::head(code, head),
    }
}

fn wrong_answer(
    reader: &str,
    code: u32,
    head: &[u8],
    out_len: usize,
    found: Result<Answer, Touched>,
    expected: Result<Answer, String>,
) -> Difference {
    let found = match found {
        Ok(answer) => words(answer),
        Err(Touched(place)) => format!("changes byte {place} of out"),
    };
    let expected = match expected {
        Ok(answer) => format!("expected that it {}", words(answer)),
        Err(contradiction) => contradiction,
    };
    difference(code, head, &format!("{out_len} bytes lent: {reader} {found}; {expected}"))
}

/// A difference at that head.
pub fn difference(code: u32, head: &[u8], answers: &str) -> Difference {
    let shown = head.iter().take(16).map(|byte| format!("{byte:02X}"));
    let hex = shown.collect::<Vec<_>>().join(" ");
    Difference(format!("code {code}, {} bytes [{hex}], {answers}", head.len()))
}

/// What an answer does, in words.
pub fn words(answer: Answer) -> String {
    match answer {
        Ok(six) => format!("reads {six:?}"),
        Err(number) => format!("refuses with {number}"),
    }
}
