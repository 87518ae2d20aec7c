//! The answer to a call, its line, and the answering of all lines.

use crate::call::{push_hex, Call};
use crate::state::State;
use std::io::{self, BufRead, BufWriter, Write};

pub enum Outcome {
    /// Refused with that number.
    Refused(u32),
    /// A push that took its payload, or a flush that gave a frame.
    Written,
    /// A push that did not take its payload, or a flush that had no frame to give.
    Nothing,
    /// A state that was made, set, reset or unlocked.
    Done,
    /// The line asked for nothing.
    Malformed,
}

/// Length, kind, samples, rate, channels, bit rate or 0, stamp present 0 or 1, stamp or 0.
pub type Row = [i64; 8];

pub struct Answer {
    pub outcome: Outcome,
    pub state: State,
    pub rows: Vec<Row>,
    pub output: Vec<u8>,
    /// The bytes that are pending now; at most as many as the pending buffer has.
    pub pending: Vec<u8>,
}

impl Answer {
    /// The line without its line feed. Its last word says that everything else stayed as it was.
    pub fn text(&self) -> String {
        let outcome = match self.outcome {
            Outcome::Refused(number) => format!("!{number}"),
            Outcome::Written => format!("t,{},{}", self.rows.len(), self.output.len()),
            Outcome::Nothing => "x".into(),
            Outcome::Done => "o".into(),
            Outcome::Malformed => return "?".into(),
        };
        let mut text = format!("{outcome} {} [{}] ", self.state.text('/'), rows_text(&self.rows));
        push_hex_or_dot(&mut text, &self.output);
        text.push(' ');
        push_hex_or_dot(&mut text, &self.pending);
        text.push_str(" =");
        text
    }
}

fn rows_text(rows: &[Row]) -> String {
    let row = |row: &Row| row.map(|number| number.to_string()).join(",");
    rows.iter().map(row).collect::<Vec<_>>().join(";")
}

fn push_hex_or_dot(text: &mut String, bytes: &[u8]) {
    match bytes {
        [] => text.push('.'),
        _ => push_hex(text, bytes),
    }
}

/// Answers each line of the standard input by one line.
pub fn answer_lines(mut answer: impl FnMut(&Call) -> Answer) -> io::Result<()> {
    let mut answers = BufWriter::new(io::stdout().lock());
    for line in io::stdin().lock().split(b'\n') {
        let line = line?;
        let text = std::str::from_utf8(&line).ok();
        let call = text.and_then(Call::parse).unwrap_or(Call::Malformed("", String::new()));
        writeln!(answers, "{}", answer(&call).text())?;
    }
    answers.flush()
}
