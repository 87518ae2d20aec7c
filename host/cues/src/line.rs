//! The lines that the program `cue` is asked, and the answers that it must give.

// By `super`: it is compiled over wrong texts too, in host/selftests/cues.
use super::cue::{cue, Answer};
use std::io::{self, BufRead, Write};

/// The most numbers that may stand behind the time.
pub const MOST_NUMBERS: usize = 128;

/// The most bytes of a line, its line feed not counted.
pub const LONGEST: usize = 4_096;

/// A time and rows as they are asked, without a line feed.
pub fn text(time: i64, rows: &[i64]) -> String {
    [time].iter().chain(rows).map(i64::to_string).collect::<Vec<_>>().join(" ")
}

/// An answer in words.
pub fn words(answer: Answer) -> String {
    match answer {
        Ok(Some(place)) => format!("place {place}"),
        Ok(None) => "none".into(),
        Err(number) => format!("refused {number}"),
    }
}

/// Answers each line of an input by one line, as the program does.
pub fn print(input: impl BufRead, answers: &mut impl Write) -> io::Result<()> {
    // A last line that no line feed closes is one too, unless it is empty.
    for line in input.split(b'\n') {
        let answer = asked(&line?).map_or("?".into(), |(time, rows)| words(cue(&rows, time)));
        writeln!(answers, "{answer}")?;
    }
    Ok(())
}

/// The time and the rows that a line asks for; `None` where it is malformed.
fn asked(line: &[u8]) -> Option<(i64, Vec<i64>)> {
    let (time, rows) = numbers(line)?.split_first().map(|(time, rows)| (*time, rows.to_vec()))?;
    (line.len() <= LONGEST && rows.len() <= MOST_NUMBERS).then_some((time, rows))
}

/// Numbers with one space between them, and nothing else.
pub fn numbers(text: &[u8]) -> Option<Vec<i64>> {
    text.split(|byte| *byte == b' ').map(number).collect()
}

/// A number of 64 bits: digits, perhaps behind a minus sign.
fn number(word: &[u8]) -> Option<i64> {
    let digits = word.strip_prefix(b"-").unwrap_or(word);
    // `parse` would take a plus sign. Without digits it takes nothing.
    if !digits.iter().all(u8::is_ascii_digit) {
        return None;
    }
    std::str::from_utf8(word).ok()?.parse().ok()
}
