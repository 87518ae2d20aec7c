//! How many lines of each kind were compared.

use crate::questions::{Asked, Question, OWN_WAYS, SPELLINGS};
use common::counts::{group, Counts};
use cues::cue::{cue, WIDTH};
use cues::line::MOST_NUMBERS;
use cues::malformed;

/// The groups of good lines by their length.
const ROWS: &str = "rows";
const RAGGED: &str = "numbers too many for whole rows";

const MALFORMED: &str = "malformed";

/// No line yet.
pub fn none() -> Counts {
    let ways = OWN_WAYS.into_iter().chain(malformed::WAYS.map(|(name, _)| name));
    let strings = |numbers: std::ops::Range<usize>| numbers.map(|n| n.to_string()).collect();
    Counts::new(vec![
        group("answers", &["place", "none", "refused"]),
        group("spelled", &SPELLINGS),
        (ROWS, strings(0..MOST_NUMBERS / WIDTH + 1)),
        (RAGGED, strings(1..WIDTH)),
        group(MALFORMED, &ways.collect::<Vec<_>>()),
    ])
}

/// Counts a line that got the answer that it had to get.
pub fn count(counts: &mut Counts, question: &Question) {
    let (time, rows) = match &question.asked {
        Asked::Malformed(way) => return counts.add(MALFORMED, *way, 1),
        Asked::Cue(time, rows) => (*time, rows),
    };
    let answer = match cue(rows, time) {
        Ok(Some(_)) => "place",
        Ok(None) => "none",
        Err(_) => "refused",
    };
    counts.add("answers", answer, 1);
    counts.add("spelled", question.spelling, 1);
    match rows.len() % WIDTH {
        0 => counts.add(ROWS, (rows.len() / WIDTH).to_string(), 1),
        more => counts.add(RAGGED, more.to_string(), 1),
    }
}
