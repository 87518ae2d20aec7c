//! How many lines of each kind were compared.

use crate::malformed::WAYS;
use common::counts::{group, Counts};
use heads::line::{Line, Reply};
use heads::reference::Side;

/// The kinds of lines but for the malformed ones: groups, and what is told apart in each.
const GROUPS: [(&str, &[&str]); 18] = [
    ("heads read, kind", &["1", "2", "3", "4", "5", "6"]),
    ("heads refused, number", &["1", "2", "3", "4", "5", "6", "7"]),
    ("heads read by the chart, kind", &["3", "4", "5"]),
    ("heads refused by the chart, number", &["1", "2", "3", "4", "5"]),
    ("lengths of ADTS heads, bytes", &["7", "9", "11", "13", "15"]),
    ("lengths of ADTS heads refused, number", &["1", "2", "3", "4", "6"]),
    ("skips to a sync word, code", &["0", "1", "2"]),
    ("skips to the last byte, code", &["0", "1", "2"]),
    ("skips refused, number", &["7"]),
    ("durations", &["at a rate", "at no rate"]),
    ("written, table", &["ac3", "eac3", "mpeg", "adts"]),
    (NOT_WRITTEN[0], &["2", "3", "4", "12", "13"]),
    (NOT_WRITTEN[1], &["2", "3", "4", "12", "13"]),
    (NOT_WRITTEN[2], &["2", "3", "4", "5", "12", "13"]),
    (NOT_WRITTEN[3], &["2", "3", "4", "6", "12", "13"]),
    // Inside the domain the answer is compared with both modules, outside with the one as requested
    // alone. ADTS heads are outside by K3 alone.
    ("heads by the domain", &Side::NAMES),
    ("lengths of ADTS heads by the domain", &[Side::NAMES[0], Side::NAMES[1]]),
    ("heads to be written by the domain", &Side::NAMES),
];

/// Groups of heads that are not written, by table.
const NOT_WRITTEN: [&str; 4] = [
    "ac3 not written, number",
    "eac3 not written, number",
    "mpeg not written, number",
    "adts not written, number",
];

const MALFORMED: &str = "malformed";

/// No line yet.
pub fn none() -> Counts {
    let malformed = group(MALFORMED, &WAYS.map(|(name, _)| name));
    Counts::new(
        GROUPS.map(|(name, names)| group(name, names)).into_iter().chain([malformed]).collect(),
    )
}

/// Counts a line that got the answer that it had to get.
pub fn count(counts: &mut Counts, line: &Line, answer: &Reply) {
    let (group, name) = kind(line, &answer.text);
    counts.add(group, name, 1);
    if let Some(side) = answer.side {
        counts.add(by_domain(line), side.name(), 1);
    }
}

/// The group of a line about a head in which the sides of the domain are told apart.
fn by_domain(line: &Line) -> &'static str {
    match line {
        Line::HeadLength(_) => "lengths of ADTS heads by the domain",
        Line::Write(..) => "heads to be written by the domain",
        _ => "heads by the domain",
    }
}

/// The group of a line, and its name there.
fn kind(line: &Line, answer: &str) -> (&'static str, String) {
    match (line, answer.strip_prefix("refused ")) {
        (Line::Head(..), None) => ("heads read, kind", answer[..1].into()),
        (Line::Head(..), Some(number)) => ("heads refused, number", number.into()),
        (Line::Chart(..), None) => ("heads read by the chart, kind", answer[..1].into()),
        (Line::Chart(..), Some(number)) => ("heads refused by the chart, number", number.into()),
        (Line::HeadLength(_), None) => ("lengths of ADTS heads, bytes", answer.into()),
        (Line::HeadLength(_), Some(number)) => {
            ("lengths of ADTS heads refused, number", number.into())
        }
        (Line::Skip(..), Some(number)) => ("skips refused, number", number.into()),
        (Line::Skip(code, bytes), None) if answer == last_place(bytes) => {
            ("skips to the last byte, code", code.to_string())
        }
        (Line::Skip(code, _), None) => ("skips to a sync word, code", code.to_string()),
        (Line::Duration(_, 0), _) => ("durations", "at no rate".into()),
        (Line::Duration(..), _) => ("durations", "at a rate".into()),
        (Line::Write(table, ..), None) => ("written, table", table.word().into()),
        (Line::Write(table, ..), Some(number)) => (NOT_WRITTEN[*table as usize], number.into()),
        (Line::Malformed(way, _), _) => (MALFORMED, way.to_string()),
    }
}

fn last_place(bytes: &[u8]) -> String {
    bytes.len().saturating_sub(1).to_string()
}
