//! What the inputs of a run were, and which lines their times found.

use common::counts::{self, group};
use common::feed::Feed;
use cues::cue::{cue, MARK, STAMP, WIDTH};
use cues::first_lines::{self, SPELLINGS};
use cues::found::{Sheet, LINE, MOST_TIMES};
use cues::inputs::{Asks, Input, TIMES};
use sheet::inputs::demo::{self, Demo};
use sheet::inputs::input::STREAMS;
use sheet::inputs::long::SORTS;
use sheet::inputs::{edges, large};
use std::fmt;
use std::ops::Range;

/// What must be seen: groups, and what is told apart in each. A sheet has one timestamp, and since K7 its
/// stamps never fall; `cue` is asked about such lists too.
#[rustfmt::skip]
const GROUPS: [(&str, &[&str]); 9] = [
    ("inputs", &["by hand", "spelled out", edges::ENDS, edges::BEGINNINGS, edges::OUTSIDE, edges::CHANGES, edges::TAILS]),
    ("inputs handed over", &["whole", "in pieces", "slowly", "as a file"]),
    ("first lines, spelled", &SPELLINGS),
    ("first lines, times", &["1", "2 to 31", "32"]),
    ("times", &TIMES),
    ("sheets", &["without frames", "without stamps", "stamps rise"]),
    ("answers", &["a line", "none, though there are stamps", "none, and no stamp", "none, and no frame"]),
    ("lines found", &["the first", "between", "the last", "of an earlier push", "of the last push that has lines"]),
    ("lines found, geometry", &["of the line before", "another than the line before"]),
];

/// The group of stamps that only a large stream has.
const OF_LARGE_STREAMS: &str = "lines found, stamps of large streams";

/// Samples and rate of a row.
const GEOMETRY: Range<usize> = 2..4;

pub struct Counts {
    counts: counts::Counts,
    inputs: u64,
    times: u64,
    lines: u64,
}

impl Counts {
    /// None yet. The streams of demo/ must be seen too, and the large ones where there are any.
    pub fn new(demos: &[Demo], has_large: bool) -> Counts {
        let mut suffixes: Vec<&str> = demos.iter().map(|demo| demo.suffix).collect();
        suffixes.sort();
        suffixes.dedup();
        let mut groups: Vec<_> = GROUPS.map(|(name, names)| group(name, names)).into();
        groups.extend(STREAMS.map(|name| group(name, &SORTS.map(|(sort, _)| sort))));
        if has_large {
            groups.push(group(large::GROUP, &large::names().collect::<Vec<_>>()));
            groups.push(group(OF_LARGE_STREAMS, &["2^32 or more"]));
        }
        groups.extend(demo::GROUPS.map(|name| group(name, &suffixes)));
        groups.push(group(first_lines::GROUP, &first_lines::ways().collect::<Vec<_>>()));
        Counts { counts: counts::Counts::new(groups), inputs: 0, times: 0, lines: 0 }
    }

    /// Counts an input for which the expected lines were printed.
    pub fn count(&mut self, input: &Input, feed: Feed, sheet: Option<&Sheet>) {
        self.inputs += 1;
        self.add(input.sort.0, input.sort.1);
        self.add("inputs handed over", feed.name());
        if let (Some(asks), Some(sheet)) = (&input.asks, sheet) {
            self.asked(asks, sheet);
        }
    }

    fn asked(&mut self, asks: &Asks, sheet: &Sheet) {
        self.add("first lines, spelled", asks.spelling);
        let times = match asks.times.len() {
            1 => "1",
            MOST_TIMES => "32",
            _ => "2 to 31",
        };
        self.add("first lines, times", times);
        let stamps: Vec<i64> =
            sheet.rows.chunks(WIDTH).filter(|row| row[MARK] == 1).map(|row| row[STAMP]).collect();
        let state = match () {
            () if sheet.lines.is_empty() => "without frames",
            () if stamps.is_empty() => "without stamps",
            () if stamps.is_sorted() => "stamps rise",
            () => "stamps fall",
        };
        self.add("sheets", state);
        self.lines += sheet.lines.len() as u64;
        for &(sort, time) in &asks.times {
            self.times += 1;
            self.add("times", sort);
            match cue(&sheet.rows, time).expect("whole rows") {
                None if sheet.lines.is_empty() => self.add("answers", "none, and no frame"),
                None if stamps.is_empty() => self.add("answers", "none, and no stamp"),
                None => self.add("answers", "none, though there are stamps"),
                Some(place) => self.found(place, asks, sheet),
            }
        }
    }

    /// A line, and what a program could take for it.
    fn found(&mut self, place: usize, asks: &Asks, sheet: &Sheet) {
        self.add("answers", "a line");
        let last = sheet.lines.len() - 1;
        let where_it_is = match place {
            _ if place == last => "the last",
            0 => "the first",
            _ => "between",
        };
        self.add("lines found", where_it_is);
        let begins = asks.sheet.ends.iter().rev().nth(1).copied().unwrap_or(0);
        let is_earlier = place * LINE < begins;
        let push =
            if is_earlier { "of an earlier push" } else { "of the last push that has lines" };
        self.add("lines found", push);
        self.stamps(place, sheet);
    }

    /// Whether the tune changes its rate there; and how late it is.
    fn stamps(&mut self, place: usize, sheet: &Sheet) {
        let row = |place: usize| &sheet.rows[place * WIDTH..][..WIDTH];
        if let Some(before) = place.checked_sub(1) {
            let is_same = row(before)[GEOMETRY] == row(place)[GEOMETRY];
            let name = if is_same { "of the line before" } else { "another than the line before" };
            self.add("lines found, geometry", name);
        }
        if row(place)[STAMP] >= 1 << 32 {
            self.add(OF_LARGE_STREAMS, "2^32 or more");
        }
    }

    fn add(&mut self, group: &'static str, name: &str) {
        self.counts.add(group, name, 1);
    }

    /// What had to be seen and never was.
    pub fn unseen(&self) -> Vec<String> {
        self.counts.unseen()
    }
}

impl fmt::Display for Counts {
    /// A line for each group, with what had to be seen; then the sums.
    fn fmt(&self, f: &mut fmt::Formatter) -> fmt::Result {
        let Counts { counts, inputs, times, lines } = self;
        write!(f, "{counts}{inputs} inputs compared, {times} times in {lines} frames' lines")
    }
}
