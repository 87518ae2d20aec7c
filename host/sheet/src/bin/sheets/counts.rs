//! What the inputs of a run were, and what their sheets had.

use common::counts::{self, group};
use common::feed::Feed;
use oracle::domain::{Asked, Left, Stamped};
use sheet::inputs::demo::{self, Demo};
use sheet::inputs::input::{Input, STREAMS};
use sheet::inputs::long::SORTS;
use sheet::inputs::{edges, first_lines, large};
use sheet::inside::Inside;
use sheet::requested::answers;
use std::collections::BTreeMap;
use std::fmt;
use std::ops::Range;

/// What must be seen: groups, and what is told apart in each. No sheet flushes, so that none leaves
/// the domain there.
#[rustfmt::skip]
const GROUPS: [(&str, &[&str]); 17] = [
    ("inputs", &["spelled out", "every first byte, every second byte", edges::ENDS, edges::BEGINNINGS, edges::OUTSIDE, edges::CHANGES, edges::TAILS]),
    ("inputs handed over", &["whole", "in pieces", "slowly", "as a file"]),
    ("first payloads", &["none", "taken", "not taken", "not taken, but a later one"]),
    ("sheets", &["question mark", "with frames", "without frames", "bytes discarded", "none discarded", "bytes pending", "none pending"]),
    ("frames, kind", &["1", "2", "3", "4", "5", "6"]),
    ("frames, bytes", &["7", "8", "9", "24", "4096", "8191"]),
    ("frames, samples", &["256", "384", "512", "576", "768", "1024", "1152", "1536", "2048", "3072", "4096"]),
    ("frames, rate", &["8000", "11025", "12000", "16000", "22050", "24000", "32000", "44100", "48000", "64000", "88200", "96000"]),
    ("frames, channels", &["0", "1", "2", "3", "4", "5", "6", "8"]),
    ("frames, bit rate", &["absent", "present"]),
    ("frames, stamp", &["absent", "0", "below 2^32", "2^32 or more"]),
    ("sheets, domain", &["inside", "outside from the first payload on", "outside from a later one on"]),
    ("frames, domain", &["inside", "outside"]),
    (Left::GROUPS[0], &[Asked::NAMES[0], Asked::NAMES[1], Asked::NAMES[2]]),
    (Left::GROUPS[1], &[Asked::NAMES[0], Asked::NAMES[1], Asked::NAMES[2]]),
    (Left::GROUPS[2], &[Stamped::NAMES[0], Stamped::NAMES[1], Stamped::NAMES[3]]),
    (BEHIND, &["another rate", "other samples", "both"]),
];

/// Frames with a stamp behind one of another geometry.
const BEHIND: &str = "frames with a stamp behind";

/// How long a frame's line is.
const LINE: usize = 63;

/// Where its columns from the length to the bit rate stand, where samples, rate and stamp.
const GEOMETRY: Range<usize> = 9..41;
const SAMPLES: Range<usize> = 18..23;
const RATE: Range<usize> = 24..30;
const STAMP: Range<usize> = 42..62;

/// The groups of the columns from the length on.
const COLUMNS: [&str; 5] =
    ["frames, bytes", "frames, kind", "frames, samples", "frames, rate", "frames, channels"];

pub struct Counts {
    counts: counts::Counts,
    sheets: u64,
    lines: u64,
    longest: usize,
}

impl Counts {
    /// None yet. The streams of demo/ must be seen too.
    pub fn new(demos: &[Demo]) -> Counts {
        let mut suffixes: Vec<&str> = demos.iter().map(|demo| demo.suffix).collect();
        suffixes.sort();
        suffixes.dedup();
        let lengths = edges::LENGTHS.map(|len| len.to_string());
        let mut groups: Vec<_> = GROUPS.map(|(name, names)| group(name, names)).into();
        groups.extend(STREAMS.map(|name| group(name, &SORTS.map(|(sort, _)| sort))));
        groups.push(("streams, bytes", lengths.into()));
        groups.push(group(large::GROUP, &large::names().collect::<Vec<_>>()));
        groups.extend(demo::GROUPS.map(|name| group(name, &suffixes)));
        groups.push(group(first_lines::GROUP, &first_lines::WAYS.map(|(way, _)| way)));
        Counts { counts: counts::Counts::new(groups), sheets: 0, lines: 0, longest: 0 }
    }

    /// Counts an input whose sheet was the expected one.
    pub fn count(&mut self, input: &Input, feed: Feed, sheet: &[u8], inside: &Inside) {
        self.sheets += 1;
        self.add(input.sort.0, input.sort.1, 1);
        self.add("inputs handed over", feed.name(), 1);
        if sheet == b"?\n" {
            self.add("sheets", "question mark", 1);
            return;
        }
        let (frames, end) = sheet.split_at(sheet.len() / LINE * LINE);
        self.add("sheets", if frames.is_empty() { "without frames" } else { "with frames" }, 1);
        self.stream(input, !frames.is_empty());
        self.frames(frames);
        self.end(end);
        self.domain(frames.len() / LINE, inside);
    }

    fn stream(&mut self, input: &Input, has_frames: bool) {
        let (code, stream) = (u32::from(input.bytes[0] - b'0'), &input.bytes[2..]);
        let is_taken = answers::read(code, &stream[..stream.len().min(4_096)]).is_some();
        let name = match (stream, is_taken, has_frames) {
            ([], ..) => "none",
            (_, true, _) => "taken",
            (_, false, false) => "not taken",
            (_, false, true) => "not taken, but a later one",
        };
        self.add("first payloads", name, 1);
        self.add("streams, bytes", &stream.len().to_string(), 1);
        self.longest = self.longest.max(stream.len());
    }

    fn frames(&mut self, lines: &[u8]) {
        // Counted together, since a large sheet has many lines of one geometry.
        let mut geometries = BTreeMap::<_, u64>::new();
        for line in lines.chunks(LINE) {
            self.lines += 1;
            let stamp = std::str::from_utf8(&line[STAMP]).unwrap_or_default().trim_start();
            *geometries.entry((&line[GEOMETRY], stamp_name(stamp))).or_default() += 1;
        }
        self.changes(lines);
        for ((geometry, stamp), times) in geometries {
            let text = String::from_utf8_lossy(geometry);
            let mut columns = text.split_whitespace();
            for (group, column) in COLUMNS.into_iter().zip(columns.by_ref()) {
                self.add(group, column, times);
            }
            let is_absent = columns.next() == Some("-");
            self.add("frames, bit rate", if is_absent { "absent" } else { "present" }, times);
            self.add("frames, stamp", stamp, times);
        }
    }

    /// Where the geometry changes from one frame to the next, which has a stamp.
    fn changes(&mut self, lines: &[u8]) {
        let lines: Vec<&[u8]> = lines.chunks(LINE).collect();
        for pair in lines.windows(2).filter(|pair| !pair[1][STAMP].ends_with(b"-")) {
            let is_other = |column: Range<usize>| pair[0][column.clone()] != pair[1][column];
            match (is_other(RATE), is_other(SAMPLES)) {
                (true, false) => self.add(BEHIND, "another rate", 1),
                (false, true) => self.add(BEHIND, "other samples", 1),
                (true, true) => self.add(BEHIND, "both", 1),
                (false, false) => {}
            }
        }
    }

    /// The last line: `E`, bytes discarded, bytes pending.
    fn end(&mut self, line: &[u8]) {
        let text = String::from_utf8_lossy(line);
        let numbers: Vec<&str> = text.split_whitespace().skip(1).collect();
        let names = [["none discarded", "bytes discarded"], ["none pending", "bytes pending"]];
        for (number, [none, some]) in numbers.into_iter().zip(names) {
            self.add("sheets", if number == "0" { none } else { some }, 1);
        }
    }

    /// Frames' lines that had to be the unchanged module's too are inside.
    fn domain(&mut self, frames: usize, inside: &Inside) {
        let frames_inside = inside.sheet.len() / LINE;
        let side = match (inside.left, inside.payloads) {
            (None, _) => "inside",
            (Some(_), 0) => "outside from the first payload on",
            (Some(_), _) => "outside from a later one on",
        };
        self.add("sheets, domain", side, 1);
        self.add("frames, domain", "inside", frames_inside as u64);
        self.add("frames, domain", "outside", (frames - frames_inside) as u64);
        inside.left.iter().for_each(|left| self.add(left.group(), left.name(), 1));
    }

    fn add(&mut self, group: &'static str, name: &str, times: u64) {
        self.counts.add(group, name, times);
    }

    /// What had to be seen and never was.
    pub fn unseen(&self) -> Vec<String> {
        self.counts.unseen()
    }
}

impl fmt::Display for Counts {
    /// A line for each group, with what had to be seen; then the sums.
    fn fmt(&self, f: &mut fmt::Formatter) -> fmt::Result {
        let Counts { counts, sheets, lines, longest } = self;
        write!(f, "{counts}{sheets} sheets compared, {lines} frames' lines, ")?;
        write!(f, "longest stream {longest} bytes")
    }
}

fn stamp_name(stamp: &str) -> &'static str {
    match (stamp, stamp.parse::<i64>()) {
        ("-", _) => "absent",
        ("0", _) => "0",
        (_, Ok(..=0xFFFF_FFFF)) => "below 2^32",
        _ => "2^32 or more",
    }
}
