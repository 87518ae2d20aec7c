//! Inputs of the program `cuelines`: streams of the cut sheet's runs behind first lines with times that
//! are chosen by the stamps of their sheets, and malformed first lines. The same seed always gives the
//! same ones.

use crate::cases;
use crate::cue::{MARK, STAMP, WIDTH};
use crate::first_lines;
use crate::found::{self, Sheet, MOST_TIMES};
use crate::rows;
use common::random::Random;
use sheet::inputs::demo::Demo;
use sheet::inputs::input::{self, random, Sort};
use sheet::requested::cases::F;
use std::io::{self, Write};

pub struct Input {
    /// What it was made as.
    pub sort: Sort,
    /// First line and stream.
    pub bytes: Vec<u8>,
    /// What a good first line asks; `None` where it is malformed.
    pub asks: Option<Asks>,
}

/// Times, and the sheet in which they are looked up.
pub struct Asks {
    /// How the first line is spelled.
    pub spelling: &'static str,
    pub times: Vec<Time>,
    pub sheet: Pushes,
    /// What has to be printed, where that is spelled out.
    pub spelled: Option<&'static str>,
}

/// What a time was chosen as, and the time.
pub type Time = (&'static str, i64);

/// A sheet, and where in it each push ends that printed a line. Behind the last of them comes the last
/// line.
#[derive(Default)]
pub struct Pushes {
    pub text: Vec<u8>,
    pub ends: Vec<usize>,
}

impl Write for Pushes {
    /// The model writes the lines of a push at once, and nothing where there are none.
    fn write(&mut self, lines: &[u8]) -> io::Result<usize> {
        self.text.extend(lines);
        self.ends.push(self.text.len());
        Ok(lines.len())
    }

    fn flush(&mut self) -> io::Result<()> {
        Ok(())
    }
}

/// What was spelled out by hand, malformed first lines, and the streams of the cut sheet's runs, with
/// so many by chance; the large ones, which take longest, come last.
pub fn all(count: u64, seed: u64, demos: &[Demo]) -> impl Iterator<Item = Input> + '_ {
    let streams = input::all(count, seed, demos).zip(0..).filter_map(move |(input, n)| {
        let code = input.bytes.first_chunk::<2>().filter(|line| is_code(line))?[0];
        let mut random = random(seed, 5 << 20 | n);
        Some(of_stream(input.sort, code, &input.bytes[2..], &mut random))
    });
    spelled().chain(malformed(seed)).chain(streams)
}

fn is_code(line: &[u8; 2]) -> bool {
    matches!(line, [b'0'..=b'2', b'\n'])
}

fn spelled() -> impl Iterator<Item = Input> {
    cases::printed().map(|(first_line, stream, spelled)| {
        let (code, times) = (first_line.as_bytes()[0], first_line[2..].split(' '));
        let times = times.map(|time| ("by hand", time.parse().expect("a number"))).collect();
        let asks = Asks { spelled: Some(spelled), ..asks("plain", times, code, &stream) };
        let bytes = [first_line.as_bytes(), b"\n", &stream].concat();
        Input { sort: ("inputs", "by hand"), bytes, asks: Some(asks) }
    })
}

/// Each word that spoils a first line, then each way a dozen times; two frames follow, unless the line
/// is not closed.
fn malformed(seed: u64) -> impl Iterator<Item = Input> {
    let ways = first_lines::ways().count();
    let by_chance = (0..12 * ways).map(move |n| {
        let mut random = random(seed, 6 << 20 | n as u64);
        first_lines::malformed(n % ways, &mut random)
    });
    first_lines::each_word().chain(by_chance).map(|(name, mut bytes)| {
        if bytes.ends_with(b"\n") {
            bytes.extend(F.repeat(2));
        }
        Input { sort: (first_lines::GROUP, name), bytes, asks: None }
    })
}

fn of_stream(sort: Sort, code: u8, stream: &[u8], random: &mut Random) -> Input {
    let mut asks = asks("", Vec::new(), code, stream);
    asks.times = times(&Sheet::of(&asks.sheet.text), random);
    let times: Vec<i64> = asks.times.iter().map(|(_, time)| *time).collect();
    let (spelling, first_line) = first_lines::good(code, &times, random);
    asks.spelling = spelling;
    Input { sort, bytes: [&first_line, stream].concat(), asks: Some(asks) }
}

fn asks(spelling: &'static str, times: Vec<Time>, code: u8, stream: &[u8]) -> Asks {
    let mut sheet = Pushes::default();
    found::sheet(code, stream, &mut sheet).expect("nothing is read or written but memory");
    sheet.ends.pop();
    Asks { spelling, times, sheet, spelled: None }
}

/// What times are chosen as.
pub const TIMES: [&str; 9] = [
    "at a stamp",
    "one below a stamp",
    "one above a stamp",
    "between the stamps",
    "before 0",
    "beyond the end",
    "the least number",
    "the largest number",
    "any number",
];

/// One to 32 times; mostly a few, and often 32, as for every long sheet.
fn times(sheet: &Sheet, random: &mut Random) -> Vec<Time> {
    let marked = sheet.rows.chunks(WIDTH).filter(|row| row[MARK] == 1);
    let mut stamps: Vec<i64> = marked.map(|row| row[STAMP]).collect();
    if stamps.is_empty() {
        stamps.push(0);
    }
    let count = match random.below(4) {
        _ if stamps.len() > 10_000 => MOST_TIMES as u64,
        0 => MOST_TIMES as u64,
        1 => 1 + random.below(MOST_TIMES as u64),
        _ => 1 + random.below(8),
    };
    (0..count).map(|_| time(&stamps, random)).collect()
}

fn time(stamps: &[i64], random: &mut Random) -> Time {
    let stamp = random.pick(stamps);
    let last = stamps.iter().max().copied().unwrap_or(0);
    let sort = random.pick(&[0, 0, 0, 0, 1, 1, 1, 2, 2, 3, 3, 4, 5, 6, 7, 8]);
    let time = match sort {
        0 => stamp,
        1 => stamp - 1,
        2 => stamp + 1,
        3 => random.below(last as u64 + 1) as i64,
        4 => -1 - random.below(2_000) as i64,
        5 => last + 1 + random.below(2_000_000) as i64,
        6 => i64::MIN,
        7 => i64::MAX,
        _ => rows::time(random),
    };
    (TIMES[sort], time)
}
