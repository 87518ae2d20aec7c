//! The lines that the program `cue` is asked: times and rows, other spellings of the same, and malformed
//! lines, by chance. Before them come those that were worked out by hand.

use common::random::Random;
use cues::cases::{self, Case};
use cues::cue::{cue, WIDTH};
use cues::line::{self, LONGEST, MOST_NUMBERS};
use cues::{malformed, rows};

/// What a line asks.
pub enum Asked {
    /// A time and rows.
    Cue(i64, Vec<i64>),
    /// Nothing: what is wrong with it.
    Malformed(&'static str),
}

impl Asked {
    /// The answer that it must get, without its line feed.
    pub fn answer(&self) -> String {
        match self {
            Asked::Cue(time, rows) => line::words(cue(rows, *time)),
            Asked::Malformed(_) => "?".into(),
        }
    }
}

/// A line, its text as it is asked, and how that is spelled.
pub struct Question {
    pub asked: Asked,
    pub text: Vec<u8>,
    pub spelling: &'static str,
}

/// The spellings of a good line.
pub const SPELLINGS: [&str; 4] = ["plain", "zeros in front", "minus 0", "of 4096 bytes"];

/// The ways besides those of every line.
pub const OWN_WAYS: [&str; 3] = ["empty", "too many numbers", "more than 4096 bytes"];

/// The same seed always gives the same questions.
pub struct Questions {
    random: Random,
    by_hand: std::vec::IntoIter<Case>,
    left: u64,
}

impl Questions {
    pub fn new(seed: u64, lines: u64) -> Self {
        Questions { random: Random::new(seed), by_hand: cases::all().into_iter(), left: lines }
    }
}

impl Iterator for Questions {
    type Item = Question;

    /// The last line is a good one, since no line feed closes it: an empty one would then be no line.
    fn next(&mut self) -> Option<Question> {
        self.left = self.left.checked_sub(1)?;
        if let Some(Case { time, rows, .. }) = self.by_hand.next() {
            return Some(plain(time, rows));
        }
        let random = &mut self.random;
        Some(match random.below(8) {
            0..=1 if self.left > 0 => malformed(random),
            _ => good(random),
        })
    }
}

fn plain(time: i64, rows: Vec<i64>) -> Question {
    let text = line::text(time, &rows).into_bytes();
    Question { asked: Asked::Cue(time, rows), text, spelling: SPELLINGS[0] }
}

/// A time and rows, spelled in one of the ways.
fn good(random: &mut Random) -> Question {
    let time = rows::time(random);
    let mut rows = rows::list(length(random), time, random);
    let mut words: Vec<String> = [time].iter().chain(&rows).map(i64::to_string).collect();
    let place = random.below(words.len() as u64) as usize;
    let spelling = match random.below(16) {
        0..=1 => {
            zeros(&mut words[place], 1 + random.below(60) as usize);
            SPELLINGS[1]
        }
        2 if place > 0 => {
            rows[place - 1] = 0;
            words[place] = "-0".into();
            SPELLINGS[2]
        }
        3 if random.below(8) == 0 => {
            let more = LONGEST - words.join(" ").len();
            zeros(&mut words[place], more);
            SPELLINGS[3]
        }
        _ => SPELLINGS[0],
    };
    Question { asked: Asked::Cue(time, rows), text: words.join(" ").into(), spelling }
}

/// Up to 20 numbers, whole rows, or as many as there may be.
fn length(random: &mut Random) -> usize {
    let most = (MOST_NUMBERS / WIDTH) as u64;
    match random.below(8) {
        0..=1 => random.below(21) as usize,
        2..=5 => WIDTH * random.below(6) as usize,
        6 => WIDTH * random.below(most + 1) as usize,
        _ => MOST_NUMBERS - random.below(20) as usize,
    }
}

/// So many zeros before the first digit.
fn zeros(word: &mut String, count: usize) {
    word.insert_str(usize::from(word.starts_with('-')), &"0".repeat(count));
}

fn malformed(random: &mut Random) -> Question {
    let time = rows::time(random);
    let len = 1 + length(random).min(MOST_NUMBERS - 1);
    let rows = rows::list(len, time, random);
    let words: Vec<Vec<u8>> =
        [time].iter().chain(&rows).map(|number| number.to_string().into()).collect();
    let (way, text) = match random.below(12) {
        0 => (OWN_WAYS[0], Vec::new()),
        1 => (OWN_WAYS[1], too_many(time, random)),
        2 => (OWN_WAYS[2], too_long(words, random)),
        _ => malformed::spoiled(&words, random),
    };
    Question { asked: Asked::Malformed(way), text, spelling: "" }
}

/// One number too many, or more, whole rows or not; short ones, so that the line is not too long.
fn too_many(time: i64, random: &mut Random) -> Vec<u8> {
    let more = random.pick(&[1, 8, 200]);
    let rows = vec![random.below(9) as i64; MOST_NUMBERS + 1 + random.below(more) as usize];
    line::text(time, &rows).into()
}

/// One byte too many, or more, or so many that no program keeps them: zeros before a number.
fn too_long(mut words: Vec<Vec<u8>>, random: &mut Random) -> Vec<u8> {
    let more = random.pick(&[1, 1, 30, 70_000]);
    let len = LONGEST + 1 + random.below(more) as usize;
    let zeros = vec![b'0'; len - words.join(&b' ').len()];
    let place = random.below(words.len() as u64) as usize;
    let word = &mut words[place];
    let digit = usize::from(word[0] == b'-');
    word.splice(digit..digit, zeros);
    words.join(&b' ')
}
