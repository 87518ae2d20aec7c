//! The lines that the replay asks: heads, by the chart too, lengths of ADTS heads, skips, durations,
//! heads to be written and malformed lines, by chance.

use crate::malformed;
use common::random::Random;
use common::samples::{self, Bytes, KINDS};
use heads::line::{Line, MOST_BYTES};
use heads::records;
use heads::writes::TABLES;

/// Codes that no syntax has.
const OTHER_CODES: [u32; 6] = [3, 4, 10, 255, 1 << 31, u32::MAX];

/// Bytes of sync words, and their neighbours.
const NEAR_SYNC: [u8; 9] = [0x0B, 0x77, 0xFF, 0xF0, 0xFF, 0x76, 0x78, 0xEF, 0xFE];

/// A line, and its text as it is asked.
pub struct Question {
    pub line: Line,
    pub text: Vec<u8>,
}

/// The same seed always gives the same questions.
pub struct Questions {
    random: Random,
    left: u64,
}

impl Questions {
    pub fn new(seed: u64, lines: u64) -> Self {
        Questions { random: Random::new(seed), left: lines }
    }
}

impl Iterator for Questions {
    type Item = Question;

    /// The last line is a head, since no line feed closes it: an empty one would then be no line.
    fn next(&mut self) -> Option<Question> {
        self.left = self.left.checked_sub(1)?;
        let random = &mut self.random;
        let line = match random.below(31) {
            _ if self.left == 0 => head(random),
            0..=7 => head(random),
            8..=11 => skip(random),
            12..=13 => duration(random),
            14..=21 => write(random),
            22..=25 => Line::Chart(part_of_frame(random.pick(&[3, 4, 5]), random)),
            26..=28 => Line::HeadLength(part_of_frame(6, random)),
            _ => malformed::line(random),
        };
        let mut text = line.text();
        if !matches!(line, Line::Malformed(..)) {
            respell(&mut text, random);
        }
        Some(Question { line, text })
    }
}

fn head(random: &mut Random) -> Line {
    let kind = random.pick(&KINDS);
    let bytes = part_of_frame(kind, random);
    Line::Head(code_or_other(samples::code_of(kind), random), bytes)
}

/// The start of a frame, cut short or with more bytes behind it.
fn part_of_frame(kind: u32, random: &mut Random) -> Vec<u8> {
    let mut bytes = start_of_frame(kind, random).to_vec();
    let len = match random.below(4) {
        0 => random.below(17) as usize,
        1 => random.below(MOST_BYTES as u64 + 1) as usize,
        _ => bytes.len(),
    };
    while bytes.len() < len {
        bytes.extend(random.bytes());
    }
    bytes.truncate(len);
    bytes
}

/// A head that reads, a damaged one, or random bytes.
fn start_of_frame(kind: u32, random: &mut Random) -> Bytes {
    match random.below(8) {
        // Frame lengths about the least ones of ADTS, 7 to 15: chance alone gives too few of them.
        0..=1 if kind == 6 => {
            samples::with_fields(samples::good(6, random), &[(30, 13, random.below(18))])
        }
        0..=3 => samples::good(kind, random),
        4..=5 => samples::damaged(kind, random),
        _ => samples::random_head(samples::code_of(kind), random),
    }
}

/// Bytes among which those of sync words are frequent; three times in four with a sync word, or with
/// half of one at the end.
fn skip(random: &mut Random) -> Line {
    let code = random.below(3) as u32;
    let len = random.below(MOST_BYTES as u64 + 1) as usize;
    let mut bytes: Vec<u8> = (0..len).map(|_| byte_near_sync(random)).collect();
    if len > 0 && random.below(4) > 0 {
        let place = random.below(len as u64) as usize;
        let second = 0xF0 | random.word() as u8;
        let sync_word = if code == 0 { [0x0B, 0x77] } else { [0xFF, second] };
        bytes[place..].iter_mut().zip(sync_word).for_each(|(byte, sync)| *byte = sync);
    }
    Line::Skip(code_or_other(code, random), bytes)
}

/// One time in eight a byte of [`NEAR_SYNC`], else any.
fn byte_near_sync(random: &mut Random) -> u8 {
    match random.below(8) {
        0 => random.pick(&NEAR_SYNC),
        _ => random.word() as u8,
    }
}

/// Numbers of every size, not only the large ones that a plain random number gives.
fn duration(random: &mut Random) -> Line {
    let samples = random.word() as u32 >> random.below(32);
    let rate = random.word() as u32 >> random.below(32);
    Line::Duration(samples, rate)
}

/// A head to be written: mostly one that fits and has room.
fn write(random: &mut Random) -> Line {
    let table = random.pick(&TABLES);
    let fields = records::with_short_frames(table, random);
    let room = random.below(MOST_BYTES as u64 + 1);
    let at = match random.below(8) {
        0 => random.word() >> random.below(64),
        1 => room.saturating_sub(random.below(9)),
        _ => random.below(room.saturating_sub(table.bytes() as u64) + 1),
    };
    Line::Write(table, fields, at, room as usize)
}

fn code_or_other(code: u32, random: &mut Random) -> u32 {
    match random.below(32) {
        0 => random.pick(&OTHER_CODES),
        _ => code,
    }
}

/// Another spelling of the same line, by chance: small letters, or zeros in front of its first number
/// of 32 bits, which may have ten digits. A line of the letter m or h has none.
fn respell(text: &mut Vec<u8>, random: &mut Random) {
    if random.below(4) == 0 {
        text.make_ascii_lowercase();
    }
    if !matches!(text[0], b'm' | b'h') && random.below(16) == 0 {
        // Behind the letter w, a table's word and a place come first.
        let words = if text[0] == b'w' { 3 } else { 0 };
        let first =
            text.split_inclusive(|&c| c == b' ').take(words).map(<[u8]>::len).sum::<usize>();
        let digit = text[first..].iter().position(u8::is_ascii_digit);
        let start = first + digit.expect("every line has a number");
        let digits = text[start..].iter().take_while(|c| c.is_ascii_digit()).count();
        let zeros = random.below(11 - digits as u64) as usize;
        text.splice(start..start, [b'0'; 10].into_iter().take(zeros));
    }
}
