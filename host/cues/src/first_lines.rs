//! First lines of inputs of the program `cuelines`: a code and times, and malformed ones.

use crate::found::{LONGEST, MOST_TIMES};
use crate::malformed::{self, NO_NUMBERS, OVER_64_BITS};
use crate::rows;
use common::random::Random;

/// The spellings of a good first line.
pub const SPELLINGS: [&str; 4] = ["plain", "zeros in front", "minus 0", "of 700 bytes"];

/// A first line with these times, and how it is spelled.
pub fn good(code: u8, times: &[i64], random: &mut Random) -> (&'static str, Vec<u8>) {
    let mut words = words(code, times);
    let place = 1 + random.below(times.len() as u64) as usize;
    let spelling = match random.below(8) {
        0 => {
            zeros(&mut words[place], random.below(30) as usize + 1);
            SPELLINGS[1]
        }
        1 if times.contains(&0) => {
            let zeros = words.iter_mut().skip(1).filter(|word| word[..] == *b"0");
            zeros.for_each(|word| word.insert(0, b'-'));
            SPELLINGS[2]
        }
        2 => {
            let more = LONGEST - words.join(&b' ').len();
            zeros(&mut words[place], more);
            SPELLINGS[3]
        }
        _ => SPELLINGS[0],
    };
    (spelling, closed(words))
}

fn words(code: u8, times: &[i64]) -> Vec<Vec<u8>> {
    let times = times.iter().map(|time| time.to_string().into_bytes());
    [vec![code]].into_iter().chain(times).collect()
}

/// So many zeros before the first digit.
fn zeros(word: &mut Vec<u8>, count: usize) {
    let digit = usize::from(word[0] == b'-');
    word.splice(digit..digit, vec![b'0'; count]);
}

/// The group of inputs with a malformed first line.
pub const GROUP: &str = "malformed first lines";

type Way = fn(&mut Random) -> Vec<u8>;

/// The ways besides those of every line. Each makes the first line with its line feed; where that is
/// missing, the input ends.
const OWN_WAYS: [(&str, Way); 9] = [
    ("no input", |_| Vec::new()),
    ("no line feed", |random| some(random).join(&b' ')),
    ("no time", |random| random.pick(&["0\n", "1\n", "2\n", "0 \n", "2 \n", "\n", " \n"]).into()),
    ("other code", other_code),
    ("no space behind the code", |random| {
        random.pick(&["20\n", "2-1\n", "0:0\n", "1\t0\n", "2\r0\n", "2\0 0\n"]).into()
    }),
    ("empty line first", |random| [b"\n".to_vec(), closed(some(random))].concat()),
    ("more than 32 times", |random| {
        let more = random.pick(&[1, 1, 40]);
        let times = MOST_TIMES + 1 + random.below(more) as usize;
        closed(words(b'2', &vec![random.below(9) as i64; times]))
    }),
    ("more than 700 bytes", |random| {
        let more = random.pick(&[1, 1, 50, 70_000]);
        lengthened(LONGEST + 1 + random.below(more) as usize, random)
    }),
    ("spaces behind, 700 bytes in all", |random| {
        let mut line = some(random).join(&b' ');
        line.resize(LONGEST, b' ');
        [line, b"\n".to_vec()].concat()
    }),
];

/// Words that are no code.
#[rustfmt::skip]
const OTHER_CODES: [&str; 15] =
    ["3", "9", "/", ":", "a", "\0", "02", "00", "22", "-0", "-1", "+2", "2-", "", "\u{B2}"];

/// The names of all ways.
pub fn ways() -> impl Iterator<Item = &'static str> {
    OWN_WAYS.into_iter().map(|(name, _)| name).chain(malformed::WAYS.map(|(name, _)| name))
}

/// A malformed first line, by the number of a way: the way's name, and the line.
pub fn malformed(way: usize, random: &mut Random) -> (&'static str, Vec<u8>) {
    match OWN_WAYS.get(way) {
        Some((name, make)) => (name, make(random)),
        None => {
            let (name, spoil) = malformed::WAYS[way - OWN_WAYS.len()];
            (name, [spoil(&mut some(random), random), b"\n".to_vec()].concat())
        }
    }
}

/// The words of a good first line, with a few times.
fn some(random: &mut Random) -> Vec<Vec<u8>> {
    let times: Vec<i64> = (0..=random.below(5)).map(|_| rows::time(random)).collect();
    words(b'0' + random.below(3) as u8, &times)
}

/// Words as a line.
fn closed(words: Vec<Vec<u8>>) -> Vec<u8> {
    [words.join(&b' '), b"\n".to_vec()].concat()
}

fn other_code(random: &mut Random) -> Vec<u8> {
    let mut words = some(random);
    words[0] = random.pick(&OTHER_CODES).into();
    closed(words)
}

/// Each code that is none before a good time, and each word that is no number behind a good code.
pub fn each_word() -> impl Iterator<Item = (&'static str, Vec<u8>)> {
    let codes = OTHER_CODES.into_iter().map(|code| ("other code", format!("{code} 0\n")));
    let times = [("no number", &NO_NUMBERS[..]), ("number over 64 bits", &OVER_64_BITS)];
    let times =
        times.into_iter().flat_map(|(name, words)| words.iter().map(move |word| (name, word)));
    let times = times.map(|(name, word)| (name, format!("2 {word}\n")));
    codes.chain(times).map(|(name, line)| (name, line.into()))
}

/// A first line that zeros make so long, its line feed not counted.
fn lengthened(len: usize, random: &mut Random) -> Vec<u8> {
    let mut words = some(random);
    let more = len - words.join(&b' ').len();
    let place = 1 + random.below(words.len() as u64 - 1) as usize;
    zeros(&mut words[place], more);
    closed(words)
}
