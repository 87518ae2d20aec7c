//! Words with one space between them, spoiled in one way. The way alone tells that a line is malformed:
//! nothing here parses one. It serves the lines of `cue` and the first lines of `cuelines`.

use common::random::Random;

/// Spoils a line of at least two words, of which each is a number.
type Way = fn(&mut Vec<Vec<u8>>, &mut Random) -> Vec<u8>;

/// The ways by name.
pub const WAYS: [(&str, Way); 9] = [
    ("no number", |words, random| with_word(words, random.pick(&NO_NUMBERS), random)),
    ("number over 64 bits", |words, random| with_word(words, random.pick(&OVER_64_BITS), random)),
    ("number of many digits", many_digits),
    ("two spaces", two_spaces),
    ("space before", |words, _| [b" ", &words.join(&b' ')[..]].concat()),
    ("space behind", |words, _| [&words.join(&b' ')[..], b" "].concat()),
    ("other separator", other_separator),
    ("carriage return", |words, _| [&words.join(&b' ')[..], b"\r"].concat()),
    ("any bytes", |_, random| any_bytes(random)),
];

/// Words that are no numbers.
#[rustfmt::skip]
pub const NO_NUMBERS: [&str; 25] = [
    "-", "--", "--1", "+", "+1", "+0", "-+1", "1-", "1-1", "1+1", "- 1", "a", "F", "0x1", "1F", "1.0", "1,0", "1e3",
    "0b1", "1_000", "'", "\u{0}", "1\u{0}", "\u{7F}", "\u{B2}",
];

/// The first numbers behind each end, those of 2^64 and about it, and longer ones.
#[rustfmt::skip]
pub const OVER_64_BITS: [&str; 14] = [
    "9223372036854775808", "-9223372036854775809", "9223372036854775809", "-9223372036854775810",
    "9223372036854775817", "10000000000000000000", "-10000000000000000000", "18446744073709551615",
    "18446744073709551616", "18446744073709551617", "-18446744073709551616", "-18446744073709551617",
    "36893488147419103232", "99999999999999999999",
];

/// The way's name, and the line, of these words.
pub fn spoiled(words: &[Vec<u8>], random: &mut Random) -> (&'static str, Vec<u8>) {
    let (name, way) = random.pick(&WAYS);
    (name, way(&mut words.to_vec(), random))
}

fn with_word(words: &mut [Vec<u8>], word: &str, random: &mut Random) -> Vec<u8> {
    words[random.below(words.len() as u64) as usize] = word.into();
    words.join(&b' ')
}

/// Twenty digits or more, the first of them 9.
fn many_digits(words: &mut Vec<Vec<u8>>, random: &mut Random) -> Vec<u8> {
    let sign = random.pick(&["", "-"]);
    let more = (0..19 + random.below(40)).map(|_| random.below(10).to_string());
    let word = format!("{sign}9{}", more.collect::<String>());
    with_word(words, &word, random)
}

fn two_spaces(words: &mut Vec<Vec<u8>>, random: &mut Random) -> Vec<u8> {
    words.insert(1 + random.below(words.len() as u64 - 1) as usize, Vec::new());
    words.join(&b' ')
}

/// In the place of one space.
fn other_separator(words: &mut Vec<Vec<u8>>, random: &mut Random) -> Vec<u8> {
    let second = words.remove(1 + random.below(words.len() as u64 - 1) as usize);
    let last = words.last_mut().expect("two words");
    last.push(random.pick(b"\t,;:_-+.\0\r\xA0"));
    last.extend(second);
    words.join(&b' ')
}

/// Bytes of which the first begins no number.
fn any_bytes(random: &mut Random) -> Vec<u8> {
    let mut text = vec![random.pick(b" !'*+,./:;?@AEZ_aez\0\t\r\x7F\x80\xB2\xFF")];
    let more = (0..random.below(300)).map(|_| random.word() as u8);
    text.extend(more.filter(|&byte| byte != b'\n'));
    text
}
