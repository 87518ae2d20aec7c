//! Lines that ask for nothing, each wrong in one way. The way alone tells that they are malformed:
//! nothing here parses a line.

use common::random::Random;
use heads::line::{Line, MOST_BYTES};
use heads::records;
use heads::writes::TABLES;

type Way = fn(&mut Random) -> Vec<u8>;

/// The ways by name.
pub const WAYS: [(&str, Way); 26] = [
    ("empty", |_| Vec::new()),
    ("any bytes", any_bytes),
    ("other letter", |random| [&[random.pick(b"DHMSWabefrtxz")], &b" 2 77"[..]].concat()),
    ("letters alone", letters_alone),
    ("no space after the letter", no_space_after_the_letter),
    ("space before", |random| [b" ", &well_formed(random)[..]].concat()),
    ("space behind", |random| [&well_formed(random)[..], b" "].concat()),
    ("carriage return", |random| [&well_formed(random)[..], b"\r"].concat()),
    ("no number", no_number),
    ("number over 32 bits", number_over_32_bits),
    ("number of eleven digits", |random| with_number(&format!("{:011}", random.below(4)), random)),
    ("one number or three", |random| random.pick(&["d 8", "d 8 ", "d 7 8 9", "d 7 8 9 10"]).into()),
    ("other separator", |random| with_one_changed(0, b"\t,-_:x\0\xA0", random)),
    ("no hexadecimal digit", no_hexadecimal_digit),
    ("half a byte", half_a_byte),
    ("too many bytes", too_many_bytes),
    ("no table", |random| {
        let word =
            random.pick(&["", "AC3", "ac", "ac33", "eac", "mp3", "mpeg1", "aac", "adt", "0"]);
        with_word(1, word, random)
    }),
    ("a field less or more", a_field_less_or_more),
    ("tape too long", tape_too_long),
    ("place over 64 bits", |random| {
        let more = random.pick(&["18446744073709551616", "99999999999999999999", "-1", "", "1F"]);
        with_word(2, more, random)
    }),
    ("two spaces", two_spaces),
    ("code behind the letter m", |random| [b"m ", &by_code(random)[..]].concat()),
    ("code behind the letter h", |random| [b"h ", &by_code(random)[..]].concat()),
    ("no space behind a byte", no_space_behind_a_byte),
    ("capital M", |random| [b"M", &by_letter(random)[1..]].concat()),
    ("capital H", |random| [b"H", &by_letter(random)[1..]].concat()),
];

/// A malformed line; each way comes as often as the others.
pub fn line(random: &mut Random) -> Line {
    let (name, way) = random.pick(&WAYS);
    Line::Malformed(name, way(random))
}

/// So many bytes by chance.
fn bytes(count: usize, random: &mut Random) -> Vec<u8> {
    (0..count).map(|_| random.word() as u8).collect()
}

/// A head, by its code or a letter, or a skip, with so many bytes.
fn coded(count: usize, random: &mut Random) -> Vec<u8> {
    let code = random.below(4) as u32;
    let bytes = bytes(count, random);
    let line = match random.below(4) {
        0 => Line::Head(code, bytes),
        1 => Line::Skip(code, bytes),
        2 => Line::HeadLength(bytes),
        _ => Line::Chart(bytes),
    };
    line.text()
}

/// A head by its code, which has one digit.
fn by_code(random: &mut Random) -> Vec<u8> {
    let code = random.below(4) as u32;
    Line::Head(code, bytes(random.below(9) as usize, random)).text()
}

/// A head by the letter m or h, with at least two bytes.
fn by_letter(random: &mut Random) -> Vec<u8> {
    let line = random.pick(&[Line::Chart, Line::HeadLength]);
    line(bytes(2 + random.below(39) as usize, random)).text()
}

/// A head to be written.
fn written(random: &mut Random) -> Vec<u8> {
    let table = random.pick(&TABLES);
    Line::Write(table, records::by_chance(table, random), random.below(40), 40).text()
}

/// A head to be written with another word in the place of that one, from 0.
fn with_word(place: usize, word: &str, random: &mut Random) -> Vec<u8> {
    let text = written(random);
    let mut words: Vec<&[u8]> = text.split(|&c| c == b' ').collect();
    words[place] = word.as_bytes();
    words.join(&b' ')
}

/// One byte too many, or more.
fn tape_too_long(random: &mut Random) -> Vec<u8> {
    let more = random.pick(&[1, 1000]);
    let room = MOST_BYTES as u64 + 1 + random.below(more);
    with_word(3, &room.to_string(), random)
}

/// A head to be written with its last field left out, or with one more.
fn a_field_less_or_more(random: &mut Random) -> Vec<u8> {
    let text = written(random);
    match random.below(2) {
        0 => text[..text.iter().rposition(|&c| c == b' ').expect("fields")].to_vec(),
        _ => [&text[..], b" 0"].concat(),
    }
}

/// Letters without what has to stand behind them. The letters m and h alone are heads without bytes.
fn letters_alone(random: &mut Random) -> Vec<u8> {
    let letters = ["d", "s", "w", "d ", "s ", "w ", "m ", "ds", "s s", "mm", "m m", "sm"];
    let further = ["h ", "hh", "h h", "sh", "mh", "hm", "h m"];
    random.pick(&[&letters[..], &further].concat()).into()
}

/// A duration, a head to be written, or a head or a skip with at least one byte.
fn well_formed(random: &mut Random) -> Vec<u8> {
    match random.below(5) {
        0 => Line::Duration(random.word() as u32, random.word() as u32).text(),
        1 => written(random),
        _ => coded(1 + random.below(40) as usize, random),
    }
}

/// Bytes of which the first begins no line.
fn any_bytes(random: &mut Random) -> Vec<u8> {
    let mut text = vec![random.pick(b" !/:?@ADFHMSZ`acefgilntz\0\r\x7F\x80\xFF")];
    let more = (0..random.below(700)).map(|_| random.word() as u8);
    text.extend(more.filter(|&byte| byte != b'\n'));
    text
}

fn no_space_after_the_letter(random: &mut Random) -> Vec<u8> {
    let number = random.word() as u32;
    let mut text = match random.below(4) {
        0 => Line::Skip(number, vec![0x0B, 0x77]).text(),
        1 => Line::Duration(number, 48_000).text(),
        2 => by_letter(random),
        _ => written(random),
    };
    text.remove(1);
    text
}

fn no_number(random: &mut Random) -> Vec<u8> {
    let number = random.pick(&["", "-1", "+1", "F", "1F", "0x1", "1.0", " 1"]);
    with_number(number, random)
}

/// Ten digits: the least such number, or any.
fn number_over_32_bits(random: &mut Random) -> Vec<u8> {
    let more = random.pick(&[1, 5_000_000_000]);
    let number = (1 << 32) + random.below(more);
    with_number(&number.to_string(), random)
}

/// A line of any kind with `number` in the place of one of its numbers.
fn with_number(number: &str, random: &mut Random) -> Vec<u8> {
    let line = random.pick(&[
        "# 0B 77",
        "s # FF F1 50",
        "d # 48000",
        "d 1024 #",
        "w mpeg 0 # 4095 1 1 1 9 0 0 0 3 0 0 0 0",
        "w mpeg 0 4 4095 1 1 1 # 0 0 0 3 0 0 0 0",
        "w mpeg 0 4 4095 1 1 1 9 0 0 0 3 0 0 0 #",
    ]);
    line.replace('#', number).into()
}

fn no_hexadecimal_digit(random: &mut Random) -> Vec<u8> {
    let digit = random.pick(&[1, 2]);
    with_one_changed(digit, b"gG/:@` \0\xFF", random)
}

/// A head or a skip with another character at `offset` into one of its bytes.
fn with_one_changed(offset: usize, others: &[u8], random: &mut Random) -> Vec<u8> {
    let (mut text, byte) = with_a_byte(random);
    text[byte + offset] = random.pick(others);
    text
}

/// A head or a skip in which one byte has one digit.
fn half_a_byte(random: &mut Random) -> Vec<u8> {
    let (mut text, byte) = with_a_byte(random);
    text.remove(byte + 1);
    text
}

/// A head or a skip with another space before one of its bytes.
fn two_spaces(random: &mut Random) -> Vec<u8> {
    let (mut text, byte) = with_a_byte(random);
    text.insert(byte, b' ');
    text
}

/// A head by a letter with no space between two of its bytes. Behind a code it could be another code.
fn no_space_behind_a_byte(random: &mut Random) -> Vec<u8> {
    let mut text = by_letter(random);
    let bytes = text.len() as u64 / 3;
    text.remove(1 + 3 * (1 + random.below(bytes - 1) as usize));
    text
}

/// A head or a skip, and the place where one of its bytes begins: a space and two digits.
fn with_a_byte(random: &mut Random) -> (Vec<u8>, usize) {
    let count = 1 + random.below(40);
    let text = coded(count as usize, random);
    let byte = text.len() - 3 * (1 + random.below(count) as usize);
    (text, byte)
}

/// One byte too many, or so many that the program keeps only a part of the line.
fn too_many_bytes(random: &mut Random) -> Vec<u8> {
    let more = random.pick(&[1, 200]);
    coded(MOST_BYTES + 1 + random.below(more) as usize, random)
}
