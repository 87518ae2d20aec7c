//! Writes the stored list of cues: lines for the program `cue`, and beside them the answers that they
//! must get. The Rattle program replays it where no Rust is at hand.
//!
//!   cue_list INPUTS ANSWERS
//!
//! An input is `TIME NUMBER..`, its answer `place N`, `none` or `refused 14`, or `?` where it is
//! malformed. In order: cues by hand, other spellings, lists about their greatest length, lists by
//! chance, malformed lines.

use common::random::Random;
use cues::cases;
use cues::cue::{cue, WIDTH};
use cues::line::{self, LONGEST, MOST_NUMBERS};
use cues::malformed::{self, NO_NUMBERS, OVER_64_BITS};
use cues::rows;
use std::process::ExitCode;

/// A line and its answer, both without their line feed.
type Pair = (Vec<u8>, String);

fn main() -> ExitCode {
    let arguments: Vec<String> = std::env::args().skip(1).collect();
    let [inputs, answers] = arguments.as_slice() else {
        eprintln!("usage: cue_list INPUTS ANSWERS");
        return ExitCode::from(2);
    };
    if let Err(what) = cases::check(cue) {
        eprintln!("cue_list: {what}");
        return ExitCode::FAILURE;
    }
    let (lines, right): (Vec<_>, Vec<_>) = all().into_iter().unzip();
    let written =
        std::fs::write(inputs, text(&lines)).and_then(|()| std::fs::write(answers, text(&right)));
    match written {
        Ok(()) => ExitCode::SUCCESS,
        Err(error) => {
            eprintln!("cue_list: {error}");
            ExitCode::FAILURE
        }
    }
}

/// All lines, each closed by a line feed.
fn text(lines: &[impl AsRef<[u8]>]) -> Vec<u8> {
    lines.iter().flat_map(|line| [line.as_ref(), b"\n"].concat()).collect()
}

fn all() -> Vec<Pair> {
    let by_hand = cases::all().into_iter().map(|case| pair(case.time, &case.rows));
    by_hand.chain(spellings()).chain(longest()).chain(by_chance()).chain(malformed()).collect()
}

fn pair(time: i64, rows: &[i64]) -> Pair {
    (line::text(time, rows).into(), line::words(cue(rows, time)))
}

/// Other spellings of the row of frame F at time 0, and of times about 0: zeros in front, minus 0.
fn spellings() -> Vec<Pair> {
    let row =
        |time: &str, mark: &str, stamp: &str| format!("{time} 7 6 1024 44100 2 0 {mark} {stamp}");
    [
        (row("-0", "1", "0"), "place 0"),
        (row("0", "1", "-0"), "place 0"),
        (row("000", "01", "-000"), "place 0"),
        (row("0", "-01", "0"), "none"),
        (row("-00000000000000000000000000000001", "1", "-2"), "place 0"),
        (row("00000000000000000000000000000001", "1", "2"), "none"),
        (row("0009223372036854775807", "1", "9223372036854775807"), "place 0"),
        (row("-0009223372036854775808", "1", "-9223372036854775807"), "none"),
        ("-0".into(), "none"),
        ("00000".into(), "none"),
    ]
    .map(|(line, answer)| (line.into(), answer.into()))
    .into()
}

/// As many rows as a line may give; a number less, and one more. As many bytes, and one more.
fn longest() -> Vec<Pair> {
    let rows = cases::row(1, 0).repeat(MOST_NUMBERS / WIDTH);
    let more = [&rows[..], &[0]].concat();
    let unread = |text: String| (text.into_bytes(), "?".to_string());
    let zeros = |len| format!("{:0>len$}", line::text(5, &cases::row(1, 5)));
    vec![
        pair(0, &rows),
        pair(-1, &rows),
        pair(0, &rows[1..]),
        unread(line::text(0, &more)),
        unread(line::text(0, &rows.repeat(2)[..MOST_NUMBERS + WIDTH])),
        (zeros(LONGEST).into(), "place 0".into()),
        unread(zeros(LONGEST + 1)),
        unread(zeros(3 * LONGEST)),
    ]
}

/// Up to 20 numbers, whole rows, some long lists.
fn by_chance() -> Vec<Pair> {
    let mut random = Random::new(4);
    let lengths = (0..=20).chain((0..60).map(|n| n % 6 * WIDTH)).chain([104, 112, 120, 125, 128]);
    let lists = lengths.map(|len| {
        let time = rows::time(&mut random);
        pair(time, &rows::list(len, time, &mut random))
    });
    lists.collect()
}

/// Each word that is no number, as the time and behind it; then every other way a few times, but for
/// bytes by chance, since the list is a text.
fn malformed() -> Vec<Pair> {
    let mut lines: Vec<Vec<u8>> = vec![Vec::new(), b" ".into(), b"\r".into(), b"\t0".into()];
    for (n, word) in NO_NUMBERS.into_iter().chain(OVER_64_BITS).enumerate() {
        lines.push(if n % 2 == 0 { word.into() } else { format!("{word} 0").into() });
        lines.push(format!("0 7 6 1024 44100 2 0 1 {word}").into());
    }
    let mut random = Random::new(14);
    for (_, way) in malformed::WAYS.into_iter().filter(|(name, _)| *name != "any bytes").skip(2) {
        for len in [1, 8, 9] {
            let text = line::text(0, &rows::list(len, 0, &mut random));
            let mut words = text.split(' ').map(Vec::from).collect();
            lines.push(way(&mut words, &mut random));
        }
    }
    lines.into_iter().map(|line| (line, "?".into())).collect()
}
