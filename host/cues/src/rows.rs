//! Lists of rows and times by chance: stamps at and around the time, equal, rising and falling, at the
//! ends of the numbers; marks that count and marks that do not; any numbers in the other columns.

use crate::cue::{MARK, STAMP, WIDTH};
use common::random::Random;

/// Marks of rows that do not count. Some would be 1 with fewer bits, or without a sign.
#[rustfmt::skip]
const OTHER_MARKS: [i64; 10] = [0, 0, 0, -1, 2, 2, 3, 257, (1 << 32) + 1, i64::MIN + 1];

/// Numbers at the ends and about 0.
pub const ENDS: [i64; 9] =
    [i64::MIN, i64::MIN + 1, i64::MIN + 2, -1, 0, 1, i64::MAX - 2, i64::MAX - 1, i64::MAX];

/// What the stamps of a list are like.
#[derive(Clone, Copy)]
enum Stamps {
    /// All the same, which is about the time.
    Equal(i64),
    /// Each so many ticks from the one before, up or down, from there on; some of them about the time.
    Steps(i64, i64),
    /// About the time, each by itself.
    Near,
    /// At the ends of the numbers.
    Ends,
    /// Any numbers.
    Any,
}

/// A list of so many numbers, the last row perhaps cut off, for that time.
pub fn list(len: usize, time: i64, random: &mut Random) -> Vec<i64> {
    let stamps = stamps(len.div_ceil(WIDTH), time, random);
    let mut rows = Vec::with_capacity(len + WIDTH);
    for n in 0..len.div_ceil(WIDTH) {
        rows.extend((0..WIDTH).map(|place| match place {
            MARK => mark(random),
            STAMP => stamp(stamps, n, time, random),
            _ => other(time, random),
        }));
    }
    rows.truncate(len);
    rows
}

/// By their number of rows, so that the time is often among them.
fn stamps(rows: usize, time: i64, random: &mut Random) -> Stamps {
    match random.below(8) {
        0 => Stamps::Equal(near(time, random)),
        1..=3 => {
            let step = random.pick(&[1, 1, 2, 2_089, -1, -1, -3, -2_880]);
            let before = random.below(rows as u64 + 2) as i64 - 1;
            Stamps::Steps(near(time, random).wrapping_sub(step * before), step)
        }
        4..=5 => Stamps::Near,
        6 => Stamps::Ends,
        _ => Stamps::Any,
    }
}

/// One that counts, or one that does not.
fn mark(random: &mut Random) -> i64 {
    match random.below(2) {
        0 => 1,
        _ => random.pick(&OTHER_MARKS),
    }
}

/// The stamp of that row.
fn stamp(stamps: Stamps, n: usize, time: i64, random: &mut Random) -> i64 {
    match stamps {
        Stamps::Equal(stamp) => stamp,
        Stamps::Steps(first, step) => first.wrapping_add(step * n as i64),
        Stamps::Near => near(time, random),
        Stamps::Ends => random.pick(&ENDS),
        Stamps::Any => any(random),
    }
}

/// A number of another column: often one that would count as a mark or as a stamp.
fn other(time: i64, random: &mut Random) -> i64 {
    match random.below(4) {
        0 => 1,
        1 => near(time, random),
        2 => random.below(100_000) as i64,
        _ => any(random),
    }
}

/// A time: 0, about it, at an end, of any size.
pub fn time(random: &mut Random) -> i64 {
    match random.below(8) {
        0..=1 => random.pick(&ENDS),
        2..=4 => random.below(1_000_000) as i64,
        _ => any(random),
    }
}

/// The time, or a few ticks beside it; beyond an end of the numbers it is about the other.
fn near(time: i64, random: &mut Random) -> i64 {
    time.wrapping_add(random.below(5) as i64 - 2)
}

/// Numbers of every size and sign, not only the large ones that a plain random number gives.
fn any(random: &mut Random) -> i64 {
    random.word() as i64 >> random.below(64)
}
