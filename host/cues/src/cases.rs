//! Cues worked out by hand.

use super::cue::{Answer, MARK, STAMP, WIDTH};
use sheet::requested::cases::{F, X};

/// The least and the largest number.
const MIN: i64 = i64::MIN;
const MAX: i64 = i64::MAX;

pub struct Case {
    pub name: String,
    pub rows: Vec<i64>,
    pub time: i64,
    pub says: Answer,
}

/// A name, rows by mark and stamp, a time, and the place.
type Whole = (&'static str, &'static [(i64, i64)], i64, Option<usize>);

#[rustfmt::skip]
const WHOLE: [Whole; 50] = [
    ("no rows", &[], 0, None),
    ("no rows, the latest time", &[], MAX, None),
    ("at the stamp", &[(1, 0)], 0, Some(0)),
    ("one before the stamp", &[(1, 0)], -1, None),
    ("one behind the stamp", &[(1, 0)], 1, Some(0)),
    // The frames of document 01's S1, at 0, 2089 and 4179.
    ("rising, before the first", &[(1, 0), (1, 2_089), (1, 4_179)], -1, None),
    ("rising, at the first", &[(1, 0), (1, 2_089), (1, 4_179)], 0, Some(0)),
    ("rising, one before the second", &[(1, 0), (1, 2_089), (1, 4_179)], 2_088, Some(0)),
    ("rising, at the second", &[(1, 0), (1, 2_089), (1, 4_179)], 2_089, Some(1)),
    ("rising, one before the third", &[(1, 0), (1, 2_089), (1, 4_179)], 4_178, Some(1)),
    ("rising, at the third", &[(1, 0), (1, 2_089), (1, 4_179)], 4_179, Some(2)),
    ("rising, behind the third", &[(1, 0), (1, 2_089), (1, 4_179)], 90_000, Some(2)),
    ("equal stamps, at them", &[(1, 5), (1, 5), (1, 5)], 5, Some(2)),
    ("equal stamps, before them", &[(1, 5), (1, 5), (1, 5)], 4, None),
    ("two equal stamps before a later one", &[(1, 0), (1, 5), (1, 5), (1, 9)], 5, Some(2)),
    // The last row in the list, and not the one with the latest stamp.
    ("falling, all count", &[(1, 30), (1, 20), (1, 10)], 30, Some(2)),
    ("falling, the last alone counts", &[(1, 30), (1, 20), (1, 10)], 10, Some(2)),
    ("falling, none counts", &[(1, 30), (1, 20), (1, 10)], 9, None),
    ("down and up again", &[(1, 0), (1, 90), (1, 40), (1, 60)], 50, Some(2)),
    ("down and up again, later", &[(1, 0), (1, 90), (1, 40), (1, 60)], 89, Some(3)),
    ("up, and down below the time", &[(1, 0), (1, 90), (1, 40)], 50, Some(2)),
    ("the latest stamp in the middle", &[(1, 1), (1, 3), (1, 2)], 3, Some(2)),
    ("the latest stamp first", &[(1, 3), (1, 1), (1, 2)], 3, Some(2)),
    ("later ones behind the row", &[(1, 1), (1, 9), (1, 8), (1, 7)], 6, Some(0)),
    ("later ones before the row", &[(1, 9), (1, 8), (1, 7), (1, 1)], 6, Some(3)),
    ("mark 0", &[(0, 0)], 0, None),
    ("mark -1", &[(-1, 0)], 0, None),
    ("mark 2", &[(2, 0)], 0, None),
    ("mark 3", &[(3, 0)], 0, None),
    ("mark 257", &[(257, 0)], 0, None),
    ("mark 2^32 + 1", &[((1 << 32) + 1, 0)], 0, None),
    ("mark of the least number", &[(MIN, 0)], 0, None),
    ("mark of the largest number", &[(MAX, 0)], 0, None),
    ("mark 1 before other marks", &[(1, 0), (0, 0), (2, 0), (-1, 0)], 0, Some(0)),
    ("mark 1 behind other marks", &[(0, 0), (2, 0), (-1, 0), (1, 0)], 0, Some(3)),
    ("mark 1 between other marks", &[(2, 0), (1, 0), (2, 0)], 7, Some(1)),
    ("other marks alone", &[(0, 0), (2, 0), (-1, 0)], MAX, None),
    ("the largest time", &[(1, MAX)], MAX, Some(0)),
    ("one before the largest stamp", &[(1, MAX)], MAX - 1, None),
    ("the least time", &[(1, MIN)], MIN, Some(0)),
    ("one before no stamp", &[(1, MIN + 1)], MIN, None),
    ("one behind the least stamp", &[(1, MIN)], MIN + 1, Some(0)),
    ("the least stamp, the largest time", &[(1, MIN)], MAX, Some(0)),
    ("the largest stamp, the least time", &[(1, MAX)], MIN, None),
    ("the ends of the numbers, at the least", &[(1, MIN), (1, MAX)], MIN, Some(0)),
    ("the ends of the numbers, at the largest", &[(1, MAX), (1, MIN)], MAX, Some(1)),
    ("stamps below 0", &[(1, -20), (1, -10), (1, 0)], -10, Some(1)),
    ("stamps beyond 32 bits", &[(1, 1 << 32), (1, 3), (1, (1 << 32) + 4)], (1 << 32) + 3, Some(1)),
    ("a stamp whose low 32 bits are small", &[(1, 1 << 32)], 5, None),
    ("a time whose low 32 bits are small", &[(1, 6)], 1 << 32, Some(0)),
];

/// A frame like document 01's F that has four blocks, and so is four times as long in time.
pub const G: [u8; 7] = [0xFF, 0xF1, 0x50, 0x80, 0x00, 0xE0, 0x03];

/// A first line, a stream by its parts, each so many times, and what the program `cuelines` prints.
type Printed = (&'static str, &'static [(&'static [u8], usize)], &'static str);

const PRINTED: [Printed; 10] = [
    (
        "2 0 2088 2089 -1",
        &[(&F, 2)],
        "       1     7  6  1024  44100  2       -                    0
       1     7  6  1024  44100  2       -                    0
       2     7  6  1024  44100  2       -                 2089
                                                          none
E                    0     0
",
    ),
    // No stream, and streams without a frame or without a stamp.
    (
        "2 5",
        &[],
        "                                                          none
E                    0     0
",
    ),
    (
        "2 0 9223372036854775807",
        &[(b"\0", 1), (&F, 1)],
        "                                                          none
                                                          none
E                    0     0
",
    ),
    (
        "2 0 -9223372036854775808 9223372036854775807",
        &[(b"\0", 4_096), (&F, 2)],
        "                                                          none
                                                          none
                                                          none
E                    0     0
",
    ),
    // Bytes pending, and bytes lost.
    (
        "2 0",
        &[(&F, 1), (b"\0", 6)],
        "       1     7  6  1024  44100  2       -                    0
E                    0     6
",
    ),
    (
        "2 9 9",
        &[(&F, 1), (b"\0", 7)],
        "                                                          none
                                                          none
E                    8     6
",
    ),
    (
        "2 2089 2088 5000 -1",
        &[(&F, 1), (&X, 1), (&F, 2)],
        "       2     7  6  1024  44100  2       -                 2089
       1     7  6  1024  44100  2       -                    0
       2     7  6  1024  44100  2       -                 2089
                                                          none
E                   16     0
",
    ),
    (
        "0 2880 2879",
        &[(b"\x0B\x77\0\x03\x3F\x80\0\0", 2)],
        "       2     8  2  1536  48000  6       -                 2880
       1     8  2  1536  48000  6       -                    0
E                    0     0
",
    ),
    // Each frame is stamped by the geometry of the one before, and then counted from (K7). G is four
    // times as long as F, 8359 ticks: the stamps are 0, 2089, 2089 + 8359 and 10448 + 2089.
    (
        "2 -1 0 2088 2089 10447 10448 12536 12537",
        &[(&F, 1), (&G, 1), (&F, 1), (&G, 1)],
        "                                                          none
       1     7  6  1024  44100  2       -                    0
       1     7  6  1024  44100  2       -                    0
       2     7  6  4096  44100  2       -                 2089
       2     7  6  4096  44100  2       -                 2089
       3     7  6  1024  44100  2       -                10448
       3     7  6  1024  44100  2       -                10448
       4     7  6  4096  44100  2       -                12537
E                    0     0
",
    ),
    // Three payloads.
    (
        "2 2087706 2087705 0 9223372036854775807",
        &[(&F, 1_200)],
        "    1000     7  6  1024  44100  2       -              2087706
     999     7  6  1024  44100  2       -              2085616
       1     7  6  1024  44100  2       -                    0
    1200     7  6  1024  44100  2       -              2505665
E                    0     0
",
    ),
];

/// Every case: these, lists of each length up to 20 whose rows all count, and rows in which another
/// number is the mark or the stamp of one that counts.
pub fn all() -> Vec<Case> {
    let whole = WHOLE.map(|(name, rows, time, place)| Case {
        name: name.into(),
        rows: rows.iter().flat_map(|(mark, stamp)| row(*mark, *stamp)).collect(),
        time,
        says: Ok(place),
    });
    whole.into_iter().chain((0..=20).map(of_length)).chain(other_columns()).collect()
}

/// So many numbers of rows that all count: before it looks at any of them, 14 refuses all lengths but
/// those of none, one and two rows.
fn of_length(len: usize) -> Case {
    let says = match len {
        0 => Ok(None),
        8 => Ok(Some(0)),
        16 => Ok(Some(1)),
        _ => Err(14),
    };
    Case {
        name: format!("{len} numbers"),
        rows: row(1, 0).repeat(3)[..len].to_vec(),
        time: 0,
        says,
    }
}

/// One of the first six numbers is 1, and the mark is 0; or it is 5, the time, before the stamp 6 or
/// behind the stamp 4.
fn other_columns() -> impl Iterator<Item = Case> {
    let with = |place: usize, number, mark, stamp| {
        let mut rows = row(mark, stamp);
        rows[place] = number;
        rows.to_vec()
    };
    (0..MARK).flat_map(move |place| {
        [(1, 0, 5, None), (5, 1, 6, None), (5, 1, 4, Some(0)), (6, 1, 5, Some(0))].map(
            |(number, mark, stamp, says)| Case {
                name: format!("number {place} is {number}, mark {mark}, stamp {stamp}"),
                rows: with(place, number, mark, stamp),
                time: 5,
                says: Ok(says),
            },
        )
    })
}

/// The row of document 01's frame F with that mark and stamp.
pub fn row(mark: i64, stamp: i64) -> [i64; WIDTH] {
    let mut row = [0; WIDTH];
    row[..MARK].copy_from_slice(&[7, 6, 1_024, 44_100, 2, 0]);
    [row[MARK], row[STAMP]] = [mark, stamp];
    row
}

/// Holds a definition to all of them.
pub fn check(cue: impl Fn(&[i64], i64) -> Answer) -> Result<(), String> {
    for Case { name, rows, time, says } in all() {
        let found = cue(&rows, time);
        if found != says {
            return Err(format!("{name}: by hand {says:?}, and not {found:?}"));
        }
    }
    Ok(())
}

/// The first lines, streams and printed lines that are spelled out.
pub fn printed() -> impl Iterator<Item = (&'static str, Vec<u8>, &'static str)> {
    PRINTED.into_iter().map(|(first_line, parts, printed)| {
        let stream = parts.iter().flat_map(|(part, times)| part.repeat(*times));
        (first_line, stream.collect(), printed)
    })
}

/// Holds a program's lines to all that is spelled out.
pub fn check_printed(print: impl Fn(&[u8]) -> Vec<u8>) -> Result<(), String> {
    for (first_line, stream, spelled) in printed() {
        let found = print(&[first_line.as_bytes(), b"\n", &stream].concat());
        if found != spelled.as_bytes() {
            let found = found.escape_ascii();
            return Err(format!("'{first_line}': spelled out {spelled:?}, and not '{found}'"));
        }
    }
    Ok(())
}
