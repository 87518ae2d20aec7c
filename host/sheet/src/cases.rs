//! Lines and sheets spelled out by hand, from document 01's example and its corners. They hold the
//! text functions to what no stream of a run shows, such as the hundred-millionth line.

use super::audio_frame::{AudioFrameSplitter, AudioSyntax};
use super::model::{self, Line};
use super::{text, AS_REQUESTED};
use std::error::Error;

/// Document 01's frame F.
pub const F: [u8; 7] = [0xFF, 0xF1, 0x50, 0x80, 0x00, 0xE0, 0x00];

/// A line's number, the stamp of F, and the line.
const LINES: [(u64, Option<i64>, &str); 13] = [
    (1, Some(0), "       1     7  6  1024  44100  2       -                    0\n"),
    (9, Some(-1), "       9     7  6  1024  44100  2       -                   -1\n"),
    (10, Some(-1_000), "      10     7  6  1024  44100  2       -                -1000\n"),
    (9_999_999, None, " 9999999     7  6  1024  44100  2       -                    -\n"),
    (10_000_000, None, "10000000     7  6  1024  44100  2       -                    -\n"),
    (99_999_999, Some(9), "99999999     7  6  1024  44100  2       -                    9\n"),
    (100_000_000, Some(10), "       0     7  6  1024  44100  2       -                   10\n"),
    (100_000_001, Some(11), "       1     7  6  1024  44100  2       -                   11\n"),
    (110_000_000, None, "10000000     7  6  1024  44100  2       -                    -\n"),
    (1_234_567_890, None, "34567890     7  6  1024  44100  2       -                    -\n"),
    (4_294_967_296, None, "94967296     7  6  1024  44100  2       -                    -\n"),
    (2, Some(i64::MAX), "       2     7  6  1024  44100  2       -  9223372036854775807\n"),
    (3, Some(i64::MIN), "       3     7  6  1024  44100  2       - -9223372036854775808\n"),
];

/// Bytes discarded, bytes pending, and the last line.
const ENDS: [(u64, usize, &str); 4] = [
    (0, 0, "E                    0     0\n"),
    (8, 6, "E                    8     6\n"),
    (4_294_967_296, 8_190, "E           4294967296  8190\n"),
    (u64::MAX, 12_345, "E 18446744073709551615 12345\n"),
];

/// An input by its parts, each so many times.
type Parts = &'static [(&'static [u8], usize)];

/// An input, and what is printed for it.
type Sheet = (Parts, &'static str);

/// An input, what the unchanged module prints for it, and what is printed now.
type Changed = (Parts, &'static str, &'static str);

/// Document 01's example, then its corners with the timestamp 0, then first lines.
const SHEETS: [Sheet; 26] = [
    (
        &[(b"2\n", 1), (&F, 2)],
        "       1     7  6  1024  44100  2       -                    0
       2     7  6  1024  44100  2       -                 2089
E                    0     0
",
    ),
    // S1 to S5.
    (
        &[(b"2\n", 1), (&F, 3)],
        "       1     7  6  1024  44100  2       -                    0
       2     7  6  1024  44100  2       -                 2089
       3     7  6  1024  44100  2       -                 4179
E                    0     0
",
    ),
    (&[(b"2\n", 1), (b"\0", 1), (&F, 1)], "E                    0     0\n"),
    (&[(b"2\n", 1), (&F, 1), (b"\0", 7)], "E                    8     6\n"),
    (
        &[(b"2\n", 1), (&F, 1), (b"\0", 6)],
        "       1     7  6  1024  44100  2       -                    0
E                    0     6
",
    ),
    (
        &[(b"2\n", 1), (&F, 1), (b"\xFF\xF1\x50\x80\x00\xE0", 1)],
        "       1     7  6  1024  44100  2       -                    0
E                    0     6
",
    ),
    // S7 without its flush.
    (&[(b"0\n\x0B\x77\0\0\x3F\x80", 1)], "E                    0     6\n"),
    // The first payload is not taken: the timestamp goes with it, and the second is taken.
    (
        &[(b"2\n", 1), (b"\0", 4_096), (&F, 2)],
        "       1     7  6  1024  44100  2       -                    -
       2     7  6  1024  44100  2       -                    -
E                    0     0
",
    ),
    // The same with one byte less: the second payload is not taken either.
    (&[(b"2\n", 1), (b"\0", 4_095), (&F, 2)], "E                    0     0\n"),
    // H1, H3, H5, H6, H7, H8, H9, and a frame of Layer II.
    (
        &[(b"0\n\x0B\x77\0\0\0\x40\x40", 1), (b"\0", 121)],
        "       1   128  1  1536  48000  2   32000                    0
E                    0     0
",
    ),
    (
        &[(b"0\n", 1), (b"\x0B\x77\0\x03\x3F\x80\0\0", 2)],
        "       1     8  2  1536  48000  6       -                    0
       2     8  2  1536  48000  6       -                 2880
E                    0     0
",
    ),
    (
        &[(b"1\n\xFF\xFB\x90\xC0", 1), (b"\0", 413)],
        "       1   417  5  1152  44100  1  128000                    0
E                    0     0
",
    ),
    (
        &[(b"1\n\xFF\xF3\x14\0", 1), (b"\0", 20)],
        "       1    24  5   576  24000  2    8000                    0
E                    0     0
",
    ),
    (
        &[(b"1\n\xFF\xFF\x14\0", 1), (b"\0", 28)],
        "       1    32  3   384  48000  2   32000                    0
E                    0     0
",
    ),
    (
        &[(b"2\n\xFF\xF0\x50\x80\x01\x20\0", 1), (b"\0", 2)],
        "       1     9  6  1024  44100  2       -                    0
E                    0     0
",
    ),
    // With CRC and one further block: 11 bytes, all of them head.
    (
        &[(b"2\n\xFF\xF0\x50\x80\x01\x60\x01", 1), (b"\0", 4)],
        "       1    11  6  2048  44100  2       -                    0
E                    0     0
",
    ),
    (
        &[(b"2\n\xFF\xF1\x50\x83\xFF\xE0\0", 1), (b"\0", 8_184)],
        "       1  8191  6  1024  44100  2       -                    0
E                    0     0
",
    ),
    (
        &[(b"1\n\xFF\xFD\x14\0", 1), (b"\0", 92)],
        "       1    96  4  1152  48000  2   32000                    0
E                    0     0
",
    ),
    // No stream.
    (&[(b"0\n", 1)], "E                    0     0\n"),
    (&[(b"1\n", 1)], "E                    0     0\n"),
    (&[(b"2\n", 1)], "E                    0     0\n"),
    // Other first lines.
    (&[], "?\n"),
    (&[(b"2", 1)], "?\n"),
    (&[(b"3\n", 1), (&F, 2)], "?\n"),
    (&[(b"2\r\n", 1), (&F, 2)], "?\n"),
    (&[(b"02\n", 1), (&F, 2)], "?\n"),
];

/// With CRC and one further block, 9 bytes by its head. The Rust gives it; by request K3 it is no
/// frame, since its head would have 11.
pub const X: [u8; 9] = [0xFF, 0xF0, 0x50, 0x80, 0x01, 0x20, 0x01, 0x00, 0x00];

/// E-AC-3 frames of 8 bytes: of stream type 0, and of type 3, the top two bits of byte 2. The Rust
/// gives both; by request K6 the second is no frame.
pub const G: [u8; 8] = [0x0B, 0x77, 0x00, 0x03, 0x3F, 0x80, 0x00, 0x00];
pub const T: [u8; 8] = [0x0B, 0x77, 0xC0, 0x03, 0x3F, 0x80, 0x00, 0x00];

/// Frames of F's length: 1024 samples at 48000 Hz, 1920 ticks; at 8000 Hz, 11520 ticks; 2048 at 44100
/// Hz, floor(k × 4179.59..) ticks.
pub const H: [u8; 7] = [0xFF, 0xF1, 0x4C, 0x80, 0x00, 0xE0, 0x00];
pub const B: [u8; 7] = [0xFF, 0xF1, 0x6C, 0x80, 0x00, 0xE0, 0x00];
pub const Y: [u8; 7] = [0xFF, 0xF1, 0x50, 0x80, 0x00, 0xE0, 0x01];

/// X alone: it is not taken now. F X F F: F was given, since X behind it read; now its seven bytes
/// are lost, and X's nine, and the next frame has the timestamp. F 00 X F F: F was lost before too,
/// and the zero byte; now X's nine as well. T alone; G T G G, in which G and T are lost, and the
/// next frame has the timestamp; G G T, where the second G is lost, and one byte of T.
///
/// K7: B B F F, where the Rust's stamps jump back; F F H H Y Y, where each track goes on from the stamp
/// of its first frame, which is still by the track before.
const CHANGED: [Changed; 8] = [
    (
        &[(b"2\n", 1), (&X, 1)],
        "       1     9  6  2048  44100  2       -                    0
E                    0     0
",
        "E                    0     0\n",
    ),
    (
        &[(b"2\n", 1), (&F, 1), (&X, 1), (&F, 2)],
        "       1     7  6  1024  44100  2       -                    0
       2     9  6  2048  44100  2       -                 4179
       3     7  6  1024  44100  2       -                 4179
       4     7  6  1024  44100  2       -                 6269
E                    0     0
",
        "       1     7  6  1024  44100  2       -                    0
       2     7  6  1024  44100  2       -                 2089
E                   16     0
",
    ),
    (
        &[(b"2\n", 1), (&F, 1), (b"\0", 1), (&X, 1), (&F, 2)],
        "       1     9  6  2048  44100  2       -                    0
       2     7  6  1024  44100  2       -                 2089
       3     7  6  1024  44100  2       -                 4179
E                    8     0
",
        "       1     7  6  1024  44100  2       -                    0
       2     7  6  1024  44100  2       -                 2089
E                   17     0
",
    ),
    (
        &[(b"0\n", 1), (&T, 1)],
        "       1     8  2  1536  48000  6       -                    0
E                    0     0
",
        "E                    0     0\n",
    ),
    (
        &[(b"0\n", 1), (&G, 1), (&T, 1), (&G, 2)],
        "       1     8  2  1536  48000  6       -                    0
       2     8  2  1536  48000  6       -                 2880
       3     8  2  1536  48000  6       -                 5760
       4     8  2  1536  48000  6       -                 8640
E                    0     0
",
        "       1     8  2  1536  48000  6       -                    0
       2     8  2  1536  48000  6       -                 2880
E                   16     0
",
    ),
    (
        &[(b"0\n", 1), (&G, 2), (&T, 1)],
        "       1     8  2  1536  48000  6       -                    0
       2     8  2  1536  48000  6       -                 2880
       3     8  2  1536  48000  6       -                 5760
E                    0     0
",
        "       1     8  2  1536  48000  6       -                    0
E                    9     7
",
    ),
    (
        &[(b"2\n", 1), (&B, 2), (&F, 2)],
        "       1     7  6  1024   8000  2       -                    0
       2     7  6  1024   8000  2       -                11520
       3     7  6  1024  44100  2       -                 4179
       4     7  6  1024  44100  2       -                 6269
E                    0     0
",
        "       1     7  6  1024   8000  2       -                    0
       2     7  6  1024   8000  2       -                11520
       3     7  6  1024  44100  2       -                23040
       4     7  6  1024  44100  2       -                25129
E                    0     0
",
    ),
    (
        &[(b"2\n", 1), (&F, 2), (&H, 2), (&Y, 2)],
        "       1     7  6  1024  44100  2       -                    0
       2     7  6  1024  44100  2       -                 2089
       3     7  6  1024  48000  2       -                 3840
       4     7  6  1024  48000  2       -                 5760
       5     7  6  2048  44100  2       -                16718
       6     7  6  2048  44100  2       -                20897
E                    0     0
",
        "       1     7  6  1024  44100  2       -                    0
       2     7  6  1024  44100  2       -                 2089
       3     7  6  1024  48000  2       -                 4179
       4     7  6  1024  48000  2       -                 6099
       5     7  6  2048  44100  2       -                 8019
       6     7  6  2048  44100  2       -                12198
E                    0     0
",
    ),
];

/// The inputs of all spelled sheets, with the sheets by this module.
pub fn sheets() -> impl Iterator<Item = (Vec<u8>, &'static str)> {
    let input =
        |parts: Parts| parts.iter().flat_map(|(bytes, times)| bytes.repeat(*times)).collect();
    let changed = |(parts, before, now)| (parts, if AS_REQUESTED { now } else { before });
    let all = SHEETS.into_iter().chain(CHANGED.map(changed));
    all.map(move |(parts, sheet)| (input(parts), sheet))
}

/// Holds a writer of frames' lines, the last line and the model to everything that is spelled out.
pub fn check(line: Line) -> Result<(), Box<dyn Error>> {
    let mut splitter = AudioFrameSplitter::new(AudioSyntax::AacAdts);
    let mut frame = splitter.push(&F, None).pop().ok_or("F is no frame")?;
    for (number, stamp, spelled) in LINES {
        frame.pts = stamp;
        let mut text = String::new();
        line(&mut text, number, &frame)?;
        same(&text, spelled, &format!("line {number}, stamp {stamp:?}"))?;
    }
    for (discarded, pending, spelled) in ENDS {
        let mut text = String::new();
        text::end_line(&mut text, discarded, pending)?;
        same(&text, spelled, &format!("last line, {discarded} and {pending}"))?;
    }
    for (n, (input, spelled)) in (1..).zip(sheets()) {
        let mut text = Vec::new();
        model::print(&input[..], &mut text, line)?;
        same(&String::from_utf8(text)?, spelled, &format!("sheet {n}"))?;
    }
    Ok(())
}

fn same(text: &str, spelled: &str, what: &str) -> Result<(), String> {
    match text == spelled {
        true => Ok(()),
        false => Err(format!("{what}: the model says {text:?}, spelled out is {spelled:?}")),
    }
}
