//! What the program `cuelines` must print: for each time the line of the cut sheet that it finds, and
//! then the sheet's last line. The rows are taken back from the sheet.

// By `super`: it is compiled over wrong texts too, in host/selftests/cues.
use super::cue::{cue, MARK, STAMP, WIDTH};
use super::line::numbers;
use sheet::requested::{model, text};
use std::io::{self, Read, Write};

/// The most times that a first line may give.
pub const MOST_TIMES: usize = 32;

/// The most bytes of a first line, its line feed not counted.
pub const LONGEST: usize = 700;

/// How long a frame's line is.
pub const LINE: usize = 63;

/// A cut sheet: the lines of its frames, their rows, and its last line.
pub struct Sheet<'a> {
    pub lines: Vec<&'a [u8]>,
    pub rows: Vec<i64>,
    pub end: &'a [u8],
}

impl<'a> Sheet<'a> {
    pub fn of(text: &'a [u8]) -> Sheet<'a> {
        // The last line is shorter than a frame's.
        let (frames, end) = text.split_at(text.len() / LINE * LINE);
        let lines: Vec<&[u8]> = frames.chunks(LINE).collect();
        let rows = lines.iter().flat_map(|line| row(line).expect("a line of eight columns"));
        Sheet { rows: rows.collect(), lines, end }
    }

    /// What is printed for these times.
    pub fn printed(&self, times: &[i64]) -> Vec<u8> {
        let mut text = Vec::new();
        for &time in times {
            match cue(&self.rows, time).expect("whole rows") {
                Some(place) => text.extend(self.lines[place]),
                None => text.extend(none()),
            }
        }
        text.extend(self.end);
        text
    }
}

/// The line for a time at which no frame sounds, as long as a frame's.
fn none() -> Vec<u8> {
    format!("{:>1$}\n", "none", LINE - 1).into()
}

/// The row from which a frame's line was printed: number, length, kind, samples, rate, channels, bit
/// rate and stamp, the last two perhaps a minus sign.
fn row(line: &[u8]) -> Option<[i64; WIDTH]> {
    let mut columns = std::str::from_utf8(line).ok()?.split_whitespace().skip(1);
    let mut row = [0; WIDTH];
    for number in &mut row[..MARK] {
        *number = match columns.next()? {
            "-" => 0,
            column => column.parse().ok()?,
        };
    }
    if let Ok(stamp) = columns.next()?.parse() {
        (row[MARK], row[STAMP]) = (1, stamp);
    }
    Some(row)
}

/// The cut sheet of a stream under that code, over the module as requested.
pub fn sheet(code: u8, stream: &[u8], sheet: &mut impl Write) -> io::Result<()> {
    model::print([code, b'\n'].chain(stream), sheet, text::line)
}

/// Prints what belongs to a standard input, as the program does. Where a read fails, that is nothing.
pub fn print(mut input: impl Read, found: &mut impl Write) -> io::Result<()> {
    let mut bytes = Vec::new();
    input.read_to_end(&mut bytes)?;
    let Some((code, times, stream)) = asked(&bytes) else {
        return found.write_all(b"?\n");
    };
    let mut text = Vec::new();
    sheet(code, stream, &mut text)?;
    found.write_all(&Sheet::of(&text).printed(&times))
}

/// What the program prints for an input in memory.
pub fn printed(input: &[u8]) -> Vec<u8> {
    let mut text = Vec::new();
    print(input, &mut text).expect("nothing is read or written but memory");
    text
}

/// Code, times and stream of a standard input; `None` where its first line is malformed.
fn asked(input: &[u8]) -> Option<(u8, Vec<i64>, &[u8])> {
    let end = input.iter().position(|byte| *byte == b'\n')?;
    let (line, stream) = (&input[..end], &input[end + 1..]);
    let [code @ b'0'..=b'2', b' ', times @ ..] = line else {
        return None;
    };
    let times = numbers(times)?;
    (line.len() <= LONGEST && times.len() <= MOST_TIMES).then_some((*code, times, stream))
}
