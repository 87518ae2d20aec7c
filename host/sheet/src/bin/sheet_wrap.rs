//! Runs a program on a little more than a hundred million frames, so that the numbers of its lines
//! begin anew, and compares its sheet with that of the module as requested. By hand: it takes some
//! minutes.

use common::asking::verdict;
use sheet::cases::F;
use sheet::requested::{model, text};
use std::error::Error;
use std::io::{self, BufRead, BufReader, BufWriter, Write};
use std::process::{Command, ExitCode, Stdio};
use std::thread;

const USAGE: &str = "usage: sheet_wrap PROGRAM [ARG..]";

/// Frames that are written at a time, and how often.
const FRAMES: usize = 10_000;
const TIMES: usize = 10_001;

/// How much of a sheet is held at a time.
const AT_ONCE: usize = 1 << 16;

fn main() -> ExitCode {
    let command: Vec<String> = std::env::args().skip(1).collect();
    if command.is_empty() {
        eprintln!("{USAGE}");
        return ExitCode::from(2);
    }
    verdict(compare(&command).map(|bytes| {
        println!("{} frames, {bytes} bytes of sheet: no difference", FRAMES * TIMES);
    }))
}

/// Both sheets are made at the same time, and neither is kept.
fn compare(command: &[String]) -> Result<u64, Box<dyn Error>> {
    let mut program = Command::new(&command[0]);
    program.args(&command[1..]).stdin(Stdio::piped()).stdout(Stdio::piped());
    let mut child = program.spawn()?;
    let stdin = child.stdin.take().expect("a pipe");
    let ours = BufReader::with_capacity(AT_ONCE, child.stdout.take().expect("a pipe"));
    let (model_input, to_model) = io::pipe()?;
    let (right, model_sheet) = io::pipe()?;
    let right = BufReader::with_capacity(AT_ONCE, right);
    // Where a thread cannot write on, the sheets differ: the other end was closed.
    thread::spawn(move || write(stdin));
    thread::spawn(move || write(to_model));
    thread::spawn(move || {
        let mut sheet = BufWriter::with_capacity(AT_ONCE, model_sheet);
        model::print(model_input, &mut sheet, text::line)?;
        sheet.flush()
    });
    let bytes = same(ours, right)?;
    match child.wait()? {
        status if status.success() => Ok(bytes),
        status => Err(format!("the program ends with {status}").into()),
    }
}

fn write(mut to: impl Write) -> io::Result<()> {
    let frames = F.repeat(FRAMES);
    to.write_all(b"2\n")?;
    (0..TIMES).try_for_each(|_| to.write_all(&frames))
}

/// How many bytes both have.
fn same(mut ours: impl BufRead, mut right: impl BufRead) -> Result<u64, Box<dyn Error>> {
    let mut place = 0;
    loop {
        let (a, b) = (ours.fill_buf()?, right.fill_buf()?);
        let len = a.len().min(b.len());
        if a[..len] != b[..len] || a.is_empty() != b.is_empty() {
            let line = place / 63 + 1;
            return Err(format!("at line {line} or some hundred lines behind it").into());
        }
        if len == 0 {
            return Ok(place);
        }
        place += len as u64;
        ours.consume(len);
        right.consume(len);
    }
}
