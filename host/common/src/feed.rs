//! Runs a program on a standard input, which is handed over in one of several ways; and where what it
//! printed differs.

use crate::asking::piece;
use crate::random::Random;
use std::fs::{self, File};
use std::io::{self, Read, Write};
use std::process::{ChildStdin, Command, ExitStatus, Stdio};
use std::thread;
use std::time::Duration;

/// Where an input is put that the program reads from a file.
const INPUT_FILE: &str = "target/host/stream-input.bin";

/// So long the program gets to start, and then to read each small piece.
const START: Duration = Duration::from_millis(2);
const PAUSE: Duration = Duration::from_micros(300);

/// The ways of handing an input over.
#[derive(Clone, Copy)]
pub enum Feed {
    /// Through a pipe, at once.
    Whole,
    /// Through a pipe, in pieces of odd sizes.
    Pieces,
    /// Through a pipe, its start in small pieces with time to read each of them.
    Slowly,
    /// As a file.
    File,
}

impl Feed {
    pub fn name(self) -> &'static str {
        match self {
            Feed::Whole => "whole",
            Feed::Pieces => "in pieces",
            Feed::Slowly => "slowly",
            Feed::File => "as a file",
        }
    }

    pub fn by_chance(random: &mut Random) -> Feed {
        match random.below(16) {
            0..=5 => Feed::Whole,
            6..=10 => Feed::Pieces,
            11..=12 => Feed::Slowly,
            _ => Feed::File,
        }
    }
}

/// What a program printed, and how it ended.
pub struct Printed {
    pub text: Vec<u8>,
    pub status: ExitStatus,
}

/// Runs the program once.
pub fn run(command: &[String], input: &[u8], feed: Feed, seed: u64) -> io::Result<Printed> {
    let mut program = Command::new(&command[0]);
    program.args(&command[1..]).stdout(Stdio::piped());
    if let Feed::File = feed {
        fs::write(INPUT_FILE, input)?;
        program.stdin(File::open(INPUT_FILE)?);
    } else {
        program.stdin(Stdio::piped());
    }
    let mut child = program.spawn()?;
    let stdin = child.stdin.take();
    let mut stdout = child.stdout.take().expect("a pipe");
    let mut text = Vec::new();
    thread::scope(|scope| {
        // On a thread of its own: else each side could wait for the other to empty a full pipe. A
        // write that fails needs no report: a program may end before it has read everything.
        scope.spawn(move || stdin.map(|stdin| write(stdin, input, feed, Random::new(seed))));
        stdout.read_to_end(&mut text)
    })?;
    Ok(Printed { text, status: child.wait()? })
}

fn write(program: ChildStdin, input: &[u8], feed: Feed, random: Random) -> io::Result<()> {
    match feed {
        Feed::Whole | Feed::File => { program }.write_all(input),
        Feed::Pieces => in_pieces(program, input, random),
        Feed::Slowly => slowly(program, input, random),
    }
}

/// Most pieces small, some large.
fn in_pieces(mut program: ChildStdin, input: &[u8], mut random: Random) -> io::Result<()> {
    let mut rest = input;
    while !rest.is_empty() {
        let size = piece(12, &mut random);
        let (piece, later) = rest.split_at(size.min(rest.len()));
        program.write_all(piece)?;
        rest = later;
    }
    Ok(())
}

/// A few small pieces, so that reads bring less than was asked for, then the rest.
fn slowly(mut program: ChildStdin, input: &[u8], mut random: Random) -> io::Result<()> {
    thread::sleep(START);
    let mut rest = input;
    for _ in 0..random.below(12) {
        let size = random.pick(&[1, 1, 2, 3, 100, 1_000, 4_094, 4_095, 4_096, 4_097, 5_000]);
        let (piece, later) = rest.split_at(size.min(rest.len()));
        program.write_all(piece)?;
        thread::sleep(PAUSE);
        rest = later;
    }
    program.write_all(rest)
}

/// The first line that is not the one that `whose` has.
pub fn different_line(printed: &[u8], whose: &str, right: &[u8]) -> Option<String> {
    if printed == right {
        return None;
    }
    let mut ours = printed.split_inclusive(|byte| *byte == b'\n');
    let mut right = right.split_inclusive(|byte| *byte == b'\n');
    let lines = std::iter::repeat_with(|| (ours.next(), right.next()));
    let (n, (ours, right)) = (1..).zip(lines).find(|(_, (ours, right))| ours != right)?;
    let (ours, right) = (shown(ours), shown(right));
    Some(format!("line {n}: the program prints {ours}, {whose} {right}"))
}

/// A line with its line feed, shortened where it is too long for any sheet.
fn shown(line: Option<&[u8]>) -> String {
    match line {
        None => "nothing more".into(),
        Some(line) => format!("'{}'", line[..line.len().min(200)].escape_ascii()),
    }
}
