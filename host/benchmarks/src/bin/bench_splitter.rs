//! Gigabytes a second that a splitter's pushes go through: a Rattle program beside the Rust module,
//! over the same streams and payload sizes.
//!
//! The program reads a line `CODE SIZE ROUNDS` and then the stream up to the end of its input. ROUNDS
//! times it makes a new splitter, locked, and pushes the whole stream in payloads of SIZE bytes, the
//! last one shorter; the first has the number of the round as its timestamp, from 0 on, the others
//! none. It prints one line of six numbers: frames, output bytes and bytes discarded of all rounds,
//! bytes pending at the end, and, of all rounds modulo 2^64, the sum of all stamps and the sum of the
//! frames' last bytes, so that the copies are read. (With a constant timestamp a compiler may leave
//! out tests of times that the program of a caller with timestamps of its own has.)
//!
//! What is measured is the unchanged Rust module. Of one byte a payload its stamps are others than
//! those that request K7 asks for, since there a tail has the timestamp: a program's sums must be the
//! unchanged module's or those of the module as requested.

use benchmarks::{median, streams, Stream};
use common::asking::verdict;
use oracle::{answers, audio_frame, requested};
use std::error::Error;
use std::hint::black_box;
use std::io::{self, BufRead, Read, Write};
use std::process::{Command, ExitCode, Stdio};
use std::time::{Duration, Instant};

const USAGE: &str =
    "usage: bench_splitter [--only TEXT] [--before PROGRAM] [--peer PROGRAM] [PROGRAM]
       bench_splitter --program
  PROGRAM           the program to measure beside the Rust; without it the Rust alone
  --before PROGRAM  another such program beside both, as one of before a change
  --peer PROGRAM    one that reads the same and prints a line, whose sums are its own
  --only TEXT       lines whose stream or payload size has this text alone
  --program         is such a program itself, with the Rust's splitter";

/// Payload sizes, and how much of a stream is pushed: at one byte each, a part of it is enough.
const SIZES: [(usize, usize); 4] =
    [(65_535, usize::MAX), (4_096, usize::MAX), (184, usize::MAX), (1, 100_000)];

/// How often the programs are measured in turn, and the least time that a measurement should take.
/// What counts is the median: of the rates, and of the ratios of those measured in one turn.
const TURNS: usize = 15;
const LEAST: Duration = Duration::from_millis(60);

/// One line of the table: what is pushed in payloads of which size.
struct Row<'a> {
    name: &'static str,
    code: u32,
    bytes: &'a [u8],
    size: usize,
}

/// A program that is measured, and whether its sums must be the Rust's.
struct Program {
    title: &'static str,
    command: Vec<String>,
    as_rust: bool,
}

/// What the pushes of a number of rounds gave.
#[derive(Default, Clone, Copy, PartialEq)]
struct Sums {
    frames: u64,
    bytes: u64,
    discarded: u64,
    pending: u64,
    stamps: u64,
    last_bytes: u64,
}

fn main() -> ExitCode {
    let arguments: Vec<String> = std::env::args().skip(1).collect();
    if arguments == ["--program"] {
        return verdict(be_the_program());
    }
    match asked(arguments) {
        Some((programs, only)) => verdict(table(&programs, &only)),
        None => {
            eprintln!("{USAGE}");
            ExitCode::from(2)
        }
    }
}

/// The programs to measure, ours first, and the text that a line must have.
fn asked(arguments: Vec<String>) -> Option<(Vec<Program>, String)> {
    let this = std::env::current_exe().ok()?.to_string_lossy().into_owned();
    let rust = Program { title: "Rust", command: vec![this, "--program".into()], as_rust: true };
    let (mut programs, mut only) = (vec![rust], String::new());
    let mut words = arguments.into_iter();
    while let Some(word) = words.next() {
        match word.as_str() {
            "--only" => only = words.next()?,
            "--before" => programs.push(Program::new("before", words.next()?, true)),
            "--peer" => programs.push(Program::new("peer", words.next()?, false)),
            flag if flag.starts_with('-') => return None,
            _ => programs.insert(0, Program::new("ours", word, true)),
        }
    }
    Some((programs, only))
}

/// The table. Ratios are those of the first program to each of the others.
fn table(programs: &[Program], only: &str) -> Result<(), Box<dyn Error>> {
    println!("GB/s, and ratios of {} to the others: medians of {TURNS} turns", programs[0].title);
    print!("{:<18}{:>9}", "stream", "payload");
    programs.iter().for_each(|program| print!("{:>10}", program.title));
    programs[1..].iter().for_each(|program| print!("{:>10}", format!("/{}", program.title)));
    println!();
    for Stream { name, code, bytes } in streams() {
        for (size, most) in SIZES {
            if !format!("{name}, payload {size};").contains(only) {
                continue;
            }
            let row = Row { name, code, bytes: &bytes[..most.min(bytes.len())], size };
            println!("{name:<18}{size:>9}{}", measured(programs, &row)?);
        }
    }
    Ok(())
}

/// The line's numbers, as text.
fn measured(programs: &[Program], row: &Row) -> Result<String, Box<dyn Error>> {
    let expected =
        [push_all, push_all_as_requested].map(|all| all(row.code, row.bytes, row.size, 0));
    let more: Result<Vec<u64>, _> = programs.iter().map(|p| rounds(p, row, expected)).collect();
    let more = more?;
    let mut rates = vec![Vec::new(); programs.len()];
    for _ in 0..TURNS {
        // In turn, so that a change of the processor's clock or load meets all.
        for (i, program) in programs.iter().enumerate() {
            // Starting the program and reading the stream do not count.
            let few = run(program, row, 1, expected)?;
            let time = run(program, row, 1 + more[i], expected)?.saturating_sub(few);
            rates[i].push(row.bytes.len() as f64 * more[i] as f64 / time.as_secs_f64() / 1e9);
        }
    }
    let mut text = String::new();
    rates.iter().for_each(|of| text += &format!("{:>10.4}", median(of.clone())));
    for other in &rates[1..] {
        let ratios = rates[0].iter().zip(other).map(|(ours, other)| ours / other);
        text += &format!("{:>10.2}", median(ratios.collect()));
    }
    Ok(text)
}

/// So many rounds beside the first that they take long enough to be measured.
fn rounds(program: &Program, row: &Row, expected: [Sums; 2]) -> Result<u64, Box<dyn Error>> {
    let mut more = 1;
    loop {
        let few = run(program, row, 1, expected)?;
        if run(program, row, 1 + more, expected)?.saturating_sub(few) >= LEAST {
            return Ok(more);
        }
        more *= 2;
    }
}

impl Program {
    fn new(title: &'static str, name: String, as_rust: bool) -> Program {
        Program { title, command: vec![name], as_rust }
    }
}

/// Runs the program once. What it prints must be a module's sums of so many rounds.
fn run(
    program: &Program,
    row: &Row,
    rounds: u64,
    expected: [Sums; 2],
) -> Result<Duration, Box<dyn Error>> {
    let start = Instant::now();
    let mut command = Command::new(&program.command[0]);
    command.args(&program.command[1..]).stdin(Stdio::piped()).stdout(Stdio::piped());
    let mut child = command.spawn()?;
    let mut input = child.stdin.take().expect("a pipe");
    writeln!(input, "{} {} {rounds}", row.code, row.size)?;
    input.write_all(row.bytes)?;
    drop(input);
    let output = child.wait_with_output()?;
    let time = start.elapsed();
    let expected = expected.map(|first| first.of_rounds(rounds).line());
    let right = !program.as_rust || expected.iter().any(|e| output.stdout == e.as_bytes());
    if output.status.success() && right {
        return Ok(time);
    }
    let asked = format!("{}, payloads of {}, {rounds} rounds", row.name, row.size);
    let said = format!("'{}', {}", output.stdout.escape_ascii(), output.status);
    let [unchanged, requested] = expected.map(|line| line.trim_end().to_string());
    let rust = format!("the Rust '{unchanged}', as requested '{requested}'");
    Err(format!("{asked}: the program says {said}; {rust}").into())
}

impl Sums {
    /// Of so many rounds, the first of which has these: a round's stamps, which all frames have, are
    /// later by its number.
    fn of_rounds(self, rounds: u64) -> Sums {
        let numbers = rounds * (rounds - 1) / 2;
        Sums {
            frames: self.frames * rounds,
            bytes: self.bytes * rounds,
            discarded: self.discarded * rounds,
            pending: self.pending,
            stamps: self.stamps.wrapping_mul(rounds).wrapping_add(self.frames * numbers),
            last_bytes: self.last_bytes.wrapping_mul(rounds),
        }
    }

    fn line(self) -> String {
        let Sums { frames, bytes, discarded, pending, stamps, last_bytes } = self;
        format!("{frames} {bytes} {discarded} {pending} {stamps} {last_bytes}\n")
    }
}

/// One round of a module's splitter, as a function of that name.
macro_rules! one_round {
    ($name:ident, $answers:path, $module:path) => {
        fn $name(code: u32, stream: &[u8], size: usize, start: i64) -> Sums {
            use $answers as answers;
            use $module as module;
            let mut splitter = module::AudioFrameSplitter::from_parts(module::Parts {
                syntax: answers::syntax(code).expect("a code below 3"),
                residual: Vec::new(),
                residual_pts: None,
                anchor: None,
                discarded: 0,
                locked: true,
            });
            let mut sums = Sums::default();
            let mut pts = Some(start);
            for payload in stream.chunks(size) {
                for frame in splitter.push(payload, pts.take()) {
                    sums.frames += 1;
                    sums.bytes += frame.data.len() as u64;
                    sums.stamps = sums.stamps.wrapping_add(frame.pts.unwrap_or(0) as u64);
                    sums.last_bytes += u64::from(frame.data.last().copied().unwrap_or(0));
                }
            }
            sums.discarded = splitter.discarded_bytes();
            sums.pending = splitter.pending_bytes() as u64;
            sums
        }
    };
}

one_round!(push_all, answers, audio_frame);
one_round!(push_all_as_requested, requested::answers, requested::audio_frame);

/// What a program that is measured must do, done with the Rust.
fn be_the_program() -> Result<(), Box<dyn Error>> {
    let (mut line, mut stream) = (String::new(), Vec::new());
    let mut input = io::stdin().lock();
    input.read_line(&mut line)?;
    input.read_to_end(&mut stream)?;
    let numbers: Result<Vec<u64>, _> = line.split_whitespace().map(str::parse).collect();
    let [code, size, rounds] = numbers?.try_into().map_err(|_| "not three numbers")?;
    let mut sums = Sums::default();
    for number in 0..rounds {
        let round = push_all(code as u32, black_box(&stream), size as usize, number as i64);
        sums.frames += round.frames;
        sums.bytes += round.bytes;
        sums.discarded += round.discarded;
        sums.pending = round.pending;
        sums.stamps = sums.stamps.wrapping_add(round.stamps);
        sums.last_bytes = sums.last_bytes.wrapping_add(round.last_bytes);
    }
    print!("{}", sums.line());
    Ok(())
}
