//! Asks the program `head` many lines of every kind over pipes, and compares each answer with the
//! references: the Rust module as requested, inside the domain of equality the unchanged one too, the
//! number table, the second definition of a skip. It stops with status 1 at the first difference, or
//! where a kind of line never came.

mod malformed;
mod questions;
mod tally;

use common::asking::{self, Pieces};
use common::counts::Counts;
use common::random::Random;
use heads::cases;
use oracle::domain;
use questions::{Question, Questions};
use std::error::Error;
use std::io::{self, BufRead, Write};
use std::process::{Child, Command, ExitCode};
use std::time::Instant;

const USAGE: &str = "usage: replay [--lines N] [--seed S] [--quick] [PROGRAM]
  --lines N   lines to ask (default 1500000)
  --seed S    seed of everything random (default 1)
  --quick     few lines, for the self-test
  PROGRAM     the program to ask (default target/bin/head)";

struct Options {
    lines: u64,
    seed: u64,
    program: String,
}

fn main() -> ExitCode {
    let Some(options) = options(std::env::args().skip(1)) else {
        eprintln!("{USAGE}");
        return ExitCode::from(2);
    };
    if let Err(what) = domain::cases::check().and_then(|()| cases::check_head_lengths()) {
        return asking::verdict(Err(what));
    }
    match asking::start(&mut Command::new(&options.program)) {
        Ok(program) => asking::verdict(replay(program, &options)),
        Err(error) => {
            eprintln!("replay: {}: {error}", options.program);
            ExitCode::from(2)
        }
    }
}

/// Asks everything, and prints the counts.
fn replay(mut program: Child, options: &Options) -> Result<(), Box<dyn Error>> {
    let start = Instant::now();
    println!("seed {}", options.seed);
    let counts = asking::converse(
        &mut program,
        |questions| ask(questions, options),
        |answers| compare(answers, options),
    )?;
    let unseen = counts.unseen();
    if !unseen.is_empty() {
        return Err(format!("never came: {}", unseen.join(", ")).into());
    }
    let seconds = start.elapsed().as_secs_f64();
    println!("{counts}total: {} lines ({seconds:.1} s)", options.lines);
    Ok(())
}

/// Writes all questions. No line feed closes the last one.
fn ask(program: impl Write, options: &Options) -> io::Result<()> {
    let mut pieces = Pieces::new(program, 16, Random::new(options.seed));
    for (n, question) in Questions::new(options.seed, options.lines).enumerate() {
        if n > 0 {
            pieces.hold(b"\n");
        }
        pieces.hold(&question.text);
        pieces.write()?;
    }
    pieces.end()
}

/// Makes the same questions again, and holds each answer to the one that is expected.
fn compare(mut answers: impl BufRead, options: &Options) -> Result<Counts, Box<dyn Error>> {
    let mut counts = tally::none();
    let mut answer = Vec::new();
    for (n, question) in (1..).zip(Questions::new(options.seed, options.lines)) {
        let expected = question.line.answer().map_err(|what| at(n, &question, &what))?;
        answer.clear();
        answers.read_until(b'\n', &mut answer)?;
        if answer.strip_suffix(b"\n") != Some(expected.text.as_bytes()) {
            return Err(wrong_answer(n, &question, &answer, &expected.text).into());
        }
        tally::count(&mut counts, &question.line, &expected);
    }
    asking::no_more(answers)?;
    Ok(counts)
}

fn wrong_answer(n: u64, question: &Question, answer: &[u8], expected: &str) -> String {
    let program = match answer {
        [] => "gives no more answers".into(),
        _ => format!("answers '{}'", answer.escape_ascii()),
    };
    at(n, question, &format!("the program {program}, expected '{expected}\\n'"))
}

/// What is wrong at a line, with the line.
fn at(n: u64, question: &Question, what: &str) -> String {
    format!("line {n}, '{}': {what}", question.text.escape_ascii())
}

/// The options, or `None` where an argument is not understood.
fn options(mut arguments: impl Iterator<Item = String>) -> Option<Options> {
    let program = "target/bin/head".into();
    let mut options = Options { lines: 1_500_000, seed: 1, program };
    while let Some(argument) = arguments.next() {
        match argument.as_str() {
            "--lines" => options.lines = arguments.next()?.parse().ok()?,
            "--seed" => options.seed = arguments.next()?.parse().ok()?,
            "--quick" => options.lines = 30_000,
            flag if flag.starts_with('-') => return None,
            _ => options.program = argument,
        }
    }
    Some(options)
}
