//! Asks the program `cue` many lines over pipes, and compares each answer with the second definition.
//! It stops with status 1 at the first difference, or where a kind of line never came.

mod questions;
mod tally;

use common::asking::{self, Pieces};
use common::counts::Counts;
use common::random::Random;
use cues::cases;
use cues::cue::cue;
use questions::{Question, Questions};
use std::error::Error;
use std::io::{self, BufRead, Write};
use std::process::{Child, Command, ExitCode};
use std::time::Instant;

const USAGE: &str = "usage: cue_replay [--lines N] [--seed S] [--quick] [PROGRAM [ARG..]]
  --lines N   lines to ask (default 400000)
  --seed S    seed of everything random (default 1)
  --quick     few lines, for the self-test
  PROGRAM     the program to ask (default target/bin/cue), and its arguments";

struct Options {
    lines: u64,
    seed: u64,
    command: Vec<String>,
}

fn main() -> ExitCode {
    let Some(options) = options(std::env::args().skip(1)) else {
        eprintln!("{USAGE}");
        return ExitCode::from(2);
    };
    if let Err(what) = cases::check(cue) {
        return asking::verdict(Err(what));
    }
    let (program, arguments) = options.command.split_first().expect("a program");
    match asking::start(Command::new(program).args(arguments)) {
        Ok(program) => asking::verdict(replay(program, &options)),
        Err(error) => {
            eprintln!("cue_replay: {program}: {error}");
            ExitCode::from(2)
        }
    }
}

/// Asks everything, and prints the counts.
fn replay(mut program: Child, options: &Options) -> Result<(), Box<dyn Error>> {
    let start = Instant::now();
    println!("seed {}", options.seed);
    let counts = asking::converse(
        &mut program,
        |questions| ask(questions, options),
        |answers| compare(answers, options),
    )?;
    let unseen = counts.unseen();
    if !unseen.is_empty() {
        return Err(format!("never came: {}", unseen.join(", ")).into());
    }
    let seconds = start.elapsed().as_secs_f64();
    println!("{counts}total: {} lines ({seconds:.1} s)", options.lines);
    Ok(())
}

/// Writes all questions. No line feed closes the last one.
fn ask(program: impl Write, options: &Options) -> io::Result<()> {
    let mut pieces = Pieces::new(program, 16, Random::new(options.seed));
    for (n, question) in Questions::new(options.seed, options.lines).enumerate() {
        if n > 0 {
            pieces.hold(b"\n");
        }
        pieces.hold(&question.text);
        pieces.write()?;
    }
    pieces.end()
}

/// Makes the same questions again, and holds each answer to the one that is expected.
fn compare(mut answers: impl BufRead, options: &Options) -> Result<Counts, Box<dyn Error>> {
    let mut counts = tally::none();
    let mut answer = Vec::new();
    for (n, question) in (1..).zip(Questions::new(options.seed, options.lines)) {
        let expected = question.asked.answer();
        answer.clear();
        answers.read_until(b'\n', &mut answer)?;
        if answer.strip_suffix(b"\n") != Some(expected.as_bytes()) {
            return Err(wrong_answer(n, &question, &answer, &expected).into());
        }
        tally::count(&mut counts, &question);
    }
    asking::no_more(answers)?;
    Ok(counts)
}

fn wrong_answer(n: u64, question: &Question, answer: &[u8], expected: &str) -> String {
    let program = match answer {
        [] => "gives no more answers".into(),
        _ => format!("answers '{}'", answer.escape_ascii()),
    };
    let text = question.text.escape_ascii();
    format!("line {n}, '{text}': the program {program}, expected '{expected}\\n'")
}

/// The options, or `None` where an argument is not understood.
fn options(mut arguments: impl Iterator<Item = String>) -> Option<Options> {
    let mut options = Options { lines: 400_000, seed: 1, command: vec!["target/bin/cue".into()] };
    while let Some(argument) = arguments.next() {
        match argument.as_str() {
            "--lines" => options.lines = arguments.next()?.parse().ok()?,
            "--seed" => options.seed = arguments.next()?.parse().ok()?,
            "--quick" => options.lines = 20_000,
            flag if flag.starts_with('-') => return None,
            _ => options.command = [argument].into_iter().chain(arguments.by_ref()).collect(),
        }
    }
    Some(options)
}
