//! Runs a program, `cuelines` or another in its place, on many inputs, and compares what it prints, byte
//! for byte, with the lines that the second definition finds in the cut sheets of the Rust module as
//! requested. It stops with status 1 at the first difference, or where something that should be seen
//! never was.

mod counts;

use common::asking;
use common::feed::{self, different_line, Feed, Printed};
use counts::Counts;
use cues::cases;
use cues::cue::cue;
use cues::found::{self, Sheet};
use cues::inputs::{self, Input};
use sheet::inputs::input::random;
use sheet::inputs::{demo, large};
use sheet::requested;
use std::error::Error;
use std::fs;
use std::process::ExitCode;
use std::time::Instant;

const USAGE: &str = "usage: cue_sheets [--quick] PROGRAM COUNT SEED [ARG..]
  --quick   without the large streams, for the self-test
  PROGRAM   the program to run
  COUNT     streams by chance; those that come in every run are made beside them
  SEED      seed of everything random
  ARG..     the program's arguments";

/// Where the input goes whose lines are not the expected ones.
const DIFFERENCE: &str = "target/host/cue-difference.bin";

/// The folder of stored streams.
const DEMO: &str = "demo";

fn main() -> ExitCode {
    let arguments: Vec<String> = std::env::args().skip(1).collect();
    let Some(options) = options(&arguments) else {
        eprintln!("{USAGE}");
        return ExitCode::from(2);
    };
    if let Err(error) = fs::metadata(&options.command[0]) {
        eprintln!("cue_sheets: {}: {error}", options.command[0]);
        return ExitCode::from(2);
    }
    println!("seed {}", options.seed);
    asking::verdict(run_all(&options))
}

struct Options {
    is_quick: bool,
    command: Vec<String>,
    count: u64,
    seed: u64,
}

/// The options, or `None` where an argument is not understood.
fn options(arguments: &[String]) -> Option<Options> {
    let is_quick = arguments.first().is_some_and(|first| first == "--quick");
    let [program, count, seed, rest @ ..] = &arguments[usize::from(is_quick)..] else {
        return None;
    };
    let command = [program].into_iter().chain(rest).cloned().collect();
    Some(Options { is_quick, command, count: count.parse().ok()?, seed: seed.parse().ok()? })
}

/// Runs the program on every input, and prints the counts.
fn run_all(options: &Options) -> Result<(), Box<dyn Error>> {
    let Options { is_quick, command, count, seed } = options;
    let start = Instant::now();
    cases::check(cue)?;
    cases::check_printed(found::printed)?;
    requested::cases::check(requested::text::line)?;
    let demos = demo::streams(DEMO)?;
    let mut counts = Counts::new(&demos, !is_quick);
    let inputs = inputs::all(*count, *seed, &demos);
    let inputs = inputs.take_while(|input| !is_quick || input.sort.0 != large::GROUP);
    for (n, input) in (1..).zip(inputs) {
        let mut random = random(!seed, n);
        let feed = Feed::by_chance(&mut random);
        let printed = feed::run(command, &input.bytes, feed, random.word())?;
        let sheet = input.asks.as_ref().map(|asks| Sheet::of(&asks.sheet.text));
        if let Some(what) = difference(&printed, &input, sheet.as_ref()) {
            fs::write(DIFFERENCE, &input.bytes)?;
            let (group, name) = input.sort;
            let input = format!("input {n} ({group}: {name}; {})", feed.name());
            return Err(format!("seed {seed}, {input}, {what}").into());
        }
        counts.count(&input, feed, sheet.as_ref());
    }
    println!("{counts} ({:.1} s)", start.elapsed().as_secs_f64());
    match counts.unseen() {
        unseen if unseen.is_empty() => Ok(()),
        unseen => Err(format!("never seen: {}", unseen.join("; ")).into()),
    }
}

/// The first line that differs, or how the program ended.
fn difference(printed: &Printed, input: &Input, sheet: Option<&Sheet>) -> Option<String> {
    let Printed { text, status } = printed;
    let ended = || format!("the lines are right, but the program ends with {status}");
    let spelled = input.asks.as_ref().and_then(|asks| asks.spelled);
    spelled
        .and_then(|spelled| different_line(text, "spelled out is", spelled.as_bytes()))
        .or_else(|| different_line(text, "expected is", &expected(input, sheet)))
        .or_else(|| (!status.success()).then(ended))
}

/// What has to be printed: the lines of the sheet, or a question mark.
fn expected(input: &Input, sheet: Option<&Sheet>) -> Vec<u8> {
    match (&input.asks, sheet) {
        (Some(asks), Some(sheet)) => {
            sheet.printed(&asks.times.iter().map(|(_, time)| *time).collect::<Vec<_>>())
        }
        _ => b"?\n".into(),
    }
}
