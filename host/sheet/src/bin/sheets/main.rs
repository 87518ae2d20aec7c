//! Runs a program, `cutsheet` or another in its place, on many inputs, and compares what it prints
//! with the sheet that the Rust module's frames make, byte for byte: those of the module as requested,
//! and as far as the run is inside the domain of equality those of the unchanged one as well. It
//! stops with status 1 at the first difference, or where something that should be seen never was.

mod counts;

use common::feed::{self, different_line, Feed, Printed};
use counts::Counts;
use oracle::domain;
use sheet::inputs::demo;
use sheet::inputs::input::{self, Input};
use sheet::inside::Inside;
use sheet::requested::{self, model, text};
use std::error::Error;
use std::process::ExitCode;
use std::time::Instant;
use std::{fs, io};

const USAGE: &str = "usage: sheets PROGRAM COUNT SEED [ARG..]
  PROGRAM   the program to run
  COUNT     inputs by chance; those that come in every run are made beside them
  SEED      seed of everything random
  ARG..     the program's arguments";

/// Where the input goes whose sheet is not the expected one.
const DIFFERENCE: &str = "target/host/sheet-difference.bin";

/// The folder of stored streams.
const DEMO: &str = "demo";

/// Why a run ends early.
enum Stop {
    Difference(String),
    /// A program that cannot be run, say.
    Failed(io::Error),
}

impl From<io::Error> for Stop {
    fn from(error: io::Error) -> Stop {
        Stop::Failed(error)
    }
}

fn main() -> ExitCode {
    let arguments: Vec<String> = std::env::args().skip(1).collect();
    let Some((command, count, seed)) = options(&arguments) else {
        eprintln!("{USAGE}");
        return ExitCode::from(2);
    };
    let start = Instant::now();
    println!("seed {seed}");
    match run_all(&command, count, seed) {
        Ok(counts) => verdict(&counts, start),
        Err(Stop::Difference(what)) => {
            println!("difference: {what}");
            ExitCode::FAILURE
        }
        Err(Stop::Failed(error)) => {
            eprintln!("sheets: {}: {error}", command[0]);
            ExitCode::from(2)
        }
    }
}

fn options(arguments: &[String]) -> Option<(Vec<String>, u64, u64)> {
    let [program, count, seed, rest @ ..] = arguments else {
        return None;
    };
    let command = [program].into_iter().chain(rest).cloned().collect();
    Some((command, count.parse().ok()?, seed.parse().ok()?))
}

/// Prints the counts, and whether everything was seen.
fn verdict(counts: &Counts, start: Instant) -> ExitCode {
    let seconds = start.elapsed().as_secs_f64();
    println!("{counts} ({seconds:.1} s): no difference");
    match counts.unseen() {
        unseen if unseen.is_empty() => ExitCode::SUCCESS,
        unseen => {
            println!("never seen: {}", unseen.join("; "));
            ExitCode::FAILURE
        }
    }
}

fn run_all(command: &[String], count: u64, seed: u64) -> Result<Counts, Stop> {
    check_by_hand().map_err(|error| Stop::Difference(error.to_string()))?;
    let demos = demo::streams(DEMO)?;
    let mut counts = Counts::new(&demos);
    for (n, input) in (1..).zip(input::all(count, seed, &demos)) {
        let mut random = input::random(!seed, n);
        let feed = Feed::by_chance(&mut random);
        let printed = feed::run(command, &input.bytes, feed, random.word())?;
        let (expected, inside) = (expected(&input)?, Inside::of(&input.bytes)?);
        if let Some(what) = difference(&printed, &expected, &inside) {
            fs::write(DIFFERENCE, &input.bytes)?;
            let (group, name) = input.sort;
            let input = format!("input {n} ({group}: {name}; {})", feed.name());
            return Err(Stop::Difference(format!("seed {seed}, {input}, {what}")));
        }
        counts.count(&input, feed, &expected, &inside);
    }
    Ok(counts)
}

/// Holds the models of both modules, their lines and the domain to what was worked out by hand.
fn check_by_hand() -> Result<(), Box<dyn Error>> {
    domain::cases::check()?;
    for line in [sheet::text::line, sheet::digits::line] {
        sheet::cases::check(line)?;
    }
    for line in [requested::text::line, requested::digits::line] {
        requested::cases::check(line)?;
    }
    Ok(())
}

/// The sheet as requested: the one that is spelled out, or else the model's.
fn expected(input: &Input) -> io::Result<Vec<u8>> {
    let mut sheet = Vec::new();
    match input.spelled {
        Some(spelled) => sheet.extend(spelled.as_bytes()),
        None => model::print(&input.bytes[..], &mut sheet, text::line)?,
    }
    Ok(sheet)
}

/// The first line that differs, or how the program ended.
fn difference(printed: &Printed, expected: &[u8], inside: &Inside) -> Option<String> {
    let Printed { text, status } = printed;
    let ended = || format!("the sheet is right, but the program ends with {status}");
    different_line(text, "the module as requested", expected)
        .or_else(|| different_line(inside.part_of(text), "the unchanged module", &inside.sheet))
        .or_else(|| (!status.success()).then(ended))
}
