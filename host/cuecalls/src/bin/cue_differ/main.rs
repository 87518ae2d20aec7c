//! The differential runner of the C function `audio_frame_cue`: the library beside the second definition
//! of request K4. It stops with status 1 at the first difference, or where something that should be seen
//! never was.

mod compare;
mod runs;
mod seen;

use common::asking;
use compare::{Outcome, Tally};
use cues::cases;
use cues::cue::cue;
use std::process::ExitCode;
use std::time::Instant;

const USAGE: &str = "usage: cue_differ [--random N] [--seed S] [--quick]
  --random N   N lists by chance, and N / 100 long ones (default 5000000)
  --seed S     seed of everything random (default 1)
  --quick      few lists by chance, for the self-test";

pub struct Options {
    random: u64,
    seed: u64,
}

type Run = fn(&mut Tally, &Options) -> Outcome;

const RUNS: [(&str, Run); 6] = [
    ("cues by hand", runs::by_hand),
    ("0 to 20 numbers, every pair of rows", runs::lengths),
    ("up to 3 rows, every mark, stamp and time of some", runs::three_rows),
    ("4 and 5 rows, every mark, stamp and time of fewer", runs::five_rows),
    ("long lists", runs::long_lists),
    ("lists by chance", runs::by_chance),
];

fn main() -> ExitCode {
    let Some(options) = options(std::env::args().skip(1)) else {
        eprintln!("{USAGE}");
        return ExitCode::from(2);
    };
    asking::verdict(all_runs(&options))
}

fn all_runs(options: &Options) -> Outcome {
    println!("seed {}", options.seed);
    cases::check(cue)?;
    let mut total = Tally::default();
    for (name, run) in RUNS {
        let start = Instant::now();
        let mut tally = Tally::default();
        run(&mut tally, options).map_err(|what| format!("{name}: {what}"))?;
        println!("{name}: {tally} ({:.1} s)", start.elapsed().as_secs_f64());
        total.add(&tally);
    }
    println!("total: {total}");
    println!("seen: {}", total.seen);
    match total.seen.unseen() {
        unseen if unseen.is_empty() => Ok(()),
        unseen => Err(format!("never seen: {}", unseen.join(", "))),
    }
}

/// The options, or `None` where an argument is not understood.
fn options(mut arguments: impl Iterator<Item = String>) -> Option<Options> {
    let mut options = Options { random: 5_000_000, seed: 1 };
    while let Some(argument) = arguments.next() {
        match argument.as_str() {
            "--random" => options.random = arguments.next()?.parse().ok()?,
            "--seed" => options.seed = arguments.next()?.parse().ok()?,
            "--quick" => options.random = 100_000,
            _ => return None,
        }
    }
    Some(options)
}
