//! The differential runner: the libraries under test beside the Rust module as requested, inside the
//! domain of equality beside the unchanged one too, the number table and the second definition of
//! writing. It stops with status 1 at the first difference, or where a kind, a number or a side of the
//! domain was never seen.

mod compare;
mod reads;
mod runs;
mod sides;
mod tapes;

use common::asking;
use compare::{Difference, Outcome, Tally};
use oracle::domain;
use std::process::ExitCode;
use std::time::Instant;

const USAGE: &str = "usage: differ [--random N] [--seed S] [--quick]
  --random N   N random heads, N damaged ones and N / 4 records to write (default 20000000)
  --seed S     seed of everything random (default 1)
  --quick      few random and damaged heads, for the self-test";

pub struct Options {
    random: u64,
    seed: u64,
}

type Run = fn(&mut Tally, &Options) -> Outcome;

/// Quick ones first, so that a difference shows soon.
const RUNS: [(&str, Run); 25] = [
    ("document 01's cases, K3's and K6's", runs::document_cases),
    ("ADTS, frames about the length of their heads", runs::short_adts_frames),
    ("AC-3 and E-AC-3, every byte 2 and bsid", runs::stream_types),
    ("durations", runs::durations),
    ("codes above 2", runs::other_codes),
    ("heads made to read", runs::good_heads),
    ("lent lengths 0 to 40", runs::lent_lengths),
    ("head lengths 0 to 16, and 65536", runs::head_lengths),
    ("written heads by hand", tapes::written_cases),
    ("written heads, numbers of fields", tapes::field_counts),
    ("written heads, tapes and places", tapes::tapes),
    ("written heads, bsid and fields left out", tapes::left_out_fields),
    ("written heads, fields at their bounds", tapes::field_bounds),
    ("written heads by chance", tapes::random_records),
    ("every sync word", runs::sync_words),
    ("MPEG and ADTS, every byte 1 and 2", runs::second_and_third_bytes),
    ("two heads a byte apart, every byte 1 and 2", runs::overlapping_heads),
    ("MPEG, every head under the sync word", runs::mpeg_words),
    ("ADTS, every byte 1 to 3 under the sync word", runs::adts_words),
    ("E-AC-3, every byte 2 and 3", runs::eac3_sizes),
    ("AC-3 and E-AC-3 in six bytes, every byte 4 and 5", runs::six_bytes),
    ("ADTS, every length, CRC and byte 6", runs::adts_lengths),
    ("AC-3 and E-AC-3, every byte 4, 5 and 6", runs::ac3_fields),
    ("random heads", runs::random_heads),
    ("damaged heads", runs::damaged_heads),
];

fn main() -> ExitCode {
    let Some(options) = options(std::env::args().skip(1)) else {
        eprintln!("{USAGE}");
        return ExitCode::from(2);
    };
    asking::verdict(all_runs(&options).map_err(|Difference(what)| what))
}

fn all_runs(options: &Options) -> Outcome {
    println!("seed {}", options.seed);
    domain::cases::check().map_err(Difference)?;
    let mut total = Tally::default();
    for (name, run) in RUNS {
        let start = Instant::now();
        let mut tally = Tally::default();
        run(&mut tally, options)
            .map_err(|Difference(what)| Difference(format!("{name}: {what}")))?;
        println!("{name}: {tally} ({:.1} s)", start.elapsed().as_secs_f64());
        total.add(&tally);
    }
    println!("total: {total}");
    println!("by the chart: {}", total.by_chart);
    println!("read: {}", total.sides);
    println!("written: {}", total.writes.sides);
    match total.unseen() {
        unseen if unseen.is_empty() => Ok(()),
        unseen => Err(Difference(format!("never seen: {}", unseen.join(", ")))),
    }
}

/// The options, or `None` where an argument is not understood.
fn options(mut arguments: impl Iterator<Item = String>) -> Option<Options> {
    let mut options = Options { random: 20_000_000, seed: 1 };
    while let Some(argument) = arguments.next() {
        match argument.as_str() {
            "--random" => options.random = arguments.next()?.parse().ok()?,
            "--seed" => options.seed = arguments.next()?.parse().ok()?,
            "--quick" => options.random = 100_000,
            _ => return None,
        }
    }
    Some(options)
}
