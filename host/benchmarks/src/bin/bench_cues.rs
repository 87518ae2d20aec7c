//! Rows a second of the C function that finds the row of a cue, beside two plain pieces of Rust over the
//! same rows: one goes from the end of the list, the other, the second definition, through all of it.
//! One process, the same lists, by turns.

use benchmarks::median;
use cuecalls::returned;
use cues::cases;
use cues::cue::{cue, MARK, STAMP, WIDTH};
use std::hint::black_box;
use std::time::Instant;

/// Rows of the lists.
const LISTS: [usize; 3] = [8, 100, 1_755];

/// Rows of the lists of one round together, and rounds of which the median counts.
const ROWS: usize = 1_000_000;
const ROUNDS: usize = 101;

/// Ticks from a stamp to the next: 1024 samples at 44100 Hz.
const STEP: i64 = 2_089;

type Finder = fn(&[i64], i64) -> i64;

fn main() {
    println!("median of {ROUNDS} rounds of {ROWS} rows, by turns; all rows of a list count as gone through,");
    println!("looked at or not; ratio: the Rust from the end, divided by ours");
    println!("                            ns a list                   million rows a second");
    println!(
        "rows  that counts     ours  from the end    all     ours  from the end    all   ratio"
    );
    for rows in LISTS {
        let list: Vec<i64> = (0..rows as i64).flat_map(|n| cases::row(1, n * STEP)).collect();
        // At the largest time all rows count, at the first stamp the first alone, before it none.
        for (name, time) in [("the last", i64::MAX), ("the first", 0), ("none", -1)] {
            row(name, &list, time);
        }
    }
}

/// Measures and prints one line of the table. The rounds take turns, so that a change of the
/// processor's clock meets all of them.
fn row(name: &str, list: &[i64], time: i64) {
    let finders: [Finder; 3] = [cuecalls::cue, from_the_end, through_all];
    let answers = finders.map(|find| find(list, time));
    assert!(answers.iter().all(|answer| *answer == answers[0]), "{name}: {answers:?}");
    let mut rounds = [const { Vec::new() }; 3];
    for _ in 0..ROUNDS {
        for (find, rounds) in finders.into_iter().zip(&mut rounds) {
            rounds.push(round(find, list, time));
        }
    }
    let [ours, end, all] = rounds.map(median);
    let rows = list.len() / WIDTH;
    let [fast, fast_end, fast_all] = [ours, end, all].map(|ns| rows as f64 * 1e3 / ns);
    let ratio = end / ours;
    print!("{rows:>4}  {name:<11}{ours:>9.1}{end:>14.1}{all:>7.0}");
    println!("{fast:>9.0}{fast_end:>14.0}{fast_all:>7.0}{ratio:>8.2}");
}

/// Nanoseconds a list of one round.
fn round(find: Finder, list: &[i64], time: i64) -> f64 {
    let calls = ROWS * WIDTH / list.len();
    let start = Instant::now();
    for _ in 0..calls {
        black_box(find(black_box(list), black_box(time)));
    }
    start.elapsed().as_secs_f64() * 1e9 / calls as f64
}

/// As a careful Rust programmer would write it.
#[inline(never)]
fn from_the_end(rows: &[i64], time: i64) -> i64 {
    if rows.len() % WIDTH != 0 {
        return -14;
    }
    let counts = |row: &[i64]| row[MARK] == 1 && row[STAMP] <= time;
    rows.chunks_exact(WIDTH).rposition(counts).map_or(-1, |place| place as i64)
}

/// The second definition.
#[inline(never)]
fn through_all(rows: &[i64], time: i64) -> i64 {
    returned(cue(rows, time))
}
