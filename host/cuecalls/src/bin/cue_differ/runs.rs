//! The runs of the differential runner: which lists are compared, at which times.

use crate::compare::{Outcome, Tally};
use crate::Options;
use common::random::Random;
use cues::cases::{self, row, Case};
use cues::cue::WIDTH;
use cues::{line, rows};

const MIN: i64 = i64::MIN;
const MAX: i64 = i64::MAX;

/// What was worked out by hand is held against the answer that both sides give.
pub fn by_hand(tally: &mut Tally, _: &Options) -> Outcome {
    for Case { name, rows, time, says } in cases::all() {
        let answer = tally.agreed(&rows, time)?;
        if answer != says {
            let (said, found) = (line::words(says), line::words(answer));
            return Err(format!("{name}: by hand {said}, on both sides here {found}"));
        }
    }
    Ok(())
}

/// Two rows of every kind and a half, cut at every length: 14 refuses what is not whole rows, whatever
/// the rows are.
pub fn lengths(tally: &mut Tally, _: &Options) -> Outcome {
    for kinds in every(2, &[-1, 0, 1, 2], &[MIN, -1, 0, 1, MAX]) {
        let list = [kinds, row(1, 0).to_vec()].concat();
        for len in 0..=20 {
            for time in [MIN, -1, 0, 1, MAX] {
                tally.list(&list[..len], time)?;
            }
        }
    }
    Ok(())
}

pub fn three_rows(tally: &mut Tally, _: &Options) -> Outcome {
    let times = [MIN, MIN + 1, -2, -1, 0, 1, 2, MAX - 1, MAX];
    for count in 0..=3 {
        at_times(tally, every(count, &[-1, 0, 1, 2], &[MIN, -1, 0, 1, MAX]), &times)?;
    }
    Ok(())
}

pub fn five_rows(tally: &mut Tally, _: &Options) -> Outcome {
    at_times(tally, every(4, &[0, 1, 2], &[0, 1, 2]), &[-1, 0, 1, 2, 3])?;
    at_times(tally, every(5, &[0, 1], &[5, 6, 7]), &[4, 5, 6, 7, 8])
}

fn at_times(tally: &mut Tally, lists: impl Iterator<Item = Vec<i64>>, times: &[i64]) -> Outcome {
    for list in lists {
        for &time in times {
            tally.list(&list, time)?;
        }
    }
    Ok(())
}

/// Every list of so many rows with these marks and stamps.
fn every<'a>(
    count: u32,
    marks: &'a [i64],
    stamps: &'a [i64],
) -> impl Iterator<Item = Vec<i64>> + 'a {
    let kinds = marks.len() * stamps.len();
    (0..kinds.pow(count)).map(move |number| {
        let kind = |place| number / kinds.pow(place) % kinds;
        let rows = (0..count).map(kind);
        rows.flat_map(|kind| row(marks[kind % marks.len()], stamps[kind / marks.len()])).collect()
    })
}

/// Some thousand numbers: whole rows, or some numbers more or less.
pub fn long_lists(tally: &mut Tally, options: &Options) -> Outcome {
    let mut random = Random::new(options.seed);
    for _ in 0..options.random / 100 {
        let time = rows::time(&mut random);
        let most = random.pick(&[20, 100, 100, 600]);
        let more = if random.below(8) == 0 { random.below(WIDTH as u64) } else { 0 };
        let len = WIDTH * random.below(most) as usize + more as usize;
        let mut list = rows::list(len, time, &mut random);
        // Else the last row that counts is always near the end.
        if random.below(2) == 0 && len >= WIDTH {
            one_counts(&mut list, random.below((len / WIDTH) as u64) as usize, time);
        }
        tally.list(&list, time)?;
    }
    Ok(())
}

/// Changes the rows so that the one at that place counts alone: the others are later, or have another
/// mark where no stamp is later.
fn one_counts(list: &mut [i64], one: usize, time: i64) {
    for (place, numbers) in list.chunks_exact_mut(WIDTH).enumerate() {
        let (mark, stamp) = match time.checked_add(1) {
            _ if place == one => (1, time),
            Some(later) => (1, later),
            None => (2, time),
        };
        numbers.copy_from_slice(&row(mark, stamp));
    }
}

/// Up to 20 numbers, or a few whole rows.
pub fn by_chance(tally: &mut Tally, options: &Options) -> Outcome {
    let mut random = Random::new(options.seed);
    for _ in 0..options.random {
        let time = rows::time(&mut random);
        let len = match random.below(4) {
            0 => random.below(21) as usize,
            _ => WIDTH * random.below(6) as usize,
        };
        tally.list(&rows::list(len, time, &mut random), time)?;
    }
    Ok(())
}
