//! What the compared lists had, and what of it a run must see.

use cues::cue::{Answer, MARK, STAMP, WIDTH};
use std::fmt;

/// Lists of up to so many numbers are counted by their length.
const LENGTHS: usize = 21;

/// What must be seen, by name.
const NAMES: [&str; 25] = [
    "place",
    "none",
    "refused",
    "refused, though a row would count",
    "refused, and no row would count",
    "no rows",
    "rows of which none counts",
    "the first row of several",
    "the last row of several",
    "a row between",
    "a row beyond place 99",
    "equal stamps",
    "not the latest stamp",
    "a stamp at the time",
    "a stamp one before the time",
    "a stamp one behind the time skipped",
    "a later stamp before the row",
    "a later stamp behind the row",
    "mark 0 skipped",
    "mark -1 skipped",
    "mark 2 skipped",
    "another mark skipped",
    "the least number as time and stamp",
    "the largest number as time and stamp",
    "time and stamp further apart than numbers reach",
];

#[derive(Default)]
pub struct Seen {
    names: [u64; NAMES.len()],
    lengths: [u64; LENGTHS],
    longer: u64,
}

impl Seen {
    /// Counts a list and the answer that both sides give.
    pub fn count(&mut self, rows: &[i64], time: i64, answer: Answer) {
        match self.lengths.get_mut(rows.len()) {
            Some(count) => *count += 1,
            None => self.longer += 1,
        }
        match answer {
            Ok(Some(place)) => self.found(rows, time, place),
            Ok(None) => {
                self.add("none");
                self.add(if rows.is_empty() { "no rows" } else { "rows of which none counts" });
                self.skipped(rows, time);
            }
            Err(_) => {
                self.add("refused");
                let counts = |row: &[i64]| row[MARK] == 1 && row[STAMP] <= time;
                match rows.chunks_exact(WIDTH).any(counts) {
                    true => self.add("refused, though a row would count"),
                    false => self.add("refused, and no row would count"),
                }
            }
        }
    }

    fn found(&mut self, rows: &[i64], time: i64, place: usize) {
        self.add("place");
        let (before, from) = rows.split_at(place * WIDTH);
        let (row, behind) = from.split_at(WIDTH);
        match (before.is_empty(), behind.is_empty()) {
            (true, true) => {}
            (true, false) => self.add("the first row of several"),
            (false, true) => self.add("the last row of several"),
            (false, false) => self.add("a row between"),
        }
        self.add_if(place > 99, "a row beyond place 99");
        let stamp = row[STAMP];
        self.add_if(stamp == time, "a stamp at the time");
        self.add_if(stamp.checked_add(1) == Some(time), "a stamp one before the time");
        self.add_if(stamp == time && time == i64::MIN, "the least number as time and stamp");
        self.add_if(stamp == time && time == i64::MAX, "the largest number as time and stamp");
        let is_far = time.checked_sub(stamp).is_none();
        self.add_if(is_far, "time and stamp further apart than numbers reach");
        let has = |rows: &[i64], is: &dyn Fn(i64) -> bool| {
            rows.chunks_exact(WIDTH).any(|row| row[MARK] == 1 && is(row[STAMP]))
        };
        self.add_if(has(before, &|other| other == stamp), "equal stamps");
        self.add_if(has(before, &|other| other > stamp && other <= time), "not the latest stamp");
        self.add_if(has(before, &|other| other > time), "a later stamp before the row");
        self.add_if(has(behind, &|other| other > time), "a later stamp behind the row");
        self.skipped(behind, time);
    }

    /// Rows behind the one that was found, or all where none was.
    fn skipped(&mut self, rows: &[i64], time: i64) {
        for row in rows.chunks_exact(WIDTH) {
            match row[MARK] {
                1 => {
                    let is_next = time.checked_add(1) == Some(row[STAMP]);
                    self.add_if(is_next, "a stamp one behind the time skipped");
                }
                _ if row[STAMP] > time => {}
                0 => self.add("mark 0 skipped"),
                -1 => self.add("mark -1 skipped"),
                2 => self.add("mark 2 skipped"),
                _ => self.add("another mark skipped"),
            }
        }
    }

    fn add(&mut self, name: &str) {
        let place = NAMES.iter().position(|other| *other == name).expect("one of the names");
        self.names[place] += 1;
    }

    fn add_if(&mut self, is_so: bool, name: &str) {
        if is_so {
            self.add(name);
        }
    }

    /// Adds the counts of another run.
    pub fn sum(&mut self, other: &Seen) {
        self.names.iter_mut().zip(other.names).for_each(|(sum, n)| *sum += n);
        self.lengths.iter_mut().zip(other.lengths).for_each(|(sum, n)| *sum += n);
        self.longer += other.longer;
    }

    /// What had to be seen and never was.
    pub fn unseen(&self) -> Vec<String> {
        let unseen = |(_, count): &(String, u64)| *count == 0;
        self.all().filter(unseen).map(|(name, _)| name).collect()
    }

    fn all(&self) -> impl Iterator<Item = (String, u64)> + '_ {
        let names = NAMES.into_iter().map(String::from).zip(self.names);
        let lengths = (0..LENGTHS).map(|len| format!("{len} numbers")).zip(self.lengths);
        names.chain(lengths).chain([("more numbers".into(), self.longer)])
    }

    /// The answers by their sort.
    pub fn answers(&self) -> String {
        shown(self.all().take(3))
    }
}

impl fmt::Display for Seen {
    fn fmt(&self, f: &mut fmt::Formatter) -> fmt::Result {
        write!(f, "{}", shown(self.all().skip(3)))
    }
}

fn shown(counts: impl Iterator<Item = (String, u64)>) -> String {
    counts.map(|(name, count)| format!("{name}: {count}")).collect::<Vec<_>>().join("; ")
}
