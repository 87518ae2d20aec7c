//! How many answers of a reader were compared.

use heads::library::Answer;
use std::fmt;

/// By kind and by number; a head read at several lent lengths counts once for each.
#[derive(Default)]
pub struct Reads {
    pub heads: u64,
    /// By kind; place 0 stays empty.
    read: [u64; 7],
    /// By number; place 0 stays empty.
    refused: [u64; 13],
}

impl Reads {
    pub fn count(&mut self, answer: Answer) {
        self.heads += 1;
        match answer {
            Ok(six) => self.read[six[0] as usize] += 1,
            Err(number) => self.refused[number as usize] += 1,
        }
    }

    pub fn add(&mut self, other: &Reads) {
        self.heads += other.heads;
        self.read.iter_mut().zip(other.read).for_each(|(sum, n)| *sum += n);
        self.refused.iter_mut().zip(other.refused).for_each(|(sum, n)| *sum += n);
    }

    /// Those of these kinds and numbers that no head has shown.
    pub fn unseen(&self, kinds: &[usize], numbers: &[usize]) -> Vec<String> {
        let kinds = kinds.iter().filter(|&&k| self.read[k] == 0).map(|k| format!("kind {k}"));
        let numbers = numbers.iter().filter(|&&n| self.refused[n] == 0);
        kinds.chain(numbers.map(|n| format!("number {n}"))).collect()
    }
}

impl fmt::Display for Reads {
    fn fmt(&self, f: &mut fmt::Formatter) -> fmt::Result {
        write!(f, "{} heads", self.heads)?;
        write_counts(f, "; read by kind", &self.read)?;
        write_counts(f, "; refused by number", &self.refused)
    }
}

/// Writes the places that are not 0, after `title`; nothing where all are 0.
pub fn write_counts(f: &mut fmt::Formatter, title: &str, counts: &[u64]) -> fmt::Result {
    let mut before = title;
    for (place, count) in counts.iter().enumerate().filter(|(_, count)| **count > 0) {
        write!(f, "{before} {place}: {count}")?;
        before = ",";
    }
    Ok(())
}
