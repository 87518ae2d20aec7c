//! How many heads were inside the domain of equality, and how many outside.

use heads::reference::Side;
use std::fmt;

/// Inside, both modules gave the answer, outside the one as requested alone.
#[derive(Default)]
pub struct Sides {
    inside: u64,
    /// By the request that took them out.
    outside: [u64; 2],
}

impl Sides {
    /// Counts a head, unless its call was refused whatever it is.
    pub fn count(&mut self, side: Option<Side>) {
        match side {
            Some(Side::Inside) => self.inside += 1,
            Some(Side::Outside(request)) => self.outside[request as usize] += 1,
            None => {}
        }
    }

    /// All that were outside.
    pub fn outside(&self) -> u64 {
        self.outside.iter().sum()
    }

    pub fn add(&mut self, other: &Sides) {
        self.inside += other.inside;
        self.outside.iter_mut().zip(other.outside).for_each(|(sum, more)| *sum += more);
    }

    /// The sides on which there was none.
    pub fn unseen(&self, what: &str) -> Vec<String> {
        let [k3, k6] = self.outside;
        let sides = [self.inside, k3, k6].into_iter().zip(Side::NAMES);
        let unseen = sides.filter(|(count, _)| *count == 0);
        unseen.map(|(_, side)| format!("{what} {side}, of the domain")).collect()
    }
}

impl fmt::Display for Sides {
    fn fmt(&self, f: &mut fmt::Formatter) -> fmt::Result {
        let (inside, outside, [k3, k6]) = (self.inside, self.outside(), self.outside);
        write!(f, "{inside} heads inside the domain, compared with both modules; ")?;
        write!(f, "{outside} outside, with the module as requested alone ")?;
        write!(f, "({k3} by K3, {k6} by K6)")
    }
}
