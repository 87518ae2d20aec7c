//! How often each thing was seen, and which of those that a run must see never was.

use std::collections::BTreeMap;
use std::fmt;

/// A group, and what is told apart in it.
pub type Group = (&'static str, Vec<String>);

/// The group with these names.
pub fn group(name: &'static str, names: &[&str]) -> Group {
    (name, names.iter().map(|name| name.to_string()).collect())
}

pub struct Counts {
    /// What must be seen.
    groups: Vec<Group>,
    counts: BTreeMap<(&'static str, String), u64>,
}

impl Counts {
    /// None yet. Other things may be counted too, but all of these must be seen.
    pub fn new(groups: Vec<Group>) -> Counts {
        Counts { groups, counts: BTreeMap::new() }
    }

    pub fn add(&mut self, group: &'static str, name: impl Into<String>, times: u64) {
        *self.counts.entry((group, name.into())).or_default() += times;
    }

    /// How often that was seen.
    pub fn seen(&self, group: &'static str, name: &str) -> u64 {
        self.counts.get(&(group, name.to_string())).copied().unwrap_or(0)
    }

    /// What had to be seen and never was.
    pub fn unseen(&self) -> Vec<String> {
        let groups = self.groups.iter();
        let names = groups.flat_map(|(group, names)| names.iter().map(move |name| (*group, name)));
        let unseen = names.filter(|(group, name)| self.seen(group, name) == 0);
        unseen.map(|(group, name)| format!("{group}: {name}")).collect()
    }
}

impl fmt::Display for Counts {
    /// A line for each group, with what had to be seen.
    fn fmt(&self, f: &mut fmt::Formatter) -> fmt::Result {
        for (group, names) in self.groups.iter().filter(|(_, names)| !names.is_empty()) {
            let shown = names.iter().map(|name| format!("{name}: {}", self.seen(group, name)));
            writeln!(f, "{group}: {}", shown.collect::<Vec<_>>().join(", "))?;
        }
        Ok(())
    }
}
