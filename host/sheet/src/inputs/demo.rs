//! The stored streams of demo/, as encoders wrote them: whole, damaged, cut off, and joined.

use super::input::{random, Input};
use super::long::damage;
use common::random::Random;
use std::fs;
use std::io;

/// The suffixes of files that are streams, and their syntax codes.
const SUFFIXES: [(&str, u32); 5] = [("ac3", 0), ("eac3", 0), ("mp2", 1), ("mp3", 1), ("aac", 2)];

/// So much of a stream is changed.
const PART: usize = 24_000;

pub struct Demo {
    pub suffix: &'static str,
    code: u32,
    bytes: Vec<u8>,
}

/// The groups of inputs, by what was done to a stream.
pub const GROUPS: [&str; 4] = [
    "demo streams, whole",
    "demo streams, damaged",
    "demo streams, cut off",
    "demo streams, with others behind",
];

/// All of them in the order of their names; none where there is no such folder.
pub fn streams(folder: &str) -> io::Result<Vec<Demo>> {
    let mut paths = Vec::new();
    if fs::exists(folder)? {
        for entry in fs::read_dir(folder)? {
            paths.push(entry?.path());
        }
    }
    paths.sort();
    let mut demos = Vec::new();
    for path in paths {
        let is_suffix = |suffix: &str| path.extension().is_some_and(|end| end == suffix);
        if let Some((suffix, code)) = SUFFIXES.into_iter().find(|(suffix, _)| is_suffix(suffix)) {
            demos.push(Demo { suffix, code, bytes: fs::read(&path)? });
        }
    }
    Ok(demos)
}

/// Each whole under each code, then changed in each way.
pub fn inputs(demos: &[Demo], seed: u64) -> impl Iterator<Item = Input> + '_ {
    (0..).zip(demos).flat_map(move |(n, demo)| {
        let sort = (GROUPS[0], demo.suffix);
        let whole = (0..3).map(move |code| Input::of_stream(sort, code, &demo.bytes));
        let mut random = random(seed, 4 << 20 | n);
        whole.chain((1..4).map(move |way| changed(demo, way, demos, &mut random)))
    })
}

/// One of them, changed.
pub fn by_chance(demos: &[Demo], random: &mut Random) -> Input {
    let way = random.pick(&[1, 1, 1, 2, 3]);
    changed(any(demos, random), way, demos, random)
}

fn any<'a>(demos: &'a [Demo], random: &mut Random) -> &'a Demo {
    &demos[random.below(demos.len() as u64) as usize]
}

/// In the way of the group with that number.
fn changed(demo: &Demo, way: usize, demos: &[Demo], random: &mut Random) -> Input {
    let mut bytes = demo.bytes[..demo.bytes.len().min(PART)].to_vec();
    match way {
        1 => damage(&mut bytes, random),
        2 => bytes.truncate(random.below(bytes.len() as u64 + 1) as usize),
        _ => (0..=random.below(3)).for_each(|_| bytes.extend(&any(demos, random).bytes)),
    }
    Input::of_stream((GROUPS[way], demo.suffix), demo.code, &bytes)
}
