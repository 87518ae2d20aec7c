//! All inputs of a run. The same seed always gives the same ones.

use super::demo::{self, Demo};
use super::long::SORTS;
use super::{edges, first_lines, large};
use crate::requested::cases;
use common::random::Random;

/// A group of inputs, and a name in it.
pub type Sort = (&'static str, &'static str);

pub struct Input {
    /// What it was made as.
    pub sort: Sort,
    /// First line and stream.
    pub bytes: Vec<u8>,
    /// Its sheet as requested, where that is spelled out.
    pub spelled: Option<&'static str>,
}

impl Input {
    pub fn new(sort: Sort, bytes: Vec<u8>) -> Input {
        Input { sort, bytes, spelled: None }
    }

    /// A stream behind the line with that code.
    pub fn of_stream(sort: Sort, code: u32, stream: &[u8]) -> Input {
        Input::new(sort, [format!("{code}\n").as_bytes(), stream].concat())
    }
}

/// What comes in every run, then so many inputs by chance, then the large ones, which take longest.
pub fn all(count: u64, seed: u64, demos: &[Demo]) -> impl Iterator<Item = Input> + '_ {
    let small = spelled().chain(malformed()).chain(each_sort(seed)).chain(edges::inputs(seed));
    let small = small.chain(edges::outside()).chain(edges::changes()).chain(edges::tails());
    let small = small.chain(edges::tails_again()).chain(first_line_pairs());
    let fixed = small.chain(demo::inputs(demos, seed));
    let by_chance = (0..count).map(move |n| by_chance(demos, random(seed, n)));
    fixed.chain(by_chance).chain(large::inputs(seed))
}

/// The generator for one input, so that each can be made without the others.
pub fn random(seed: u64, n: u64) -> Random {
    Random::new(Random::new(seed).word() ^ n << 32)
}

fn spelled() -> impl Iterator<Item = Input> {
    let input = |(bytes, sheet)| Input {
        spelled: Some(sheet),
        ..Input::new(("inputs", "spelled out"), bytes)
    };
    cases::sheets().map(input)
}

/// First lines byte by byte, with two frames behind every other one.
fn first_line_pairs() -> impl Iterator<Item = Input> {
    let stream = |n| if n % 2 == 0 { Vec::new() } else { cases::F.repeat(2) };
    let bytes = move |(n, pair): (u32, [u8; 2])| [&pair[..], &stream(n)].concat();
    let sort = ("inputs", "every first byte, every second byte");
    (0..).zip(first_lines::pairs()).map(bytes).map(move |bytes| Input::new(sort, bytes))
}

fn malformed() -> impl Iterator<Item = Input> {
    first_lines::all().map(|(way, line)| {
        let stream = if line.len() < 2 { Vec::new() } else { cases::F.repeat(2) };
        Input::new((first_lines::GROUP, way), [line, stream].concat())
    })
}

/// Each sort of stream of each syntax, under each code.
fn each_sort(seed: u64) -> impl Iterator<Item = Input> {
    let codes = (0..9).map(|n| (n / 3, n % 3));
    let each = codes.flat_map(|codes| SORTS.map(|sort| (codes, sort)));
    each.zip(0..).map(move |(((syntax, code), (name, make)), n)| {
        let stream = make(syntax, 6_000, &mut random(seed, 1 << 20 | n));
        Input::of_stream((STREAMS[code as usize], name), code, &stream)
    })
}

/// The groups of streams by the code of their first line.
pub const STREAMS: [&str; 3] = ["streams, code 0", "streams, code 1", "streams, code 2"];

fn by_chance(demos: &[Demo], mut random: Random) -> Input {
    match random.below(32) {
        0 => malformed_by_chance(&mut random),
        1..=4 if !demos.is_empty() => demo::by_chance(demos, &mut random),
        _ => stream_by_chance(&mut random),
    }
}

fn malformed_by_chance(random: &mut Random) -> Input {
    let (way, mut line) = first_lines::any(random);
    // Else a shorter line would go on in the stream.
    if line.len() >= 2 {
        line.extend(random.pick(&SORTS).1(random.below(3) as u32, 1_000, random));
    }
    Input::new((first_lines::GROUP, way), line)
}

fn stream_by_chance(random: &mut Random) -> Input {
    let (name, make) = random.pick(&SORTS);
    let syntax = random.below(3) as u32;
    let code = if random.below(4) == 0 { random.below(3) as u32 } else { syntax };
    let len = length(random);
    let mut stream = make(syntax, len, random);
    if random.below(8) == 0 {
        stream.truncate(random.pick(&edges::LENGTHS));
    }
    Input::of_stream((STREAMS[code as usize], name), code, &stream)
}

/// Mostly few payloads.
fn length(random: &mut Random) -> usize {
    let most = match random.below(16) {
        0..=8 => 3_000,
        9..=13 => 10_000,
        14 => 13_000,
        _ => 60_000,
    };
    random.below(most) as usize
}
