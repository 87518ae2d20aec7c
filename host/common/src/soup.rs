//! Streams: frame after frame, the same with damage, pieces of frames in any order, and frames with
//! much between them that is none.

use crate::frames::{filled, frame, kinds, likely, NEVER};
use crate::random::Random;
use crate::samples;
use crate::tunes;

/// What a stream is made as.
#[derive(Clone, Copy)]
pub enum Sort {
    Whole,
    Damaged,
    Pieces,
    Sparse,
    AnyBytes,
    /// Of one geometry, and none outside the domain of equality.
    OneGeometry,
    /// Tracks of several geometries.
    Joined,
}

/// A stream of that sort, some hundred bytes long. Of E-AC-3 and ADTS one frame in ten or so is outside
/// the domain of equality, but none in many of the streams, so that these are inside to their end.
pub fn stream(sort: Sort, code: u32, random: &mut Random) -> Vec<u8> {
    let outside = random.pick(&[5, 15, NEVER]);
    stream_with(sort, code, outside, random)
}

/// The same; one short frame in `outside` of E-AC-3 and ADTS is outside the domain.
pub fn stream_with(sort: Sort, code: u32, outside: u64, random: &mut Random) -> Vec<u8> {
    match sort {
        Sort::Whole => whole(code, outside, random),
        Sort::Damaged => damaged(code, outside, random),
        Sort::Pieces => pieces(code, outside, random),
        Sort::Sparse => sparse(code, outside, random),
        Sort::AnyBytes => any_bytes(code, random),
        Sort::OneGeometry => tunes::one_geometry(code, random),
        Sort::Joined => tunes::joined(code, random),
    }
}

/// Whole frames: of one geometry, of two joined, or of one for each frame.
fn whole(code: u32, outside: u64, random: &mut Random) -> Vec<u8> {
    let mut bytes = Vec::new();
    for _ in 0..=random.below(3) {
        let kind = random.pick(kinds(code));
        let first = frame(kind, outside, random);
        for _ in 0..random.below(6) {
            bytes.extend(another(kind, &first, outside, random));
        }
        bytes.extend(first);
    }
    bytes
}

/// A frame with the head of `first`, or sometimes one of the same kind.
fn another(kind: u32, first: &[u8], outside: u64, random: &mut Random) -> Vec<u8> {
    match (first.first_chunk::<16>(), random.below(8)) {
        (_, 0) => frame(kind, outside, random),
        (Some(start), 1..=5) => filled(kind, *start, random),
        _ => first.to_vec(),
    }
}

/// A stream, or two spliced, with a few places changed.
fn damaged(code: u32, outside: u64, random: &mut Random) -> Vec<u8> {
    let mut bytes = whole(code, outside, random);
    for _ in 0..=random.below(3) {
        damage(&mut bytes, code, outside, random);
    }
    bytes
}

/// Flips a bit, drops bytes, puts bytes in, or goes on with another stream.
fn damage(bytes: &mut Vec<u8>, code: u32, outside: u64, random: &mut Random) {
    // Among the first bytes as often as anywhere: that is where heads stand.
    let within = if random.below(2) == 0 { bytes.len().min(24) } else { bytes.len() };
    let place = random.below(within as u64 + 1) as usize;
    match random.below(5) {
        0 | 1 => {
            if let Some(byte) = bytes.get_mut(place) {
                *byte ^= 1 << random.below(8);
            }
        }
        2 => {
            let end = bytes.len().min(place + 1 + random.below(9) as usize);
            bytes.drain(place..end);
        }
        3 => {
            let piece = piece(code, outside, random);
            bytes.splice(place..place, piece);
        }
        _ => {
            bytes.truncate(place);
            bytes.extend(whole(code, outside, random));
        }
    }
}

/// Pieces of frames, sync words, zeros and whole frames, in any order.
fn pieces(code: u32, outside: u64, random: &mut Random) -> Vec<u8> {
    (0..=random.below(8)).flat_map(|_| piece(code, outside, random)).collect()
}

fn piece(code: u32, outside: u64, random: &mut Random) -> Vec<u8> {
    let kind = random.pick(kinds(code));
    let mut bytes = frame(kind, outside, random);
    match random.below(8) {
        0..=2 => {}
        3 => bytes.truncate(1 + random.below(10) as usize),
        4 => bytes.truncate(random.below(bytes.len() as u64 + 1) as usize),
        5 => bytes = vec![random.pick(&[0x00, 0xFF]); 1 + random.below(9) as usize],
        6 => bytes = (0..=random.below(3)).map(|_| random.pick(likely(code))).collect(),
        _ => bytes = samples::damaged(kind, random)[..8].to_vec(),
    }
    bytes
}

/// Frames far apart. In front, half the time, a head whose frame would reach over the first of them.
fn sparse(code: u32, outside: u64, random: &mut Random) -> Vec<u8> {
    let kind = random.pick(kinds(code));
    let mut bytes = Vec::new();
    if random.below(2) == 0 {
        bytes.extend(&samples::good(kind, random)[..8]);
    }
    for _ in 0..=random.below(2) {
        bytes.extend(gap(code, random));
        (0..random.below(3)).for_each(|_| bytes.extend(frame(kind, outside, random)));
    }
    bytes
}

/// Bytes in which hardly any head begins; among them halves of sync words.
fn gap(code: u32, random: &mut Random) -> Vec<u8> {
    let half = if code == 0 { 0x0B } else { 0xFF };
    let rarely = random.pick(&[2, 40, 1_000]);
    let byte = |random: &mut Random| match random.below(rarely) {
        0 => half,
        _ => random.word() as u8 & 0x6F,
    };
    (0..random.below(300)).map(|_| byte(random)).collect()
}

/// Any bytes, or any of those of which heads are made.
fn any_bytes(code: u32, random: &mut Random) -> Vec<u8> {
    let likely_only = random.below(2) == 0;
    let byte = |random: &mut Random| match likely_only {
        true => random.pick(likely(code)),
        false => random.word() as u8,
    };
    (0..random.below(200)).map(|_| byte(random)).collect()
}
