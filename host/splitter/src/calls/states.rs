//! States that are set: about each bound, or such as no call leaves behind, and calls on them.

use super::talk::{any_time, Talk, FAR};
use crate::answers;
use crate::call::{Call, Lent, MOST_PENDING};
use crate::state::{Anchor, State};
use common::frames::NEVER;
use common::random::Random;
use common::soup::{stream, stream_with, Sort};

/// What streams are made as. Frames of one geometry may stay inside the domain of equality.
const SORTS: [Sort; 6] =
    [Sort::Whole, Sort::Damaged, Sort::Pieces, Sort::Sparse, Sort::OneGeometry, Sort::Joined];

/// One of `usual`, or one time in `rarely` one of `others`.
fn mostly<T: Copy>(usual: &[T], rarely: u64, others: &[T], random: &mut Random) -> T {
    match random.below(rarely) {
        0 => random.pick(others),
        _ => random.pick(usual),
    }
}

/// A push and a flush that all numbers refuse, then some that all but 7 refuse, and so on to none:
/// the first ground that holds must answer.
pub fn all_grounds(talk: &mut Talk) {
    for first in 7..=13 {
        let frames = if first <= 11 { 4_294_000_001 } else { 4_294_000_000 };
        let anchor = Anchor { pts: 0, frames, samples: 4_096, rate: 48_000, unread: false };
        let state = State {
            code: if first <= 7 { 3 } else { 2 },
            pending: if first <= 8 { 8_191 } else { 8_190 },
            anchor: Some(anchor),
            ..State::new(2)
        };
        let payload = if first <= 9 { vec![0x00; 65_536] } else { vec![0x00; 10] };
        let pts = if first <= 10 { (1 << 62) + 1 } else { 1 << 62 };
        let too_little = usize::from(first <= 12);
        let lent = Lent { pending: 8_190 - too_little, output: 8_200, rows: 9_368 };
        talk.ask(Call::Set(state, Vec::new()));
        talk.ask(Call::Flush(lent));
        talk.ask(Call::Push(Some(pts), lent, payload));
    }
}

/// Sets a state, then makes a few calls.
pub fn set_and_go_on(talk: &mut Talk, random: &mut Random) {
    // A state that is refused for one reason alone, or for several: both should be frequent.
    let rarely = random.pick(&[4, 16, 1_000]);
    let code = mostly(&[0, 1, 2], rarely, &[3, 4, 255, u32::MAX], random);
    let bytes = pending_bytes(code, random);
    let state = State {
        code,
        pending: pending(bytes.len(), rarely, random),
        pts: if random.below(3) == 0 { any_stamp(random) } else { any_time(random) },
        anchor: anchor(code, &bytes, rarely, random),
        discarded: mostly(
            &[0, 77, (1 << 62) - 99, 1 << 62],
            rarely,
            &[(1 << 62) + 1, u64::MAX],
            random,
        ),
        locked: random.below(2) == 0,
    };
    talk.ask(Call::Set(state, bytes));
    for _ in 0..=random.below(4) {
        call(code, talk, random);
    }
}

fn call(code: u32, talk: &mut Talk, random: &mut Random) {
    match random.below(16) {
        0..=2 => talk.flush_by_chance(random),
        3 => talk.ask(Call::Reset),
        4 => talk.ask(Call::Unlock),
        5 => talk.ask(Call::New(random.pick(&[code, 0, 1, 2, 3, 4, 1 << 31, u32::MAX]))),
        _ => {
            let mut bytes = stream(random.pick(&SORTS), code.min(2), random);
            bytes.truncate(400);
            talk.feed(&bytes, random);
        }
    }
}

/// Bytes for the front of the pending buffer: none, pieces of frames, or whole frames too.
fn pending_bytes(code: u32, random: &mut Random) -> Vec<u8> {
    // A flush asks about a head outside the domain only where that is the first.
    let outside = random.pick(&[2, 15, NEVER]);
    let mut bytes = stream_with(random.pick(&SORTS), code.min(2), outside, random);
    bytes.truncate(match random.below(4) {
        0 => 0,
        1 => random.below(9) as usize,
        _ => random.below(400) as usize,
    });
    bytes
}

/// As many as the bytes that are written, fewer, or more: then older bytes come to light.
fn pending(written: usize, rarely: u64, random: &mut Random) -> u64 {
    let written = written as u64;
    let usual = [written, written, written, random.below(written + 1), written + random.below(9)];
    match random.below(64) {
        0 => random.pick(&[8_190, 8_189]),
        _ => mostly(&usual, 4 * rarely, &[8_191, MOST_PENDING as u64 + 1, u64::MAX], random),
    }
}

/// Only the anchor's timestamp has bounds: a pending stamp may be any number.
fn any_stamp(random: &mut Random) -> Option<i64> {
    let any = random.word() as i64;
    Some(random.pick(&[any, i64::MIN, i64::MAX]))
}

/// Mostly one that is within the bounds. Half of those of bytes that begin with a head have its
/// geometry.
fn anchor(code: u32, bytes: &[u8], rarely: u64, random: &mut Random) -> Option<Anchor> {
    let near = random.word() as i64 >> (2 + random.below(61));
    let any_samples = random.below(4_097) as u32;
    let any_rate = random.word() as u32 >> random.below(32);
    let any_frames = random.below(4_294_000_001) as u32 >> random.below(32);
    let mut anchor = Anchor {
        pts: mostly(&[near, near, FAR[0], FAR[1], FAR[2]], rarely, &FAR[5..], random),
        frames: mostly(
            &[0, 1, any_frames, any_frames, 4_293_999_990, 4_294_000_000],
            rarely,
            &[4_294_000_001, u32::MAX],
            random,
        ),
        samples: mostly(&[0, 1_024, 1_152, any_samples, 4_096], rarely, &[4_097, u32::MAX], random),
        rate: random.pick(&[0, 1, 44_100, 48_000, any_rate, u32::MAX]),
        unread: random.below(3) == 0,
    };
    if let (Some([_, _, samples, rate, ..]), 0) = (answers::read(code, bytes), random.below(2)) {
        (anchor.samples, anchor.rate) = (samples, rate);
    }
    (random.below(4) > 0).then_some(anchor)
}
