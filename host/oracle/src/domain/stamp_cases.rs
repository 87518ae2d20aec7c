//! Runs of which it was worked out by hand where K7 leaves the domain, and where a run is back.
//!
//! Of ADTS: F has 1024 samples at 44100 Hz, H at 48000 Hz, Y 2048 at 44100 Hz, seven bytes each; K begins
//! a frame of ten bytes like H; X is K3's, outside. Of E-AC-3: G has 1536 samples at 48000 Hz, L 256 at
//! 44100 Hz, eight bytes each; S says two bytes, of L's geometry; T is K6's, outside. Of MPEG audio: M has
//! 24 bytes at 24000 Hz, N 26 at 22050 Hz.

use super::since::{SetAnchor, Stamped};
use super::Asked::{Search, SecondHead};
use super::Left::{self, Head, Stamps};
use super::Request::{K3, K6};
use super::Run;
use Stamped::{Flushed, Given, Kept, Tail};

/// A call, and how it leaves the domain, if it does; then whether the run is inside.
type Turn = (Step, Option<Left>, bool);

enum Step {
    /// Locked, with these bytes pending and that payload, without or with a timestamp.
    Push(&'static [&'static [u8]], &'static [&'static [u8]]),
    PushAt(&'static [&'static [u8]], &'static [&'static [u8]]),
    /// Unlocked, nothing pending, with a timestamp.
    FirstAt(&'static [&'static [u8]]),
    /// With these bytes pending.
    Flush(&'static [u8]),
    /// A reset or an unlock: the domain is told the same.
    Reset,
}

use Step::{FirstAt, Flush, Push, PushAt, Reset};

struct Story {
    name: &'static str,
    code: u32,
    /// Of the state that was set. A new splitter has none.
    anchor: Option<SetAnchor>,
    turns: &'static [Turn],
}

const F: &[u8] = &[0xFF, 0xF1, 0x50, 0x80, 0x00, 0xE0, 0x00];
const H: &[u8] = &[0xFF, 0xF1, 0x4C, 0x80, 0x00, 0xE0, 0x00];
const Y: &[u8] = &[0xFF, 0xF1, 0x50, 0x80, 0x00, 0xE0, 0x01];
const K: &[u8] = &[0xFF, 0xF1, 0x4C, 0x80, 0x01, 0x40, 0x00, 0x00];
const X: &[u8] = &[0xFF, 0xF0, 0x50, 0x80, 0x01, 0x20, 0x01, 0x00, 0x00];
const G: &[u8] = &[0x0B, 0x77, 0x00, 0x03, 0x3F, 0x80, 0x00, 0x00];
const L: &[u8] = &[0x0B, 0x77, 0x00, 0x03, 0x4F, 0x80, 0x00, 0x00];
const S: &[u8] = &[0x0B, 0x77, 0x00, 0x00, 0x4F, 0x80, 0x00, 0x00];
const T: &[u8] = &[0x0B, 0x77, 0xC0, 0x03, 0x3F, 0x80, 0x00, 0x00];
const M: &[u8] = &[0xFF, 0xF3, 0x14, 0, 0, 0, 0, 0, 0, 0, 0, 0, 0, 0, 0, 0, 0, 0, 0, 0, 0, 0, 0, 0];
const N: &[u8] =
    &[0xFF, 0xF3, 0x10, 0, 0, 0, 0, 0, 0, 0, 0, 0, 0, 0, 0, 0, 0, 0, 0, 0, 0, 0, 0, 0, 0, 0];
/// Six bytes each.
const PART_OF_F: &[u8] = &[0xFF, 0xF1, 0x50, 0x80, 0x00, 0xE0];
const PART_OF_H: &[u8] = &[0xFF, 0xF1, 0x4C, 0x80, 0x00, 0xE0];
const PART_OF_K: &[u8] = &[0xFF, 0xF1, 0x4C, 0x80, 0x01, 0x40];
const PART_OF_G: &[u8] = &[0x0B, 0x77, 0x00, 0x03, 0x3F, 0x80];
const PART_OF_L: &[u8] = &[0x0B, 0x77, 0x00, 0x03, 0x4F, 0x80];
const ZERO: &[u8] = &[0x00];
const SEVEN: &[u8] = &[0x00; 7];

const IN: bool = true;
const OUT: bool = false;

#[rustfmt::skip]
const STORIES: [Story; 38] = [
    new("one geometry", 2, &[(FirstAt(&[F, F]), None, IN), (Push(&[], &[F]), None, IN), (PushAt(&[], &[F]), None, IN)]),
    new("another rate in one payload", 2, &[(FirstAt(&[F, H]), Some(Stamps(Given)), OUT), (Push(&[], &[H]), None, OUT)]),
    new("other samples at one rate", 2, &[(FirstAt(&[F, Y]), Some(Stamps(Given)), OUT)]),
    new("another rate in the next payload", 2, &[(FirstAt(&[F]), None, IN), (Push(&[], &[H]), Some(Stamps(Given)), OUT)]),
    new("another rate with a timestamp", 2, &[(FirstAt(&[F]), None, IN), (PushAt(&[], &[H]), Some(Stamps(Given)), OUT)]),
    new("without any timestamp", 2, &[(Push(&[], &[F]), None, IN), (Push(&[], &[H]), Some(Stamps(Given)), OUT)]),
    new("another rate of MPEG audio", 1, &[(FirstAt(&[M, M]), None, IN), (Push(&[], &[N]), Some(Stamps(Given)), OUT)]),
    new("another geometry of E-AC-3", 0, &[(FirstAt(&[G]), None, IN), (Push(&[], &[L]), Some(Stamps(Given)), OUT)]),
    // Kept with its head read: at once, or when bytes come to a tail, which has no geometry before.
    new("kept", 2, &[(FirstAt(&[F, K]), Some(Stamps(Kept)), OUT)]),
    new("kept once more", 2, &[(FirstAt(&[F, PART_OF_K]), None, IN), (Push(&[PART_OF_K], &[ZERO]), Some(Stamps(Kept)), OUT)]),
    new("a tail that is given", 2, &[(FirstAt(&[F, PART_OF_H]), None, IN), (Push(&[PART_OF_H], &[ZERO]), Some(Stamps(Given)), OUT)]),
    new("a tail that is turned down", 2, &[(FirstAt(&[F, PART_OF_H]), None, IN), (Push(&[PART_OF_H], &[ZERO, SEVEN]), None, IN), (Push(&[], &[F]), None, IN)]),
    // K is kept and then turned down for what stands behind it; but it was kept, and F is another.
    new("kept and never given", 2, &[(FirstAt(&[K]), None, IN), (Push(&[K], &[ZERO, ZERO, SEVEN]), None, IN), (Push(&[], &[F]), Some(Stamps(Given)), OUT)]),
    // Turned down at once, and below the need, it is neither kept nor given.
    new("turned down", 2, &[(FirstAt(&[F]), None, IN), (Push(&[], &[H, SEVEN]), None, IN), (Push(&[], &[F]), None, IN)]),
    new("below the need", 0, &[(FirstAt(&[G]), None, IN), (Push(&[], &[S]), None, IN), (Push(&[], &[G]), None, IN)]),
    // Flush gives what push left as a tail, if its head reads.
    new("flushed", 2, &[(FirstAt(&[F]), None, IN), (Flush(K), Some(Stamps(Flushed)), OUT)]),
    new("flushed, six bytes", 0, &[(FirstAt(&[G, PART_OF_L]), None, IN), (Flush(PART_OF_L), Some(Stamps(Flushed)), OUT)]),
    new("flushed, below the need", 0, &[(FirstAt(&[G]), None, IN), (Flush(S), Some(Stamps(Flushed)), OUT)]),
    new("flushed first", 0, &[(Flush(PART_OF_L), None, IN), (Push(&[], &[G]), Some(Stamps(Given)), OUT)]),
    new("nothing to flush", 2, &[(FirstAt(&[F]), None, IN), (Flush(PART_OF_H), None, IN), (Flush(&[]), None, IN)]),
    // An unread tail that makes the first anchor, and tails that make none, or a later one.
    new("a tail makes the first anchor", 2, &[(Push(&[], &[F]), None, IN), (PushAt(&[], &[PART_OF_F]), Some(Stamps(Tail)), OUT)]),
    new("a tail of six bytes", 0, &[(PushAt(&[], &[PART_OF_G]), Some(Stamps(Tail)), OUT)]),
    new("a tail without a timestamp", 2, &[(Push(&[], &[F, PART_OF_F]), None, IN), (Push(&[PART_OF_F], &[ZERO]), None, IN)]),
    new("a tail behind the timestamp's frame", 2, &[(FirstAt(&[F, PART_OF_F]), None, IN)]),
    new("a tail makes the second anchor", 2, &[(FirstAt(&[F]), None, IN), (PushAt(&[], &[PART_OF_F]), None, IN), (Push(&[PART_OF_F], &[ZERO, F]), None, IN)]),
    new("a tail behind zeros", 2, &[(Push(&[], &[F]), None, IN), (PushAt(&[], &[SEVEN]), Some(Stamps(Tail)), OUT)]),
    // It is given, and nothing commences in the payload: the timestamp makes no anchor.
    new("a timestamp that is lost", 2, &[(Push(&[PART_OF_F], &[ZERO]), None, IN), (PushAt(&[PART_OF_F], &[ZERO]), None, IN), (PushAt(&[], &[PART_OF_F]), Some(Stamps(Tail)), OUT)]),
    new("a tail that began before", 2, &[(PushAt(&[&[0xFF]], &[&[0xF1]]), None, IN), (PushAt(&[], &[PART_OF_F]), Some(Stamps(Tail)), OUT)]),
    new("not taken", 2, &[(FirstAt(&[SEVEN, H]), None, IN), (FirstAt(&[F]), None, IN), (PushAt(&[], &[PART_OF_F]), None, IN)]),
    // A reset forgets geometry and anchor.
    new("back by a reset", 2, &[(FirstAt(&[F, H]), Some(Stamps(Given)), OUT), (Reset, None, IN), (Push(&[], &[H, H]), None, IN), (Push(&[], &[F]), Some(Stamps(Given)), OUT), (Reset, None, IN)]),
    new("a reset before", 2, &[(FirstAt(&[F]), None, IN), (Reset, None, IN), (PushAt(&[], &[H]), None, IN), (Push(&[], &[H]), None, IN)]),
    new("the first anchor since a reset", 2, &[(FirstAt(&[F]), None, IN), (Reset, None, IN), (PushAt(&[], &[PART_OF_F]), Some(Stamps(Tail)), OUT), (Reset, None, IN)]),
    // K3 and K6 end a run for good, where K7 took it out before too.
    new("no reset behind K3", 2, &[(FirstAt(&[F, H]), Some(Stamps(Given)), OUT), (Push(&[], &[X]), Some(Head(K3, Search)), OUT), (Reset, None, OUT), (Push(&[], &[F, H]), None, OUT)]),
    new("no reset behind K6", 0, &[(FirstAt(&[G, L, T]), Some(Head(K6, SecondHead)), OUT), (Reset, None, OUT)]),
    // A state that was set stands for a run.
    set("an anchor was a frame", 2, ((1024, 44100), false), &[(Push(&[], &[F]), None, IN), (PushAt(&[], &[PART_OF_F]), None, IN), (Push(&[], &[H]), Some(Stamps(Given)), OUT), (Reset, None, IN)]),
    set("of another geometry", 2, ((1024, 48000), false), &[(PushAt(&[], &[F]), Some(Stamps(Given)), OUT)]),
    set("of none", 2, ((0, 0), false), &[(PushAt(&[], &[PART_OF_F]), None, IN), (Push(&[], &[F]), Some(Stamps(Given)), OUT)]),
    set("a marked anchor", 2, ((1024, 44100), true), &[(Push(&[], &[F]), None, OUT), (Reset, None, IN), (Push(&[], &[F, F]), None, IN)]),
];

const fn new(name: &'static str, code: u32, turns: &'static [Turn]) -> Story {
    Story { name, code, anchor: None, turns }
}

const fn set(name: &'static str, code: u32, anchor: SetAnchor, turns: &'static [Turn]) -> Story {
    Story { name, code, anchor: Some(anchor), turns }
}

/// Holds the domain to these. An error says at which it fails.
pub(super) fn check() -> Result<(), String> {
    STORIES.iter().try_for_each(check_one)
}

fn check_one(story: &Story) -> Result<(), String> {
    let mut run = Run::from(story.anchor);
    let mut was_outside = !run.is_inside();
    for (n, (step, expected, is_inside)) in (1..).zip(story.turns) {
        let left = take(&mut run, story.code, step);
        if left != *expected || run.is_inside() != *is_inside {
            let found = format!("left at {left:?}, inside: {}", run.is_inside());
            return Err(format!("the domain, K7, {}, call {n}: {found}", story.name));
        }
        if run.is_inside_again() != (run.is_inside() && was_outside) {
            return Err(format!("the domain, K7, {}, call {n}: is it inside again?", story.name));
        }
        was_outside |= !run.is_inside();
    }
    Ok(())
}

fn take(run: &mut Run, code: u32, step: &Step) -> Option<Left> {
    match step {
        Push(pending, payload) => run.push(code, true, &pending.concat(), &payload.concat(), false),
        PushAt(pending, payload) => {
            run.push(code, true, &pending.concat(), &payload.concat(), true)
        }
        FirstAt(payload) => run.push(code, false, &[], &payload.concat(), true),
        Flush(pending) => run.flush(code, pending),
        Reset => {
            run.reset();
            None
        }
    }
}
