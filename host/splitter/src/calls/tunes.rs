//! Tunes that change their rate: what K7 tells apart, in all combinations. A state is set, with an
//! anchor that is marked or not and has the geometry of the frame that follows or another; the frame
//! begins in pending bytes or in the payload, is given, kept, a tail or flushed, and has a pending stamp
//! or not, and a timestamp or not. Stamps and anchors stand at the bounds too.

use super::talk::Talk;
use crate::call::Call;
use crate::state::{Anchor, State};
use common::random::Random;

/// A geometry: samples and rate.
type Geometry = (u32, u32);

/// A frame of each code, longer than its header need, with its geometry and that need.
const FRAMES: [(&[u8], Geometry, usize); 3] = [
    (&[0x0B, 0x77, 0x00, 0x04, 0x3F, 0x80, 0x00, 0x00, 0x00, 0x00], (1_536, 48_000), 8),
    (
        &[0xFF, 0xF3, 0x14, 0, 0, 0, 0, 0, 0, 0, 0, 0, 0, 0, 0, 0, 0, 0, 0, 0, 0, 0, 0, 0],
        (576, 24_000),
        4,
    ),
    (&[0xFF, 0xF1, 0x50, 0x80, 0x01, 0x40, 0x00, 0x00, 0x00, 0x00], (1_024, 44_100), 7),
];

/// A frame of another geometry for each code.
const OTHERS: [&[u8]; 3] = [
    &[0x0B, 0x77, 0x00, 0x03, 0x4F, 0x80, 0x00, 0x00],
    &[0xFF, 0xF3, 0x10, 0, 0, 0, 0, 0, 0, 0, 0, 0, 0, 0, 0, 0, 0, 0, 0, 0, 0, 0, 0, 0, 0, 0],
    &[0xFF, 0xF1, 0x4C, 0x80, 0x00, 0xE0, 0x01],
];

/// The end of number 10's bounds.
const FAR: i64 = 1 << 62;

/// Pending stamps and timestamps: none, and some.
#[rustfmt::skip]
const STAMPS: [i64; 9] =
    [77, FAR, FAR + 1, FAR - 1, -FAR, -FAR - 1, -FAR + 1, i64::MAX, i64::MIN];
const TIMES: [i64; 5] = [9_000, FAR, -FAR, FAR - 1, 0];

/// How an anchor's geometry is that of the frame, or not.
const LIKENESSES: [fn(Geometry) -> Geometry; 6] = [
    |own| own,
    |(samples, _)| (samples, 32_000),
    |(_, rate)| (1_152, rate),
    |_| (4_096, 11_025),
    |_| (0, 0),
    |(samples, _)| (samples, 0),
];

/// Where an anchor stands: somewhere, or such that the next stamp is at a bound or beside it.
const PLACES: u64 = 9;

/// The part of the frame that is pending, and the part that the payload brings; or a flush.
#[derive(Clone, Copy)]
struct Cut {
    pending: usize,
    payload: Option<usize>,
}

/// One combination.
pub struct Tune {
    code: u32,
    /// Which likeness and whether it is marked; or no anchor.
    anchor: Option<(usize, bool)>,
    place: u64,
    cut: Cut,
    stamp: Option<i64>,
    time: Option<i64>,
}

/// All cuts of a code's frame: given, kept and tails of every length, from pending bytes on or not, and
/// flushes.
fn cuts(code: u32) -> Vec<Cut> {
    let (frame, _, need) = FRAMES[code as usize];
    let len = frame.len();
    let cut = |pending, end: usize| Cut { pending, payload: Some(end - pending) };
    let mut cuts = vec![cut(0, len), cut(0, len - 1), cut(0, need)];
    cuts.extend((1..need).map(|end| cut(0, end)));
    cuts.extend([1, need - 1, need, len - 1].map(|pending| cut(pending, len)));
    cuts.extend([1, need - 1, need].map(|pending| cut(pending, len - 1)));
    cuts.extend([cut(1, need - 1), cut(need, need)]);
    cuts.extend([need - 1, need, len - 1].map(|pending| Cut { pending, payload: None }));
    cuts
}

/// Every combination, with stamps, timestamps and places in turn.
pub fn all() -> Vec<Tune> {
    let marks = [false, true];
    let some = (0..LIKENESSES.len()).flat_map(|like| marks.map(|mark| Some((like, mark))));
    let anchors: Vec<_> = [None].into_iter().chain(some).collect();
    let cuts = (0..3).flat_map(|code| cuts(code).into_iter().map(move |cut| (code, cut)));
    let each = cuts.flat_map(|cut| anchors.iter().map(move |anchor| (cut, *anchor)));
    let each = each.flat_map(|each| (0..4).map(move |stamps| (each, stamps)));
    each.zip(0..).map(|(((cut, anchor), stamps), n)| Tune::number(n, cut, anchor, stamps)).collect()
}

/// Stamps and anchors at all bounds: frames of another geometry, of the same, and such as teach a marked
/// anchor, given, kept and flushed.
pub fn at_bounds(talk: &mut Talk) {
    let anchors = [Some((1, false)), Some((2, false)), Some((0, false)), Some((1, true))];
    let tune =
        |code, anchor, place, cut, stamp| Tune { code, anchor, place, cut, stamp, time: None };
    for ((code, anchor), n) in (0..3).flat_map(|code| anchors.map(|a| (code, a))).zip(0..) {
        let (frame, _, need) = FRAMES[code as usize];
        let flush = Cut { pending: need, payload: None };
        let cut = |pending, end: usize| Cut { pending, payload: Some(end - pending) };
        for stamp in STAMPS.map(Some) {
            for cut in [cut(need - 1, frame.len()), cut(need - 1, frame.len() - 1), flush] {
                tune(code, anchor, n % PLACES, cut, stamp).tell(talk);
            }
        }
        for place in 0..PLACES {
            for cut in [cut(0, frame.len()), cut(0, need), cut(need, frame.len())] {
                tune(code, anchor, place, cut, None).tell(talk);
            }
        }
    }
}

/// A frame of another geometry where no further one may be counted: the anchor is that frame, counted
/// once, and what follows is not refused. The bytes that it costs are seen behind a reset too.
pub fn counted_anew(talk: &mut Talk) {
    for code in 0..3 {
        let (frame, (samples, _), _) = FRAMES[code as usize];
        let anchor = Anchor { pts: 0, frames: 4_294_000_000, samples, rate: 32_000, unread: false };
        let state = State { anchor: Some(anchor), locked: true, ..State::new(code) };
        talk.ask(Call::Set(state, Vec::new()));
        talk.push(None, frame);
        talk.push(None, &[0x00; 20]);
        talk.ask(if code == 1 { Call::Unlock } else { Call::Reset });
        talk.push(Some(7), &frame.repeat(2));
    }
}

impl Tune {
    /// The `n`th. Of `stamps` one bit is for the pending stamp, one for the timestamp.
    fn number(
        n: usize,
        (code, cut): (u32, Cut),
        anchor: Option<(usize, bool)>,
        stamps: u32,
    ) -> Tune {
        // By primes, so that each comes beside each.
        let stamp = STAMPS[n / 4 % 13 % STAMPS.len()];
        let time = TIMES[n / 4 % 7 % TIMES.len()];
        Tune {
            code,
            anchor,
            place: (n / 4 % 11) as u64 % PLACES,
            cut,
            stamp: (stamps & 1 == 1).then_some(stamp),
            time: (stamps & 2 == 2).then_some(time),
        }
    }

    /// Any of them, with any stamps and places.
    pub fn any(random: &mut Random) -> Tune {
        let code = random.below(3) as u32;
        let anchor = (random.below(LIKENESSES.len() as u64) as usize, random.below(2) == 0);
        Tune {
            code,
            anchor: (random.below(12) > 0).then_some(anchor),
            place: random.below(PLACES),
            cut: random.pick(&cuts(code)),
            stamp: (random.below(2) == 0).then(|| random.pick(&STAMPS)),
            time: (random.below(3) == 0).then(|| random.pick(&TIMES)),
        }
    }

    /// Sets the state, and pushes or flushes; then come a frame of another geometry, and the frame.
    pub fn tell(&self, talk: &mut Talk) {
        let (frame, ..) = FRAMES[self.code as usize];
        let Cut { pending, payload } = self.cut;
        let state = State {
            pending: pending as u64,
            pts: self.stamp,
            anchor: self.anchor(),
            locked: true,
            ..State::new(self.code)
        };
        talk.ask(Call::Set(state, frame[..pending].to_vec()));
        match payload {
            Some(len) => talk.push(self.time, &frame[pending..pending + len]),
            None => talk.flush(),
        }
        // Behind what is pending now it would stand inside the frame.
        if talk.state().pending == 0 {
            talk.push(None, &[OTHERS[self.code as usize], frame].concat());
        }
    }

    fn anchor(&self) -> Option<Anchor> {
        let (like, unread) = self.anchor?;
        let (_, own, _) = FRAMES[self.code as usize];
        let (samples, rate) = LIKENESSES[like](own);
        let frames = [2, 0, 1, 3, 3, 3, 0, 1, 0][self.place as usize];
        // A marked anchor has learnt the frame's geometry before the frame is stamped.
        let ticks = ticks(frames, if unread { own } else { (samples, rate) });
        let pts = match self.place {
            0 => 1_000,
            1 | 2 => -FAR,
            3 => FAR - 1 - ticks,
            4 | 6 => FAR - ticks,
            8 => -FAR + 1,
            _ => FAR.min(FAR + 1 - ticks),
        };
        Some(Anchor { pts, frames, samples, rate, unread })
    }
}

/// Floor(frames × samples × 90,000 / rate), or none.
fn ticks(frames: u32, (samples, rate): Geometry) -> i64 {
    let product = i64::from(frames) * i64::from(samples) * 90_000;
    product.checked_div(rate.into()).unwrap_or(0)
}
