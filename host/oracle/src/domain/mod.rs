//! The domain of equality with the unchanged module: which heads and which runs the change requests
//! took out of it. It is written from the requests' words and from document 01's rules about where
//! the reader is asked; it never looks at whether two answers differ, nor at what a program skips.

use crate::answers;
use since::{Since, Thing, What};

pub mod cases;
mod since;
mod stamp_cases;

pub use since::{Geometry, SetAnchor, Stamped};

/// The requests that took heads out of the domain.
#[derive(Clone, Copy, Debug, PartialEq)]
pub enum Request {
    /// ADTS frames with CRC and several blocks that are shorter than their head.
    K3,
    /// E-AC-3 heads of stream type 3.
    K6,
}

/// Where document 01's rules ask the reader.
#[derive(Clone, Copy, Debug, PartialEq)]
pub enum Asked {
    /// Unlocked and with nothing pending, whether the payload is taken.
    FirstPayload,
    /// At a place of the joined bytes, from 0 on.
    Search,
    /// Behind a whole frame.
    SecondHead,
    /// About the pending bytes.
    Flush,
}

impl Asked {
    pub const NAMES: [&'static str; 4] = ["first payload", "search", "second head", "flush"];

    pub fn name(self) -> &'static str {
        Asked::NAMES[self as usize]
    }
}

/// How a run leaves the domain.
#[derive(Clone, Copy, Debug, PartialEq)]
pub enum Left {
    /// By a head that a request took out, and where it is met. For good: what is cut is another.
    Head(Request, Asked),
    /// By what K7 stamps otherwise, up to the next reset or unlock.
    Stamps(Stamped),
}

impl Left {
    /// Groups of counts, by the request.
    pub const GROUPS: [&'static str; 3] =
        ["domain left by K3, at", "domain left by K6, at", "domain left by K7, at"];

    pub fn group(self) -> &'static str {
        match self {
            Left::Head(request, _) => Left::GROUPS[request as usize],
            Left::Stamps(_) => Left::GROUPS[2],
        }
    }

    pub fn name(self) -> &'static str {
        match self {
            Left::Head(_, asked) => asked.name(),
            Left::Stamps(stamped) => stamped.name(),
        }
    }
}

/// One run: the calls from a new splitter, or from a state that was set, on. A call that asks the
/// reader about a head that is outside ends it for good. K7 looks at what came since the splitter was
/// new or reset, and so a reset or an unlock brings a run back that only K7 took out.
#[derive(Default)]
pub struct Run {
    ended: bool,
    since: Since,
    /// Whether it was brought back.
    back: bool,
}

impl Run {
    /// From a state that was set, which stands for a run that ends in it.
    pub fn from(anchor: Option<SetAnchor>) -> Run {
        Run { since: Since::from(anchor), ..Run::default() }
    }

    pub fn is_inside(&self) -> bool {
        !self.ended && !self.since.is_outside
    }

    /// Inside, and was outside before.
    pub fn is_inside_again(&self) -> bool {
        self.is_inside() && self.back
    }

    /// A push that is not refused. Says how it leaves the domain, if it is this push that does.
    pub fn push(
        &mut self,
        code: u32,
        is_locked: bool,
        pending: &[u8],
        payload: &[u8],
        has_timestamp: bool,
    ) -> Option<Left> {
        let things = || cut_by_push(code, is_locked, pending, payload);
        self.follow(things, pending.len(), has_timestamp)
    }

    /// A flush that is not refused, as [`Run::push`].
    pub fn flush(&mut self, code: u32, pending: &[u8]) -> Option<Left> {
        self.follow(|| cut_by_flush(code, pending), pending.len(), false)
    }

    /// A reset, or an unlock, which is a reset too.
    pub fn reset(&mut self) {
        self.back |= self.since.is_outside && !self.ended;
        self.since = Since::default();
    }

    fn follow(
        &mut self,
        things: impl Fn() -> Result<Vec<Thing>, Left>,
        pending: usize,
        has_timestamp: bool,
    ) -> Option<Left> {
        if self.ended {
            return None;
        }
        match things() {
            Ok(things) => self.since.follow(&things, pending, has_timestamp).map(Left::Stamps),
            Err(head) => {
                self.ended = true;
                Some(head)
            }
        }
    }
}

/// The request that took the head out of the domain, if one did.
pub fn taken_out(code: u32, head: &[u8]) -> Option<Request> {
    if is_k3(code, head) {
        Some(Request::K3)
    } else if is_k6(code, head) {
        Some(Request::K6)
    } else {
        None
    }
}

/// K3: ADTS heads that the Rust reads, with CRC, n further blocks, n at least 1, and a frame_length
/// below 9 + 2 × n. (13818-7 Tables 8 and 9: protection_absent ends byte 1, frame_length has 13 bits
/// from the last two of byte 3 on, number_of_raw_data_blocks_in_frame ends byte 6.)
fn is_k3(code: u32, head: &[u8]) -> bool {
    let (2, &[_, b1, _, b3, b4, b5, b6, ..]) = (code, head) else {
        return false;
    };
    let has_crc = b1 & 1 == 0;
    let further_blocks = u16::from(b6 & 3);
    let frame_length = u16::from(b3 & 3) << 11 | u16::from(b4) << 3 | u16::from(b5 >> 5);
    has_crc && further_blocks >= 1 && frame_length < 9 + 2 * further_blocks && reads(code, head)
}

/// K6: E-AC-3 heads that the Rust reads, with strmtyp 3. (A/52 Tables E1.2 and E2.1: strmtyp begins
/// byte 2, bsid begins byte 5; 11 to 16 is E-AC-3. In AC-3 crc1 stands there.)
fn is_k6(code: u32, head: &[u8]) -> bool {
    let (0, &[_, _, b2, _, _, b5, ..]) = (code, head) else {
        return false;
    };
    let (strmtyp, bsid) = (b2 >> 6, b5 >> 3);
    (11..=16).contains(&bsid) && strmtyp == 3 && reads(code, head)
}

/// Document 01's rules of push: what is kept and given, in its order; or the first question to the
/// reader that is about a head outside the domain. Up to it any reader of the two says the same.
fn cut_by_push(
    code: u32,
    is_locked: bool,
    pending: &[u8],
    payload: &[u8],
) -> Result<Vec<Thing>, Left> {
    let mut things = Vec::new();
    if !is_locked && pending.is_empty() {
        met(taken_out(code, payload), Asked::FirstPayload)?;
        if !reads(code, payload) {
            return Ok(things); // Not taken.
        }
    }
    let joined = [pending, payload].concat();
    let mut at = 0;
    while joined.len() - at >= need(code) {
        let left = &joined[at..];
        met(taken_out(code, left), Asked::Search)?;
        at += match read(code, left) {
            None => 1,
            Some((length, _)) if length < need(code) => 1,
            Some((length, geometry)) => {
                let Some(behind) = left.get(length..) else {
                    things.push(Thing { at, what: What::Frame(Stamped::Kept, geometry) });
                    return Ok(things);
                };
                met(second_head(code, behind), Asked::SecondHead)?;
                if behind.len() < need(code) || reads(code, behind) {
                    things.push(Thing { at, what: What::Frame(Stamped::Given, geometry) });
                    length
                } else {
                    1
                }
            }
        };
    }
    if at < joined.len() {
        things.push(Thing { at, what: What::Tail });
    }
    Ok(things)
}

/// Flush gives the pending bytes if their head reads.
fn cut_by_flush(code: u32, pending: &[u8]) -> Result<Vec<Thing>, Left> {
    met(taken_out(code, pending), Asked::Flush)?;
    let frame = |(_, geometry)| Thing { at: 0, what: What::Frame(Stamped::Flushed, geometry) };
    Ok(read(code, pending).map(frame).into_iter().collect())
}

/// The reader is asked there about a head that a request took out, or about another one.
fn met(request: Option<Request>, asked: Asked) -> Result<(), Left> {
    request.map_or(Ok(()), |request| Err(Left::Head(request, asked)))
}

/// The request that took out the head behind a frame, about which the reader is asked if there are
/// bytes enough for one.
fn second_head(code: u32, behind: &[u8]) -> Option<Request> {
    match behind.len() < need(code) {
        true => None,
        false => taken_out(code, behind),
    }
}

/// Header needs: 8, 4, 7 bytes.
fn need(code: u32) -> usize {
    match code {
        0 => 8,
        1 => 4,
        _ => 7,
    }
}

fn reads(code: u32, head: &[u8]) -> bool {
    read(code, head).is_some()
}

/// The length that a head says, and its geometry.
fn read(code: u32, head: &[u8]) -> Option<(usize, Geometry)> {
    let [_, length, samples, rate, ..] = answers::read(code, head)?;
    Some((length as usize, (samples, rate)))
}
