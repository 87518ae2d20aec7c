//! The numbers 7 to 12 that refuse a call: a reference written from document 01's table, from the
//! sentence below it that gives their order, and from the lengths under 'forms that give way'. It
//! looks at lengths and numbers alone, and asks neither the library nor the oracle.

use crate::call::Lent;
use crate::state::State;

const FAR: i64 = 1 << 62;

/// The number that refuses a push, or `None`.
pub fn of_push(state: &State, pts: Option<i64>, lent: &Lent, payload_len: usize) -> Option<u32> {
    let joined = u128::from(state.pending) + payload_len as u128;
    let frames = state.anchor.map_or(0, |anchor| anchor.frames);
    first(&[
        (7, state.code > 2),
        (8, is_bad(state)),
        (9, payload_len > 65_535),
        (10, pts.is_some_and(is_far)),
        (11, frames > 4_294_000_000 || state.discarded > 1 << 62),
        (12, is_short(lent, joined, 8 * (joined / 7))),
    ])
}

/// The number that refuses a flush, or `None`.
pub fn of_flush(state: &State, lent: &Lent) -> Option<u32> {
    first(&[(7, state.code > 2), (8, is_bad(state)), (12, is_short(lent, state.pending.into(), 8))])
}

/// The number that refuses a new splitter, or `None`.
pub fn of_new(code: u32) -> Option<u32> {
    first(&[(7, code > 2)])
}

/// Number 8's ground.
fn is_bad(state: &State) -> bool {
    let bad_anchor = state.anchor.is_some_and(|a| a.samples > 4_096 || is_far(a.pts));
    state.pending > 8_190 || bad_anchor
}

/// Outside -2^62 .. 2^62.
fn is_far(pts: i64) -> bool {
    !(-FAR..=FAR).contains(&pts)
}

/// Number 12's ground: a lent buffer that has not the length that the call asks of it.
fn is_short(lent: &Lent, output: u128, rows: u128) -> bool {
    lent.pending < 8_190 || (lent.output as u128) < output || (lent.rows as u128) < rows
}

/// The number of the first ground that holds.
fn first(grounds: &[(u32, bool)]) -> Option<u32> {
    let found = grounds.iter().find(|(_, holds)| *holds);
    found.map(|(number, _)| *number)
}
