//! Safe calls of the library under test, through its C export (include/audio_frame_cue.h).

use cues::cue::{Answer, MARK, STAMP, WIDTH};

extern "C" {
    fn audio_frame_cue(rows: *const i64, count: usize, time: i64) -> i64;
}

/// What the function returns for an answer: the place, -1 for none, the number of a refusal below 0.
pub fn returned(answer: Answer) -> i64 {
    match answer {
        Ok(Some(place)) => place as i64,
        Ok(None) => -1,
        Err(number) => -i64::from(number),
    }
}

/// The function as it is.
pub fn cue(rows: &[i64], time: i64) -> i64 {
    // SAFETY: the pointer and the count come from one slice.
    unsafe { audio_frame_cue(rows.as_ptr(), rows.len(), time) }
}

/// A row on each side of a list that is lent. It would count at every time, so that a call that looks
/// there answers otherwise.
const GUARD: [i64; WIDTH] = guard();

const fn guard() -> [i64; WIDTH] {
    let mut row = [0; WIDTH];
    row[MARK] = 1;
    row[STAMP] = i64::MIN;
    row
}

/// A number that the call had to leave as it was, by its place in the list.
#[derive(Debug, PartialEq)]
pub struct Touched(pub isize);

/// Lends lists to the function, between two guards.
#[derive(Default)]
pub struct Lender {
    memory: Vec<i64>,
}

impl Lender {
    /// What the function returns; checks that all numbers stayed, and those on both sides.
    pub fn cue(&mut self, rows: &[i64], time: i64) -> Result<i64, Touched> {
        let memory = &mut self.memory;
        memory.clear();
        memory.extend(GUARD.iter().chain(rows).chain(&GUARD));
        // The pointer is made from the whole of `memory`, so that a write anywhere there is found below
        // instead of being undefined.
        let list = memory.as_mut_ptr().wrapping_add(WIDTH);
        // SAFETY: `list` has as many numbers of `memory` as `rows`.
        let number = unsafe { audio_frame_cue(list, rows.len(), time) };
        let before = GUARD.iter().chain(rows).chain(&GUARD);
        match memory.iter().zip(before).position(|(now, before)| now != before) {
            None => Ok(number),
            Some(place) => Err(Touched(place as isize - WIDTH as isize)),
        }
    }
}
