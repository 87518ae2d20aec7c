//! Safe calls of the libraries under test, through their C exports (include/).

use crate::writes::Table;

/// The six numbers of a head that reads (kind, length, samples, rate, channels, bit rate or 0), or
/// the number of the refusal.
pub type Answer = Result<[u32; 6], u32>;

/// Bytes that the six numbers take.
pub const RECORD: usize = 24;

/// The longest `out` that [`read_guarded`] lends.
pub const LONGEST_OUT: usize = 40;

/// Bytes watched on each side of `out`.
const GUARD: usize = 16;

/// A byte that the call had to leave as it was, by its place counted from the start of `out`.
#[derive(Debug, PartialEq)]
pub struct Touched(pub isize);

extern "C" {
    fn audio_frame_head(
        code: u32,
        head: *const u8,
        head_len: usize,
        out: *mut u8,
        out_len: usize,
    ) -> u32;
    fn audio_frame_head_by_chart(
        head: *const u8,
        head_len: usize,
        out: *mut u8,
        out_len: usize,
    ) -> u32;
    fn audio_frame_duration_90k(samples: u32, rate: u32) -> u32;
    fn audio_frame_write_ac3(f: *const u32, n: usize, tape: *mut u8, len: usize, at: usize) -> u32;
    fn audio_frame_write_eac3(f: *const u32, n: usize, tape: *mut u8, len: usize, at: usize)
        -> u32;
    fn audio_frame_write_mpeg(f: *const u32, n: usize, tape: *mut u8, len: usize, at: usize)
        -> u32;
    fn audio_frame_write_adts(f: *const u32, n: usize, tape: *mut u8, len: usize, at: usize)
        -> u32;
}

/// Reads a head into `out` and returns 0 or the number of the refusal.
pub fn read_into(code: u32, head: &[u8], out: &mut [u8]) -> u32 {
    // SAFETY: each pointer and length come from one slice, and the two slices do not overlap.
    unsafe { audio_frame_head(code, head.as_ptr(), head.len(), out.as_mut_ptr(), out.len()) }
}

/// Reads an MPEG audio head by the chart, as [`read_into`] does with code 1.
pub fn read_by_chart_into(head: &[u8], out: &mut [u8]) -> u32 {
    // SAFETY: as in `read_into`.
    unsafe { audio_frame_head_by_chart(head.as_ptr(), head.len(), out.as_mut_ptr(), out.len()) }
}

/// Reads a head into `out_len` lent bytes and checks that every byte that had to stay did stay:
/// those before and behind `out`, those from 24 on, and on a refusal all of them.
pub fn read_guarded(code: u32, head: &[u8], out_len: usize) -> Result<Answer, Touched> {
    // SAFETY: `out` has `out_len` bytes, which `head`, a slice, does not overlap.
    guarded(out_len, |out| unsafe {
        audio_frame_head(code, head.as_ptr(), head.len(), out, out_len)
    })
}

/// Reads an MPEG audio head by the chart, with the checks of [`read_guarded`].
pub fn read_by_chart_guarded(head: &[u8], out_len: usize) -> Result<Answer, Touched> {
    // SAFETY: as in `read_guarded`.
    guarded(out_len, |out| unsafe {
        audio_frame_head_by_chart(head.as_ptr(), head.len(), out, out_len)
    })
}

/// Lends `out_len` bytes to a reader. Returns its answer, or a byte that it had to leave.
fn guarded(out_len: usize, read: impl FnOnce(*mut u8) -> u32) -> Result<Answer, Touched> {
    assert!(out_len <= LONGEST_OUT);
    let mut memory = PATTERN;
    // The pointer is made from the whole of `memory`, so that a write into a guard is found below
    // instead of being undefined.
    let status = read(memory.as_mut_ptr().wrapping_add(GUARD));
    let answer = match status {
        0 => Ok(record(&memory[GUARD..])),
        number => Err(number),
    };
    let written = if status == 0 { RECORD.min(out_len) } else { 0 };
    memory[GUARD..][..written].copy_from_slice(&PATTERN[GUARD..][..written]);
    check_untouched(&memory).map(|()| answer)
}

/// Writes a head with these fields at a place of the tape, and returns 0 or the number of the refusal.
pub fn write_into(table: Table, fields: &[u32], tape: &mut [u8], at: usize) -> u32 {
    let (fields, count) = (fields.as_ptr(), fields.len());
    // SAFETY: each pointer and length come from one slice, and the two slices do not overlap.
    unsafe { writer(table)(fields, count, tape.as_mut_ptr(), tape.len(), at) }
}

type Writer = unsafe extern "C" fn(*const u32, usize, *mut u8, usize, usize) -> u32;

/// The library's writer of a table.
fn writer(table: Table) -> Writer {
    match table {
        Table::Ac3 => audio_frame_write_ac3,
        Table::Eac3 => audio_frame_write_eac3,
        Table::Mpeg => audio_frame_write_mpeg,
        Table::Adts => audio_frame_write_adts,
    }
}

/// The longest tape that [`write_guarded`] lends.
pub const LONGEST_TAPE: usize = LONGEST_OUT;

/// A tape that [`write_guarded`] lent, as the call left it.
pub type Tape = [u8; LONGEST_TAPE];

/// A tape before a head is written there.
pub fn blank() -> Tape {
    let (_, rest) = PATTERN.split_first_chunk::<GUARD>().expect("a guard");
    *rest.first_chunk().expect("a tape behind it")
}

/// Writes a head with these fields at a place of a blank tape of `room` bytes. Returns what the call
/// returned, and the tape; checks that every byte before and behind it stayed.
pub fn write_guarded(
    table: Table,
    fields: &[u32],
    room: usize,
    at: usize,
) -> Result<(u32, Tape), Touched> {
    assert!(room <= LONGEST_TAPE);
    let mut memory = PATTERN;
    // The pointer is made from the whole of `memory`, as in `guarded`.
    let tape = memory.as_mut_ptr().wrapping_add(GUARD);
    // SAFETY: `tape` has `room` bytes of `memory`, which `fields`, a slice, does not overlap.
    let status = unsafe { writer(table)(fields.as_ptr(), fields.len(), tape, room, at) };
    let mut left = blank();
    left[..room].copy_from_slice(&memory[GUARD..][..room]);
    memory[GUARD..][..room].copy_from_slice(&PATTERN[GUARD..][..room]);
    check_untouched(&memory).map(|()| (status, left))
}

/// The duration in 90 kHz ticks of `samples` at `rate`.
pub fn duration_90k(samples: u32, rate: u32) -> u32 {
    // SAFETY: the function takes and returns numbers only.
    unsafe { audio_frame_duration_90k(samples, rate) }
}

const PATTERN: [u8; GUARD + LONGEST_OUT + GUARD] = pattern();

/// Bytes that differ from their neighbours and are never small, so that a stray zero or a stray
/// number of a record shows.
const fn pattern() -> [u8; GUARD + LONGEST_OUT + GUARD] {
    let mut bytes = [0; GUARD + LONGEST_OUT + GUARD];
    let mut i = 0;
    while i < bytes.len() {
        bytes[i] = 0x80 | (i * 37 % 128) as u8;
        i += 1;
    }
    bytes
}

/// All of `memory` must be the pattern, the record aside, which the caller has taken out.
fn check_untouched(memory: &[u8; PATTERN.len()]) -> Result<(), Touched> {
    if *memory == PATTERN {
        return Ok(());
    }
    let place = memory.iter().zip(&PATTERN).position(|(now, before)| now != before);
    Err(Touched(place.expect("they differ") as isize - GUARD as isize))
}

/// The six little-endian numbers at the start of `bytes`.
fn record(bytes: &[u8]) -> [u32; 6] {
    std::array::from_fn(|i| {
        let four = [bytes[4 * i], bytes[4 * i + 1], bytes[4 * i + 2], bytes[4 * i + 3]];
        u32::from_le_bytes(four)
    })
}
