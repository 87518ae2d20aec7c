//! Whole frames: a head by chance, and as many bytes as it says.

use crate::random::Random;
use crate::samples::{self, code_of, Bytes};
use oracle::answers;

/// The kinds that a syntax code reads.
pub fn kinds(code: u32) -> &'static [u32] {
    match code {
        0 => &[1, 2],
        1 => &[3, 4, 5],
        _ => &[6],
    }
}

/// One in so many that there is none.
pub const NEVER: u64 = u64::MAX;

/// A frame of that kind. Most are short, so that lines stay short. Of the short ones of E-AC-3 and ADTS
/// one in `outside` has a head outside the domain of equality, of stream type 3, or with fewer bytes
/// than its head has: the unchanged Rust reads it, and gives as many bytes as it says.
pub fn frame(kind: u32, outside: u64, random: &mut Random) -> Vec<u8> {
    let head = match random.below(32) {
        0 => samples::good(kind, random),
        _ => short_head(kind, outside, random),
    };
    filled(kind, head, random)
}

/// The frame with that head, the bytes behind the head by chance.
pub fn filled(kind: u32, head: Bytes, random: &mut Random) -> Vec<u8> {
    let code = code_of(kind);
    let [_, length, ..] = answers::read(code, &head).expect("a head that was made to read");
    let mut bytes = head.to_vec();
    bytes.truncate(8);
    bytes.extend(body((length as usize).saturating_sub(8), code, random));
    bytes.truncate(length as usize);
    bytes
}

/// A head of that kind whose frame is one of the shortest. Some of E-AC-3's frames are then shorter
/// than a head.
pub fn short_head(kind: u32, outside: u64, random: &mut Random) -> Bytes {
    let head = samples::good(kind, random);
    match kind {
        1 => samples::with_fields(head, &[(34, 6, random.below(4))]),
        2 => {
            let most = random.pick(&[4, 8, 24, 24, 200]);
            let short = samples::with_fields(head, &[(21, 11, random.below(most))]);
            match random.below(outside) {
                0 => samples::with_fields(short, &[(16, 2, 3)]),
                _ => short,
            }
        }
        3..=5 => samples::with_fields(head, &[(16, 4, 1 + random.below(2))]),
        _ if random.below(outside) == 0 => {
            let blocks = 1 + random.below(3);
            samples::with_fields(head, &adts(0, 9 + random.below(2 * blocks), blocks))
        }
        _ => {
            let (without_crc, blocks) = (random.below(2), random.below(4));
            // Often just as long as the head, or a byte longer.
            let least = if without_crc == 1 { 7 } else { 9 + 2 * blocks };
            let more = random.pick(&[1, 3, 9, 60, 400]);
            samples::with_fields(head, &adts(without_crc, least + random.below(more), blocks))
        }
    }
}

/// The fields protection_absent, frame_length and the further blocks of an ADTS head.
fn adts(without_crc: u64, length: u64, blocks: u64) -> [(u32, u32, u64); 3] {
    [(15, 1, without_crc), (30, 13, length), (54, 2, blocks)]
}

/// Bytes inside a frame: one byte throughout, any bytes, or such as begin heads.
fn body(len: usize, code: u32, random: &mut Random) -> Vec<u8> {
    let fill = random.pick(&[0x00, 0x00, 0xFF, 0x0B]);
    match random.below(4) {
        0..=1 => vec![fill; len],
        2 => (0..len).map(|_| random.word() as u8).collect(),
        _ => (0..len).map(|_| random.pick(likely(code))).collect(),
    }
}

/// Bytes of which heads are made.
pub fn likely(code: u32) -> &'static [u8] {
    match code {
        0 => &[0x0B, 0x77, 0x0B, 0x77, 0x00, 0x03, 0x3F, 0x80],
        1 => &[0xFF, 0xF3, 0xFF, 0xFB, 0x14, 0x10, 0x90, 0x00],
        _ => &[0xFF, 0xF1, 0xFF, 0xF0, 0x50, 0x80, 0x00, 0xE0],
    }
}
