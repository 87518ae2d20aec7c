//! Document 01's own cases and the answers that it gives: H1 to H9, D1, frame F and the small
//! inputs of its number table; and, worked out by hand, K3's heads, the bytes that ADTS heads have, and
//! heads written from their fields.

use crate::library::Answer;
use crate::reference;
use crate::writes::Table::{self, Ac3, Adts, Eac3, Mpeg};

/// Stands for a number that the document does not give. No field of a head can be that large.
pub const UNSAID: u32 = u32::MAX;

pub struct Case {
    pub name: &'static str,
    pub code: u32,
    pub head: &'static [u8],
    pub says: Answer,
}

pub struct Duration {
    pub name: &'static str,
    pub samples: u32,
    pub rate: u32,
    pub says: u32,
}

/// True where `answer` is what the document says, as far as it says it.
pub fn agrees(says: &Answer, answer: &Answer) -> bool {
    match (says, answer) {
        (Ok(said), Ok(numbers)) => said.iter().zip(numbers).all(|(s, n)| s == n || *s == UNSAID),
        _ => says == answer,
    }
}

const fn case(name: &'static str, code: u32, head: &'static [u8], says: Answer) -> Case {
    Case { name, code, head, says }
}

/// All heads: document 01's corners, its number table, then K3's and K6's.
pub fn heads() -> impl Iterator<Item = &'static Case> {
    CORNERS.iter().chain(&NUMBERS).chain(&K3).chain(&K6)
}

#[rustfmt::skip]
pub static CORNERS: [Case; 13] = [
    case("H1", 0, &[0x0B, 0x77, 0x00, 0x00, 0x00, 0x40, 0x40], Ok([1, 128, 1536, 48000, 2, 32000])),
    case("H1, last byte 44", 0, &[0x0B, 0x77, 0x00, 0x00, 0x00, 0x40, 0x44], Ok([1, 128, 1536, 48000, 3, 32000])),
    case("H2", 0, &[0x0B, 0x77, 0x00, 0x00, 0x5E, 0x40, 0xE1], Ok([1, 1950, UNSAID, 44100, 6, 448000])),
    case("H3", 0, &[0x0B, 0x77, 0x00, 0x03, 0x3F, 0x80], Ok([2, 8, 1536, 48000, 6, UNSAID])),
    case("H4, byte 4 is 25", 0, &[0x0B, 0x77, 0x00, 0x00, 0x25, 0x40, 0x40], Ok([1, 2560, UNSAID, UNSAID, UNSAID, UNSAID])),
    case("H4, byte 4 is 26", 0, &[0x0B, 0x77, 0x00, 0x00, 0x26, 0x40, 0x40], Err(4)),
    case("H5", 1, &[0xFF, 0xFB, 0x90, 0xC0], Ok([5, 417, 1152, 44100, 1, 128000])),
    case("H5, byte 2 is 92", 1, &[0xFF, 0xFB, 0x92, 0xC0], Ok([5, 418, UNSAID, UNSAID, UNSAID, UNSAID])),
    case("H6", 1, &[0xFF, 0xF3, 0x14, 0x00], Ok([5, 24, 576, 24000, UNSAID, UNSAID])),
    case("H7", 1, &[0xFF, 0xFF, 0x14, 0x00], Ok([3, 32, 384, 48000, UNSAID, UNSAID])),
    case("H8", 2, &[0xFF, 0xF0, 0x50, 0x80, 0x01, 0x20, 0x00], Ok([6, 9, UNSAID, UNSAID, UNSAID, UNSAID])),
    case("H9", 2, &[0xFF, 0xF1, 0x50, 0x83, 0xFF, 0xE0, 0x00], Ok([6, 8191, UNSAID, UNSAID, UNSAID, UNSAID])),
    case("F", 2, &[0xFF, 0xF1, 0x50, 0x80, 0x00, 0xE0, 0x00], Ok([6, 7, 1024, 44100, 2, UNSAID])),
];

/// The small inputs of the number table. Numbers 8 to 12 are stated for the splitter's calls; 12
/// depends here on the lent buffer alone, and a run over lent lengths tries it.
#[rustfmt::skip]
pub static NUMBERS: [Case; 8] = [
    case("number 1", 0, &[0x0B, 0x77, 0x00, 0x00, 0x00, 0x40], Err(1)),
    case("number 2", 1, &[0xFF, 0xE3, 0x14, 0x00], Err(2)),
    case("number 3", 1, &[0xFF, 0xF9, 0x84, 0x00], Err(3)),
    case("number 4", 1, &[0xFF, 0xFD, 0x8C, 0x00], Err(4)),
    case("number 5", 1, &[0xFF, 0xFD, 0x04, 0x00], Err(5)),
    case("number 6", 2, &[0xFF, 0xF0, 0x50, 0x80, 0x00, 0xE0, 0x00], Err(6)),
    case("number 7", 3, &[], Err(7)),
    case("number 7, a head that code 2 reads", 3, &[0xFF, 0xF1, 0x50, 0x80, 0x00, 0xE0, 0x00], Err(7)),
];

/// K3: with CRC (byte 1 is F0, or F8 by its ID) a head has 9, 11, 13 or 15 bytes for the n of 0 to 3 in
/// the last two bits of byte 6, without it (F1) 7. frame_length is 8 × byte 4 + the top three bits of
/// byte 5, so 9 is 01 20, 10 is 01 40 and so on up to 15, 01 E0. A block has 1024 samples.
#[rustfmt::skip]
pub static K3: [Case; 14] = [
    case("K3, 8 < 9", 2, &[0xFF, 0xF0, 0x50, 0x80, 0x01, 0x00, 0x00], Err(6)),
    case("K3, 10 < 11", 2, &[0xFF, 0xF0, 0x50, 0x80, 0x01, 0x40, 0x01], Err(6)),
    case("K3, 11", 2, &[0xFF, 0xF0, 0x50, 0x80, 0x01, 0x60, 0x01], Ok([6, 11, 2048, 44100, 2, 0])),
    case("K3, 9 < 13", 2, &[0xFF, 0xF8, 0x50, 0x80, 0x01, 0x20, 0x02], Err(6)),
    case("K3, 12 < 13", 2, &[0xFF, 0xF0, 0x50, 0x80, 0x01, 0x9F, 0xFE], Err(6)),
    case("K3, 13", 2, &[0xFF, 0xF8, 0x50, 0x80, 0x01, 0xBF, 0xFE], Ok([6, 13, 3072, 44100, 2, 0])),
    case("K3, 14 < 15", 2, &[0xFF, 0xF8, 0x50, 0x80, 0x01, 0xC0, 0x03], Err(6)),
    case("K3, 15", 2, &[0xFF, 0xF0, 0x50, 0x80, 0x01, 0xE0, 0x03], Ok([6, 15, 4096, 44100, 2, 0])),
    case("K3, 7 without CRC", 2, &[0xFF, 0xF1, 0x50, 0x80, 0x00, 0xE0, 0x03], Ok([6, 7, 4096, 44100, 2, 0])),
    case("K3, 6 without CRC", 2, &[0xFF, 0xF1, 0x50, 0x80, 0x00, 0xC0, 0x03], Err(6)),
    // The numbers before 6, at 9 < 11: six bytes, the top bit of byte 1 a 0, layer 1, rate index 12.
    case("K3, number 1", 2, &[0xFF, 0xF0, 0x50, 0x80, 0x01, 0x20], Err(1)),
    case("K3, number 2", 2, &[0xFF, 0x70, 0x50, 0x80, 0x01, 0x20, 0x01], Err(2)),
    case("K3, number 3", 2, &[0xFF, 0xF2, 0x50, 0x80, 0x01, 0x20, 0x01], Err(3)),
    case("K3, number 4", 2, &[0xFF, 0xF0, 0x70, 0x80, 0x01, 0x20, 0x01], Err(4)),
];

/// K6: in E-AC-3 (bsid 11 to 16, which begins byte 5: 58 to 80) the top two bits of byte 2 are strmtyp, so
/// that C0 is type 3, with substreamid 7 F8. In AC-3 (bsid 0 to 8, 00 to 40) crc1 stands there.
#[rustfmt::skip]
pub static K6: [Case; 24] = [
    case("K6, type 0", 0, &[0x0B, 0x77, 0x00, 0x03, 0x3F, 0x80], Ok([2, 8, 1536, 48000, 6, 0])),
    case("K6, type 1", 0, &[0x0B, 0x77, 0x40, 0x03, 0x3F, 0x80], Ok([2, 8, 1536, 48000, 6, 0])),
    case("K6, type 2", 0, &[0x0B, 0x77, 0x80, 0x03, 0x3F, 0x80], Ok([2, 8, 1536, 48000, 6, 0])),
    case("K6, type 3", 0, &[0x0B, 0x77, 0xC0, 0x03, 0x3F, 0x80], Err(4)),
    case("K6, type 3, more bytes", 0, &[0x0B, 0x77, 0xC0, 0x03, 0x3F, 0x80, 0x00, 0x00, 0x00], Err(4)),
    case("K6, type 2, substreamid 7", 0, &[0x0B, 0x77, 0xB8, 0x03, 0x3F, 0x80], Ok([2, 8, 1536, 48000, 6, 0])),
    case("K6, type 3, substreamid 7", 0, &[0x0B, 0x77, 0xF8, 0x03, 0x3F, 0x80], Err(4)),
    case("K6, type 3, the longest", 0, &[0x0B, 0x77, 0xC7, 0xFF, 0x3F, 0x80], Err(4)),
    case("K6, type 3, the shortest", 0, &[0x0B, 0x77, 0xC0, 0x00, 0x3F, 0x80], Err(4)),
    case("K6, type 1, 22050 Hz", 0, &[0x0B, 0x77, 0x40, 0x03, 0xDF, 0x80], Ok([2, 8, 1536, 22050, 6, 0])),
    case("K6, type 3, 22050 Hz", 0, &[0x0B, 0x77, 0xC0, 0x03, 0xDF, 0x80], Err(4)),
    case("K6, type 3, fscod2 3", 0, &[0x0B, 0x77, 0xC0, 0x03, 0xFF, 0x80], Err(4)),
    case("K6, type 0, fscod2 3", 0, &[0x0B, 0x77, 0x00, 0x03, 0xFF, 0x80], Err(4)),
    case("K6, type 2, bsid 11", 0, &[0x0B, 0x77, 0x80, 0x03, 0x3F, 0x58], Ok([2, 8, 1536, 48000, 6, 0])),
    case("K6, type 3, bsid 11", 0, &[0x0B, 0x77, 0xC0, 0x03, 0x3F, 0x58], Err(4)),
    // The numbers before 4: five bytes, another sync word, bsid 10 and 17.
    case("K6, number 1", 0, &[0x0B, 0x77, 0xC0, 0x03, 0x3F], Err(1)),
    case("K6, number 2", 0, &[0x0B, 0x76, 0xC0, 0x03, 0x3F, 0x80], Err(2)),
    case("K6, number 3, bsid 10", 0, &[0x0B, 0x77, 0xC0, 0x03, 0x3F, 0x50], Err(3)),
    case("K6, number 3, bsid 17", 0, &[0x0B, 0x77, 0xC0, 0x03, 0x3F, 0x88], Err(3)),
    // AC-3 reads whatever crc1 is; with bsid 0, 5 and 8; six bytes of it miss the seventh alone.
    case("K6, AC-3, crc1 C000", 0, &[0x0B, 0x77, 0xC0, 0x00, 0x00, 0x40, 0x40], Ok([1, 128, 1536, 48000, 2, 32000])),
    case("K6, AC-3, crc1 FFFF", 0, &[0x0B, 0x77, 0xFF, 0xFF, 0x00, 0x40, 0x40], Ok([1, 128, 1536, 48000, 2, 32000])),
    case("K6, AC-3, bsid 0", 0, &[0x0B, 0x77, 0xC0, 0x00, 0x00, 0x00, 0x40], Ok([1, 128, 1536, 48000, 2, 32000])),
    case("K6, AC-3, bsid 5", 0, &[0x0B, 0x77, 0xC0, 0x00, 0x00, 0x28, 0x40], Ok([1, 128, 1536, 48000, 2, 32000])),
    case("K6, AC-3, six bytes", 0, &[0x0B, 0x77, 0xC0, 0x00, 0x00, 0x40], Err(1)),
];

/// How many bytes an ADTS head has, or the number that refuses it.
pub struct HeadLength {
    pub head: &'static [u8],
    pub says: Result<u64, u32>,
}

const fn has(head: &'static [u8], length: u64) -> HeadLength {
    HeadLength { head, says: Ok(length) }
}

const fn has_none(head: &'static [u8], number: u32) -> HeadLength {
    HeadLength { head, says: Err(number) }
}

/// The heads of H8, H9, F and [`K3`] again, and their neighbours.
#[rustfmt::skip]
pub static HEAD_LENGTHS: [HeadLength; 38] = [
    // 7 without CRC, however many blocks and bytes the frame has (F, three blocks more, 8191 bytes), and
    // whatever stands behind the head.
    has(&[0xFF, 0xF1, 0x50, 0x80, 0x00, 0xE0, 0x00], 7),
    has(&[0xFF, 0xF9, 0x50, 0x80, 0x00, 0xE0, 0x01], 7),
    has(&[0xFF, 0xF1, 0x50, 0x80, 0x00, 0xE0, 0x02], 7),
    has(&[0xFF, 0xF1, 0x50, 0x80, 0x01, 0x00, 0x03], 7),
    has(&[0xFF, 0xF1, 0x50, 0x83, 0xFF, 0xE0, 0x00], 7),
    has(&[0xFF, 0xF1, 0x50, 0x80, 0x00, 0xFF, 0xFF, 0xFF], 7),
    // H8, 9 with CRC and no further block: frames of 9, 10 and 8191 bytes.
    has(&[0xFF, 0xF0, 0x50, 0x80, 0x01, 0x20, 0x00], 9),
    has(&[0xFF, 0xF8, 0x50, 0x80, 0x01, 0x5F, 0xFC], 9),
    has(&[0xFF, 0xF0, 0x50, 0x83, 0xFF, 0xE0, 0x00], 9),
    // 9 + 2 × 1 = 11: frames of 11, 12 and 2048 bytes.
    has(&[0xFF, 0xF0, 0x50, 0x80, 0x01, 0x60, 0x01], 11),
    has(&[0xFF, 0xF8, 0x50, 0x80, 0x01, 0x9F, 0xFD], 11),
    has(&[0xFF, 0xF0, 0x50, 0x81, 0x00, 0x00, 0x01], 11),
    // 9 + 2 × 2 = 13: frames of 13, 14 and 256 bytes.
    has(&[0xFF, 0xF8, 0x50, 0x80, 0x01, 0xA0, 0x02], 13),
    has(&[0xFF, 0xF0, 0x50, 0x80, 0x01, 0xDF, 0xFE], 13),
    has(&[0xFF, 0xF0, 0x50, 0x80, 0x20, 0x00, 0x02], 13),
    // 9 + 2 × 3 = 15: frames of 15, 16 and 8191 bytes; the last two bits of byte 6 alone are n.
    has(&[0xFF, 0xF0, 0x50, 0x80, 0x01, 0xE0, 0x03], 15),
    has(&[0xFF, 0xF8, 0x50, 0x80, 0x02, 0x1F, 0xFF], 15),
    has(&[0xFF, 0xF0, 0xEF, 0xFF, 0xFF, 0xFF, 0xFF, 0x00], 15),
    // Too short a head, none at all among them: 1, whatever else would refuse it.
    has_none(&[], 1),
    has_none(&[0xFF], 1),
    has_none(&[0xFF, 0xF0, 0x50, 0x80, 0x01, 0x60], 1),
    has_none(&[0x00, 0x00, 0x00, 0x00, 0x00, 0x00], 1),
    // No sync word: 2, before layer, rate and length.
    has_none(&[0xFE, 0xF0, 0x50, 0x80, 0x01, 0x60, 0x01], 2),
    has_none(&[0xFF, 0xE0, 0x50, 0x80, 0x01, 0x60, 0x01], 2),
    has_none(&[0x0B, 0x77, 0x7C, 0x00, 0x00, 0x00, 0x00], 2),
    // A layer: 3, before rate and length.
    has_none(&[0xFF, 0xF2, 0x50, 0x80, 0x01, 0x60, 0x01], 3),
    has_none(&[0xFF, 0xF6, 0x70, 0x80, 0x01, 0x20, 0x01], 3),
    // Rate index 12 and 15: 4, before the length.
    has_none(&[0xFF, 0xF0, 0x70, 0x80, 0x01, 0x60, 0x01], 4),
    has_none(&[0xFF, 0xF0, 0x7C, 0x80, 0x01, 0x40, 0x01], 4),
    // 0 and 6 < 7, 8 < 9, 9 and 10 < 11, 11 and 12 < 13, 13 and 14 < 15: 6.
    has_none(&[0xFF, 0xF1, 0x50, 0x80, 0x00, 0x00, 0x00], 6),
    has_none(&[0xFF, 0xF1, 0x50, 0x80, 0x00, 0xC0, 0x03], 6),
    has_none(&[0xFF, 0xF0, 0x50, 0x80, 0x01, 0x00, 0x00], 6),
    has_none(&[0xFF, 0xF0, 0x50, 0x80, 0x01, 0x20, 0x01], 6),
    has_none(&[0xFF, 0xF8, 0x50, 0x80, 0x01, 0x5F, 0xFD], 6),
    has_none(&[0xFF, 0xF8, 0x50, 0x80, 0x01, 0x60, 0x02], 6),
    has_none(&[0xFF, 0xF0, 0x50, 0x80, 0x01, 0x80, 0x02, 0xFF], 6),
    has_none(&[0xFF, 0xF0, 0x50, 0x80, 0x01, 0xBF, 0xFF], 6),
    has_none(&[0xFF, 0xF8, 0x50, 0x80, 0x01, 0xC0, 0x03], 6),
];

/// Holds the references to [`HEAD_LENGTHS`]: the libraries do not say how long a head is, so that no
/// other comparison does. An error says at which they fail.
pub fn check_head_lengths() -> Result<(), String> {
    for HeadLength { head, says } in &HEAD_LENGTHS {
        let at = |what| format!("bytes of the head {head:02X?}: {what}");
        let answer = reference::head_length(head).map_err(at)?.answer;
        if answer != *says {
            return Err(at(format!("by hand {says:?}, here {answer:?}")));
        }
    }
    Ok(())
}

pub static DURATIONS: [Duration; 2] = [
    Duration { name: "D1", samples: 65536, rate: 1, says: 1_603_272_704 },
    Duration { name: "D1, 0 Hz", samples: 65536, rate: 0, says: 0 },
];

/// A head written from its fields.
pub struct Write {
    pub table: Table,
    pub fields: &'static [u32],
    pub room: usize,
    pub at: u64,
    /// The number of the refusal, or 0.
    pub says: u32,
    /// What stands at the place then.
    pub bytes: &'static [u8],
}

const fn written(table: Table, fields: &'static [u32], bytes: &'static [u8]) -> Write {
    Write { table, fields, room: bytes.len() + 3, at: 2, says: 0, bytes }
}

const fn refused(table: Table, fields: &'static [u32], room: usize, at: u64, says: u32) -> Write {
    Write { table, fields, room, at, says, bytes: &[] }
}

/// Document 01's heads from their fields; then the order of the refusals (13, 12, the reader's own),
/// bsid, fields that are left out, and places; at last K3's heads, and K6's.
#[rustfmt::skip]
pub static WRITES: [Write; 73] = [
    written(Ac3, &[0x0B77, 0, 0, 0, 8, 0, 2, 0, 0, 0, 0], &[0x0B, 0x77, 0x00, 0x00, 0x00, 0x40, 0x40]),
    written(Ac3, &[0x0B77, 0, 0, 0, 8, 0, 2, 0, 0, 0, 1], &[0x0B, 0x77, 0x00, 0x00, 0x00, 0x40, 0x44]),
    written(Ac3, &[0x0B77, 0, 1, 30, 8, 0, 7, 0, 0, 0, 1], &[0x0B, 0x77, 0x00, 0x00, 0x5E, 0x40, 0xE1]),
    written(Ac3, &[0x0B77, 0xABCD, 2, 36, 6, 5, 3, 2, 0, 0, 1], &[0x0B, 0x77, 0xAB, 0xCD, 0xA4, 0x35, 0x74]),
    written(Ac3, &[0x0B77, 0xABCD, 2, 36, 6, 5, 4, 0, 1, 0, 1], &[0x0B, 0x77, 0xAB, 0xCD, 0xA4, 0x35, 0x8C]),
    written(Ac3, &[0x0B77, 0xABCD, 2, 36, 6, 5, 5, 2, 1, 0, 1], &[0x0B, 0x77, 0xAB, 0xCD, 0xA4, 0x35, 0xB3]),
    written(Ac3, &[0x0B77, 0xABCD, 2, 36, 6, 5, 2, 0, 0, 3, 1], &[0x0B, 0x77, 0xAB, 0xCD, 0xA4, 0x35, 0x5C]),
    written(Ac3, &[0x0B77, 0xABCD, 2, 36, 6, 5, 1, 0, 0, 0, 1], &[0x0B, 0x77, 0xAB, 0xCD, 0xA4, 0x35, 0x30]),
    written(Eac3, &[0x0B77, 0, 0, 3, 0, 0, 3, 7, 1, 16], &[0x0B, 0x77, 0x00, 0x03, 0x3F, 0x80]),
    written(Eac3, &[0x0B77, 1, 5, 0x5A7, 3, 2, 0, 5, 0, 11], &[0x0B, 0x77, 0x6D, 0xA7, 0xEA, 0x58]),
    written(Mpeg, &[0xFFF, 1, 1, 1, 9, 0, 0, 0, 3, 0, 0, 0, 0], &[0xFF, 0xFB, 0x90, 0xC0]),
    written(Mpeg, &[0xFFF, 0, 1, 1, 1, 1, 0, 0, 0, 0, 0, 0, 0], &[0xFF, 0xF3, 0x14, 0x00]),
    written(Mpeg, &[0xFFF, 1, 3, 1, 1, 1, 0, 0, 0, 0, 0, 0, 0], &[0xFF, 0xFF, 0x14, 0x00]),
    written(Mpeg, &[0xFFF, 1, 2, 0, 14, 2, 1, 1, 1, 3, 1, 0, 3], &[0xFF, 0xFC, 0xEB, 0x7B]),
    written(Adts, &[0xFFF, 0, 0, 1, 1, 4, 0, 2, 0, 0, 0, 0, 7, 0, 0], &[0xFF, 0xF1, 0x50, 0x80, 0x00, 0xE0, 0x00]),
    written(Adts, &[0xFFF, 0, 0, 0, 1, 4, 0, 2, 0, 0, 0, 0, 9, 0, 0], &[0xFF, 0xF0, 0x50, 0x80, 0x01, 0x20, 0x00]),
    written(Adts, &[0xFFF, 1, 0, 1, 3, 11, 1, 7, 1, 0, 1, 0, 4660, 1445, 3], &[0xFF, 0xF9, 0xEF, 0xEA, 0x46, 0x96, 0x97]),
    refused(Ac3, &[0x10000, 0, 0, 0, 8, 0, 2, 0, 0, 0, 0], 6, 0, 13),
    refused(Ac3, &[0x0B78, 0, 0, 0, 8, 0, 2, 0, 0, 0, 0], 6, 0, 12),
    refused(Ac3, &[0x0B78, 0, 0, 0, 8, 0, 2, 0, 0, 0, 0], 7, 0, 2),
    refused(Eac3, &[0x0B77, 0, 0, 3, 3, 3, 1, 7, 1, 16], 6, 1, 13),
    refused(Eac3, &[0x0B77, 0, 0, 3, 3, 3, 0, 7, 1, 16], 6, 1, 12),
    refused(Eac3, &[0x0B77, 0, 0, 3, 3, 3, 0, 7, 1, 16], 7, 1, 4),
    refused(Mpeg, &[0xFFF, 1, 1, 1, 16, 3, 0, 0, 3, 0, 0, 0, 0], 7, 4, 13),
    refused(Mpeg, &[0xFFF, 1, 1, 1, 15, 3, 0, 0, 3, 0, 0, 0, 0], 7, 4, 12),
    refused(Mpeg, &[0xFFF, 1, 1, 1, 15, 3, 0, 0, 3, 0, 0, 0, 0], 8, 4, 5),
    refused(Adts, &[0xFFF, 0, 4, 1, 1, 4, 0, 2, 0, 0, 0, 0, 6, 0, 0], 9, 3, 13),
    refused(Adts, &[0xFFF, 0, 1, 1, 1, 4, 0, 2, 0, 0, 0, 0, 6, 0, 0], 9, 3, 12),
    refused(Adts, &[0xFFF, 0, 1, 1, 1, 4, 0, 2, 0, 0, 0, 0, 6, 0, 0], 10, 3, 3),
    refused(Adts, &[0xFFF, 0, 0, 1, 1, 4, 0, 2, 0, 0, 0, 0, 6, 0, 0], 10, 3, 6),
    refused(Ac3, &[0x0B77, 0, 0, 0, 9, 0, 2, 0, 0, 0, 0], 7, 0, 3),
    refused(Ac3, &[0x0B77, 0, 0, 0, 11, 0, 2, 0, 0, 0, 0], 7, 0, 13),
    refused(Ac3, &[0x0B77, 0, 0, 0, 16, 0, 2, 0, 0, 0, 0], 7, 0, 13),
    refused(Ac3, &[0x0B77, 0, 0, 0, 17, 0, 2, 0, 0, 0, 0], 7, 0, 3),
    refused(Ac3, &[0x0B77, 0, 0, 0, 32, 0, 2, 0, 0, 0, 0], 7, 0, 13),
    refused(Eac3, &[0x0B77, 0, 0, 3, 0, 0, 3, 7, 1, 8], 6, 0, 13),
    refused(Eac3, &[0x0B77, 0, 0, 3, 0, 0, 3, 7, 1, 10], 6, 0, 3),
    refused(Eac3, &[0x0B77, 0, 0, 3, 0, 0, 3, 7, 1, 31], 6, 0, 3),
    refused(Eac3, &[0x0B77, 0, 0, 3, 0, 0, 3, 7, 1, 32], 6, 0, 13),
    refused(Ac3, &[0x0B77, 0, 0, 0, 8, 0, 2, 1, 0, 0, 0], 7, 0, 13),
    refused(Eac3, &[0x0B77, 0, 0, 3, 0, 1, 3, 7, 1, 16], 6, 0, 13),
    refused(Eac3, &[0x0B77, 0, 0, 3, 3, 1, 3, 7, 1, 16], 6, 0, 13),
    refused(Ac3, &[0x0B77, 0, 0, 0, 8, 0, 2, 0, 0, 0, 0], 0, 0, 12),
    refused(Ac3, &[0x0B77, 0, 0, 0, 8, 0, 2, 0, 0, 0, 0], 8, 2, 12),
    refused(Ac3, &[0x0B77, 0, 0, 0, 8, 0, 2, 0, 0, 0, 0], 8, 9, 12),
    refused(Mpeg, &[0xFFF, 1, 1, 1, 9, 0, 0, 0, 3, 0, 0, 0, 0], 4, u64::MAX - 3, 12),
    refused(Mpeg, &[0xFFF, 1, 1, 1, 9, 0, 0, 0, 3, 0, 0, 0, 0], 4, u64::MAX, 12),
    // With CRC (the fourth field 0) and n further blocks (the last) 9 + 2 × n bytes are the least.
    written(Adts, &[0xFFF, 0, 0, 0, 1, 4, 0, 2, 0, 0, 0, 0, 11, 0, 1], &[0xFF, 0xF0, 0x50, 0x80, 0x01, 0x60, 0x01]),
    written(Adts, &[0xFFF, 1, 0, 0, 1, 4, 0, 2, 0, 0, 0, 0, 13, 2047, 2], &[0xFF, 0xF8, 0x50, 0x80, 0x01, 0xBF, 0xFE]),
    written(Adts, &[0xFFF, 0, 0, 0, 1, 4, 0, 2, 0, 0, 0, 0, 15, 0, 3], &[0xFF, 0xF0, 0x50, 0x80, 0x01, 0xE0, 0x03]),
    written(Adts, &[0xFFF, 0, 0, 1, 1, 4, 0, 2, 0, 0, 0, 0, 7, 0, 3], &[0xFF, 0xF1, 0x50, 0x80, 0x00, 0xE0, 0x03]),
    refused(Adts, &[0xFFF, 0, 0, 0, 1, 4, 0, 2, 0, 0, 0, 0, 8, 0, 0], 10, 3, 6),
    refused(Adts, &[0xFFF, 0, 0, 0, 1, 4, 0, 2, 0, 0, 0, 0, 9, 0, 1], 10, 3, 6),
    refused(Adts, &[0xFFF, 0, 0, 0, 1, 4, 0, 2, 0, 0, 0, 0, 10, 2047, 1], 10, 3, 6),
    refused(Adts, &[0xFFF, 1, 0, 0, 1, 4, 0, 2, 0, 0, 0, 0, 11, 0, 2], 10, 3, 6),
    refused(Adts, &[0xFFF, 0, 0, 0, 1, 4, 0, 2, 0, 0, 0, 0, 12, 0, 2], 10, 3, 6),
    refused(Adts, &[0xFFF, 0, 0, 0, 1, 4, 0, 2, 0, 0, 0, 0, 13, 0, 3], 10, 3, 6),
    refused(Adts, &[0xFFF, 1, 0, 0, 1, 4, 0, 2, 0, 0, 0, 0, 14, 2047, 3], 10, 3, 6),
    // 13, 12, 2, 3 and 4 come before 6.
    refused(Adts, &[0xFFF, 0, 0, 0, 1, 4, 0, 2, 0, 0, 0, 0, 9, 0, 4], 10, 3, 13),
    refused(Adts, &[0xFFF, 0, 0, 0, 1, 4, 0, 2, 0, 0, 0, 0, 9, 0, 1], 9, 3, 12),
    refused(Adts, &[0xFFE, 0, 0, 0, 1, 4, 0, 2, 0, 0, 0, 0, 9, 0, 1], 10, 3, 2),
    refused(Adts, &[0xFFF, 0, 1, 0, 1, 12, 0, 2, 0, 0, 0, 0, 9, 0, 1], 10, 3, 3),
    refused(Adts, &[0xFFF, 0, 0, 0, 1, 12, 0, 2, 0, 0, 0, 0, 9, 0, 1], 10, 3, 4),
    // The second field of E-AC-3 is strmtyp: 3 is refused by 4, behind 13, 12, 2 and 3.
    written(Eac3, &[0x0B77, 2, 7, 3, 0, 0, 3, 7, 1, 16], &[0x0B, 0x77, 0xB8, 0x03, 0x3F, 0x80]),
    refused(Eac3, &[0x0B77, 3, 0, 3, 0, 0, 3, 7, 1, 16], 9, 3, 4),
    refused(Eac3, &[0x0B77, 3, 7, 2047, 3, 2, 0, 0, 0, 11], 9, 3, 4),
    refused(Eac3, &[0x0B77, 4, 0, 3, 0, 0, 3, 7, 1, 16], 9, 3, 13),
    refused(Eac3, &[0x0B77, 3, 0, 3, 0, 0, 3, 7, 1, 8], 9, 3, 13),
    refused(Eac3, &[0x0B77, 3, 0, 3, 0, 0, 3, 7, 1, 16], 8, 3, 12),
    refused(Eac3, &[0x0B78, 3, 0, 3, 0, 0, 3, 7, 1, 16], 9, 3, 2),
    refused(Eac3, &[0x0B77, 3, 0, 3, 0, 0, 3, 7, 1, 17], 9, 3, 3),
    // The second of AC-3 is crc1, whatever it begins with.
    written(Ac3, &[0x0B77, 0xC000, 0, 0, 8, 0, 2, 0, 0, 0, 0], &[0x0B, 0x77, 0xC0, 0x00, 0x00, 0x40, 0x40]),
    written(Ac3, &[0x0B77, 0xFFFF, 0, 0, 8, 0, 2, 0, 0, 0, 0], &[0x0B, 0x77, 0xFF, 0xFF, 0x00, 0x40, 0x40]),
];
