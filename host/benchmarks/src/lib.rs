//! The streams of the benchmarks, and their median.

use common::random::Random;
use common::samples::{Ac3, Adts, Bytes, Eac3, Mpeg};
use oracle::answers;

/// The most bytes of a stream.
const MOST: usize = 1_000_000;

pub struct Stream {
    pub name: &'static str,
    pub code: u32,
    pub bytes: Vec<u8>,
}

/// All of them: frames of one kind, then bytes in which no head reads.
pub fn streams() -> Vec<Stream> {
    vec![
        frames("AC-3, 1536", 0, |_, rest| ac3().head(rest)),
        frames("E-AC-3, 768", 0, |_, rest| eac3().head(rest)),
        frames("MP2, 576", 1, |_, rest| mpeg(2, 10, 1, 0).head(rest)),
        // 128000 bit/s at 44100 Hz: 417.96 bytes a frame.
        frames("MP3, 417 and 418", 1, |n, rest| mpeg(1, 9, 0, u64::from(n % 25 > 0)).head(rest)),
        frames("ADTS, 250 to 499", 2, |_, rest| adts(250 + rest[15] as u64 * 250 / 256).head(rest)),
        frames("ADTS, 8191", 2, |_, rest| adts(8_191).head(rest)),
        without_head("no head, AC-3", 0),
        without_head("no head, MPEG", 1),
        without_head("no head, ADTS", 2),
    ]
}

/// 384000 bit/s at 48000 Hz.
fn ac3() -> Ac3 {
    Ac3 { fscod: 0, frmsizecod: 28, bsid: 8, acmod: 7, lfeon: 1 }
}

fn eac3() -> Eac3 {
    Eac3 { strmtyp: 0, frmsiz: 383, fscod: 0, code2: 3, acmod: 7, lfeon: 1, bsid: 16 }
}

fn mpeg(layer_code: u64, bit_rate_index: u64, rate_code: u64, padding: u64) -> Mpeg {
    Mpeg { id: 1, layer_code, bit_rate_index, rate_code, padding, mode: 1 }
}

fn adts(frame_length: u64) -> Adts {
    Adts {
        layer: 0,
        protection_absent: 1,
        rate_code: 4,
        channel_configuration: 2,
        frame_length,
        further_blocks: 0,
    }
}

/// Frames by number, as many as fit, filled with any bytes.
fn frames(name: &'static str, code: u32, head: fn(u32, Bytes) -> Bytes) -> Stream {
    let mut random = Random::new(1);
    let mut bytes = Vec::new();
    for n in 0.. {
        let head = head(n, random.bytes());
        let [_, length, ..] = answers::read(code, &head).expect("a head that was made to read");
        if bytes.len() + length as usize > MOST {
            break;
        }
        bytes.extend(head);
        bytes.extend((head.len() as u32..length).map(|_| random.word() as u8));
    }
    Stream { name, code, bytes }
}

/// Any bytes, those changed where a head would read.
fn without_head(name: &'static str, code: u32) -> Stream {
    let mut random = Random::new(2);
    let mut bytes: Vec<u8> = (0..MOST).map(|_| random.word() as u8).collect();
    // From the end, since a change at a place can make a head of none that begins behind it.
    for place in (0..MOST).rev() {
        if answers::read(code, &bytes[place..]).is_some() {
            bytes[place] = 0x00;
        }
    }
    Stream { name, code, bytes }
}

pub fn median(mut numbers: Vec<f64>) -> f64 {
    numbers.sort_by(f64::total_cmp);
    numbers[numbers.len() / 2]
}
