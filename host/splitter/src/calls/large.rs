//! Frames and payloads as long as they can be. Their lines are long, and so they are few.

use super::talk::Talk;
use crate::call::Call;
use crate::state::State;
use common::frames::frame;
use common::random::Random;
use common::samples::Adts;

/// One ADTS frame in so many is outside the domain of equality.
const OUTSIDE: u64 = 10;

/// An ADTS frame of that length, filled with one byte.
fn adts(length: u64, fill: u8) -> Vec<u8> {
    let fields = Adts {
        layer: 0,
        protection_absent: 1,
        rate_code: 4,
        channel_configuration: 2,
        frame_length: length,
        further_blocks: 3,
    };
    let mut bytes = fields.head([0; 16])[..7].to_vec();
    bytes.resize(length as usize, fill);
    bytes
}

/// What comes when all but the last byte of the longest frame is pending.
#[derive(Clone, Copy)]
pub enum End {
    Flush,
    LastByte,
    /// Bytes that make it a false one.
    Zeros,
}

/// The longest frame in a few payloads.
pub fn longest_frame(end: End, talk: &mut Talk, random: &mut Random) {
    let mut stream = adts(8_191, random.pick(&[0x00, 0xFF, 0x55]));
    stream.extend(adts(7 + random.below(9), 0x00));
    let first = match end {
        // The sheet's payloads have so many.
        End::Flush => 4_096,
        _ => random.pick(&[7, 184, 4_095, 4_096, 8_189]),
    };
    talk.ask(Call::New(2));
    talk.push(Some(90_000), &stream[..first]);
    talk.push(None, &stream[first..8_190]);
    match end {
        End::Flush => talk.flush(),
        End::LastByte => talk.push(Some(5), &stream[8_190..]),
        End::Zeros => talk.push(Some(6), &[0x00; 9]),
    }
}

/// A payload of 65535 bytes, and one that is a byte too long.
pub fn longest_payload(talk: &mut Talk, random: &mut Random) {
    let code = random.below(3) as u32;
    let mut payload = match random.below(3) {
        0 => vec![0x00; 65_535],
        1 => vec![0xFF; 65_535],
        _ => frames_of(code, 65_535, random),
    };
    talk.ask(Call::Set(State { locked: random.below(4) > 0, ..State::new(code) }, Vec::new()));
    talk.push(Some(0), &payload);
    payload.push(0x00);
    talk.push(Some(0), &payload);
}

/// As many bytes pending as there can be, and as long a payload: the longest buffers that a push can
/// ask for, lent just so. The longest frame is given once, and is once a false one.
pub fn longest_joined(talk: &mut Talk) {
    let pending = adts(8_191, 0xFF);
    let frames = [vec![0xFF], adts(7, 0x00).repeat(9_362)].concat();
    for payload in [frames, vec![0x00; 65_535], vec![0x00; 65_536]] {
        let state = State { pending: 8_190, ..State::new(2) };
        talk.ask(Call::Set(state, pending[..8_190].to_vec()));
        talk.push(None, &payload);
    }
}

/// One short frame of that syntax again and again.
fn frames_of(code: u32, len: usize, random: &mut Random) -> Vec<u8> {
    let kind = [2, 5, 6][code as usize];
    let mut bytes = frame(kind, OUTSIDE, random);
    while bytes.len() < 8 {
        bytes = frame(kind, OUTSIDE, random);
    }
    bytes.into_iter().cycle().take(len).collect()
}
