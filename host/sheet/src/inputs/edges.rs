//! Streams that end, or whose frames begin, about the ends of payloads.

use super::input::{random, Input};
use super::long::{Maker, SORTS};
use crate::requested::cases::{F, G, H, T, X, Y};
use common::random::Random;
use common::samples::{with_fields, Adts};
use std::ops::RangeInclusive;

/// Lengths of streams, about those of none to three payloads.
#[rustfmt::skip]
pub const LENGTHS: [usize; 17] =
    [0, 1, 2, 7, 8, 4_094, 4_095, 4_096, 4_097, 4_098, 8_191, 8_192, 8_193, 8_194, 12_287, 12_288, 12_289];

/// The names of these inputs.
pub const ENDS: &str = "streams that end about a payload's end";
pub const BEGINNINGS: &str = "frames that begin about a payload's end";
pub const OUTSIDE: &str = "a head outside the domain about a payload's end";
pub const CHANGES: &str = "another geometry about a payload's end";
pub const TAILS: &str = "the timestamp for a tail";

/// Frames of E-AC-3 and MPEG audio: 256 samples at 44100 Hz, 512 at 48000 Hz; 576 at 24000 Hz, without
/// and with padding, at 22050 Hz, and 1152 at 24000 Hz.
const L: [u8; 8] = [0x0B, 0x77, 0x00, 0x03, 0x4F, 0x80, 0x00, 0x00];
const O: [u8; 8] = [0x0B, 0x77, 0x00, 0x03, 0x1F, 0x80, 0x00, 0x00];
const M: [u8; 4] = [0xFF, 0xF3, 0x14, 0x00];
const PADDED: [u8; 4] = [0xFF, 0xF3, 0x16, 0x00];
const N: [u8; 4] = [0xFF, 0xF3, 0x10, 0x00];
const P: [u8; 4] = [0xFF, 0xF5, 0x14, 0x00];

/// Bytes of a payload.
const PAYLOAD: usize = 4_096;

/// For each code and length.
pub fn inputs(seed: u64) -> impl Iterator<Item = Input> {
    let each = (0..3).flat_map(|code| LENGTHS.map(|len| (code, len)));
    each.zip(0..).flat_map(move |((code, len), n)| {
        let random = &mut random(seed, 2 << 20 | n);
        SORTS[1..8].iter().flat_map(|(_, make)| both(make, code, len, random)).collect::<Vec<_>>()
    })
}

/// A stream that ends there, and one that begins there, behind zeros.
fn both(make: &Maker, code: u32, len: usize, random: &mut Random) -> [Input; 2] {
    // Some bytes more: damage may take some away.
    let stream = make(code, len + 200, random);
    let behind = [&vec![0x00; len], &make(code, 3_000, random)[..]].concat();
    [
        Input::of_stream(("inputs", ENDS), code, &stream[..len]),
        Input::of_stream(("inputs", BEGINNINGS), code, &behind),
    ]
}

/// Frames, one that is outside the domain of equality, and frames again, in ADTS and in E-AC-3: it
/// begins at each place about the first payload's end, so that the domain is left in the first or in
/// the second.
pub fn outside() -> impl Iterator<Item = Input> {
    let adts = (4_080..=4_105).map(|at| (2, stream(at, &F, first_frame, &X)));
    // Its frames have an even number of bytes.
    let eac3 = (4_080..=4_105).step_by(2).map(|at| (0, stream(at, &G, first_of_eac3, &T)));
    adts.chain(eac3).map(|(code, stream)| Input::of_stream(("inputs", OUTSIDE), code, &stream))
}

/// Frames of one geometry, then three of another, three of a third, and two of the first: the change
/// stands at each place about the first payload's end, so that head or frame are cut there too.
pub fn changes() -> impl Iterator<Item = Input> {
    let adts = PLACES
        .map(|at| (2, [&adts_up_to(at)[..], &H.repeat(3), &Y.repeat(3), &F.repeat(2)].concat()));
    let eac3 = PLACES.step_by(2).map(|at| {
        let before = [&first_of_eac3(8 + at % 8)[..], &G.repeat(at / 8 - 1)].concat();
        (0, [&before[..], &L.repeat(3), &O.repeat(3), &G.repeat(2)].concat())
    });
    // 170 frames of 24 bytes, of which as many are padded as bytes are asked for beyond them.
    let mpeg = PLACES.map(|at| {
        let padded = at - 24 * 170;
        let before = [mpeg(PADDED, 25).repeat(padded), mpeg(M, 24).repeat(170 - padded)].concat();
        let behind = [mpeg(N, 26).repeat(3), mpeg(P, 48).repeat(3), mpeg(M, 24).repeat(2)].concat();
        (1, [before, behind].concat())
    });
    adts.chain(eac3)
        .chain(mpeg)
        .map(|(code, stream)| Input::of_stream(("inputs", CHANGES), code, &stream))
}

/// Places about the first payload's end.
const PLACES: RangeInclusive<usize> = 4_080..=4_105;

fn adts_up_to(at: usize) -> Vec<u8> {
    [&first_frame(F.len() + at % F.len())[..], &F.repeat(at / F.len() - 1)].concat()
}

fn mpeg(head: [u8; 4], length: usize) -> Vec<u8> {
    let mut frame = head.to_vec();
    frame.resize(length, 0x00);
    frame
}

/// A frame that is turned down for the zeros behind it, and at the payload's end a part of a frame, too
/// short to be read: the timestamp is for that part. Behind it come the frame's rest, or zeros, and
/// frames of that geometry, cut at the second payload's end too, and of another.
pub fn tails() -> impl Iterator<Item = Input> {
    let codes = [
        (0, G.to_vec(), L.to_vec(), 8),
        (1, mpeg(M, 24), mpeg(N, 26), 4),
        (2, F.to_vec(), H.to_vec(), 7),
    ];
    codes.into_iter().flat_map(|(code, frame, other, need)| {
        (1..need).flat_map(move |len| {
            let zeros = vec![0x00; PAYLOAD - frame.len() - len];
            let more = frame.repeat(PAYLOAD / frame.len());
            let first = [&frame[..], &zeros, &frame[..len]].concat();
            let behind = [&more[..], &other.repeat(3), &frame.repeat(2)].concat();
            [
                [&first[..], &frame[len..], &behind].concat(),
                [&first[..], &frame[len..], &other, &behind].concat(),
                [&first[..], &[0x00; 9], &other, &behind].concat(),
            ]
            .map(|stream| Input::of_stream(("inputs", TAILS), code, &stream))
        })
    })
}

/// The same before frames of 4096 bytes, so that each payload ends with as short a part of the next one:
/// S6 of document 01, where the unchanged module repeats the time.
pub fn tails_again() -> impl Iterator<Item = Input> {
    let codes =
        [(0, G.to_vec(), first_of_eac3(PAYLOAD), 8), (2, F.to_vec(), first_frame(PAYLOAD), 7)];
    codes.into_iter().flat_map(|(code, frame, long, need)| {
        (1..need).map(move |len| {
            let zeros = vec![0x00; PAYLOAD - frame.len() - len];
            let stream = [&frame[..], &zeros, &long.repeat(4)].concat();
            Input::of_stream(("inputs", TAILS), code, &stream)
        })
    })
}

/// Frames, one of them as long as the others leave, `outside` at that place, and three frames.
fn stream(at: usize, frame: &[u8], first: fn(usize) -> Vec<u8>, outside: &[u8]) -> Vec<u8> {
    let len = frame.len();
    let before = [&first(len + at % len)[..], &frame.repeat(at / len - 1)].concat();
    [&before[..], outside, &frame.repeat(3)].concat()
}

/// A frame like G of that length: frmsiz is half of it, less 1.
fn first_of_eac3(length: usize) -> Vec<u8> {
    let mut head = [0; 16];
    head[..G.len()].copy_from_slice(&G);
    let mut frame = with_fields(head, &[(21, 11, length as u64 / 2 - 1)]).to_vec();
    frame.resize(length, 0x00);
    frame
}

/// A frame like F of that length.
fn first_frame(length: usize) -> Vec<u8> {
    let fields = Adts {
        layer: 0,
        protection_absent: 1,
        rate_code: 4,
        channel_configuration: 2,
        frame_length: length as u64,
        further_blocks: 0,
    };
    let mut frame = fields.head([0; 16]).to_vec();
    frame.resize(length, 0x00);
    frame
}
