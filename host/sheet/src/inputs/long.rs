//! Streams of some kilobytes, so that they go through several payloads.

use common::frames::{filled, frame, kinds, likely, short_head, NEVER};
use common::random::Random;
use common::samples::{self, Bytes};
use common::soup::{self, Sort};
use common::tunes;

/// Makes a stream of frames of a syntax, or of what is made from them, about so many bytes long.
pub type Maker = fn(u32, usize, &mut Random) -> Vec<u8>;

/// All sorts of streams.
pub const SORTS: [(&str, Maker); 15] = [
    ("any bytes", any_bytes),
    ("frames of one head", one_head),
    ("frames of any heads", any_heads),
    ("short frames", short_frames),
    ("shortest frames", shortest_frames),
    ("longest frames", longest_frames),
    ("frames that end with payloads", even_frames),
    ("damaged frames", damaged),
    ("cut off", cut_off),
    ("two syntaxes", two_syntaxes),
    ("junk first", junk_first),
    ("junk between", junk_between),
    ("pieces of frames", pieces),
    ("frames of one geometry", one_geometry),
    ("joined tracks", joined),
];

/// One short frame in so many of E-AC-3 and ADTS is outside the domain of equality. A stream has
/// hundreds of frames, and should be inside for some payloads, or to its end.
const OUTSIDE: [u64; 5] = [10, 40, 160, NEVER, NEVER];

/// Streams of undamaged frames.
const WHOLE: [Maker; 8] = [
    one_head,
    any_heads,
    short_frames,
    shortest_frames,
    longest_frames,
    even_frames,
    one_geometry,
    joined,
];

/// At least so many bytes, part by part.
fn grown(len: usize, mut part: impl FnMut() -> Vec<u8>) -> Vec<u8> {
    let mut bytes = Vec::new();
    while bytes.len() < len {
        bytes.extend(part());
    }
    bytes
}

/// Any bytes, or any of those of which heads are made. Half the time behind a frame: else the first
/// payload is hardly ever taken.
fn any_bytes(code: u32, len: usize, random: &mut Random) -> Vec<u8> {
    let mut bytes = Vec::new();
    if random.below(2) == 0 {
        bytes.extend(frame(random.pick(kinds(code)), OUTSIDE[0], random));
    }
    bytes.extend(junk(code, len, random));
    bytes
}

/// Bytes that are no frames, or only by chance.
fn junk(code: u32, len: usize, random: &mut Random) -> Vec<u8> {
    let fill = random.pick(&[0x00, 0xFF, 0x0B]);
    let byte = |random: &mut Random, sort| match sort {
        0 => random.pick(likely(code)),
        1 => fill,
        _ => random.word() as u8,
    };
    let sort = random.below(4);
    (0..len).map(|_| byte(random, sort)).collect()
}

fn one_head(code: u32, len: usize, random: &mut Random) -> Vec<u8> {
    let kind = random.pick(kinds(code));
    let head = samples::good(kind, random);
    grown(len, || filled(kind, head, random))
}

/// Of all kinds of the syntax, of all rates and lengths.
fn any_heads(code: u32, len: usize, random: &mut Random) -> Vec<u8> {
    grown(len, || {
        let kind = random.pick(kinds(code));
        filled(kind, samples::good(kind, random), random)
    })
}

fn short_frames(code: u32, len: usize, random: &mut Random) -> Vec<u8> {
    let outside = random.pick(&OUTSIDE);
    short_frames_with(code, len, outside, random)
}

fn short_frames_with(code: u32, len: usize, outside: u64, random: &mut Random) -> Vec<u8> {
    grown(len, || frame(random.pick(kinds(code)), outside, random))
}

/// Frames with these fields, the others by chance.
fn frames_with(
    code: u32,
    len: usize,
    random: &mut Random,
    fields: fn(u32, &mut Random) -> Vec<(u32, u32, u64)>,
) -> Vec<u8> {
    grown(len, || {
        let kind = random.pick(kinds(code));
        let head = samples::with_fields(samples::good(kind, random), &fields(kind, random));
        filled(kind, head, random)
    })
}

/// Of E-AC-3 some that are shorter than a head: 2, 4 and 6 bytes.
fn shortest_frames(code: u32, len: usize, random: &mut Random) -> Vec<u8> {
    frames_with(code, len, random, |kind, random| match kind {
        1 => vec![(34, 6, 0)],
        2 => vec![(21, 11, random.pick(&[0, 1, 2, 3, 3, 3, 3, 3, 3, 3, 3, 4]))],
        3 | 4 => vec![(16, 4, 1)],
        // ID 0: 24 bytes at 24000 Hz.
        5 => vec![(12, 1, 0), (16, 4, 1)],
        _ => vec![(15, 1, 1), (30, 13, random.pick(&[7, 7, 7, 7, 7, 8, 9]))],
    })
}

fn longest_frames(code: u32, len: usize, random: &mut Random) -> Vec<u8> {
    frames_with(code, len, random, |kind, random| match kind {
        1 => vec![(32, 2, 2), (34, 6, 36 + random.below(2))],
        2 => vec![(21, 11, 2_047 - random.below(2))],
        // 32000 Hz, ID 1.
        3..=5 => vec![(12, 1, 1), (16, 4, 14), (20, 2, 2)],
        _ => vec![(30, 13, 8_191 - random.below(2))],
    })
}

/// Of several lengths, so that they are cut anywhere at the ends of payloads, and inside the domain.
fn one_geometry(code: u32, len: usize, random: &mut Random) -> Vec<u8> {
    let kind = random.pick(kinds(code));
    let head = short_head(kind, NEVER, random);
    grown(len, || tunes::track(kind, head, 8, random))
}

/// Of two to four geometries, and of others after a while.
fn joined(code: u32, len: usize, random: &mut Random) -> Vec<u8> {
    grown(len, || tunes::joined(code, random))
}

/// Frames of one length of which 4096 is a multiple, so that each payload ends with a frame.
fn even_frames(code: u32, len: usize, random: &mut Random) -> Vec<u8> {
    let kind = match code {
        0 => random.pick(&[1, 2]),
        // In Layers II and III there is no such length.
        1 => 3,
        _ => 6,
    };
    let fields = match kind {
        // 48000 Hz: 128 to 2048 bytes.
        1 => vec![(32, 2, 0), (34, 6, random.pick(&[0, 8, 16, 24, 32]))],
        2 => vec![(21, 11, random.pick(&[3, 63, 255, 1_023, 2_047]))],
        // 48000 Hz, not padded: 32 to 256 bytes.
        3 => vec![(12, 1, 1), (16, 4, random.pick(&[1, 2, 4, 8])), (20, 2, 1), (22, 1, 0)],
        _ => vec![(15, 1, 1), (30, 13, random.pick(&[8, 16, 512, 1_024, 2_048, 4_096]))],
    };
    let head: Bytes = samples::with_fields(samples::good(kind, random), &fields);
    grown(len, || filled(kind, head, random))
}

/// Bits flipped, bytes lost, bytes put in: one place in each kilobyte or so.
fn damaged(code: u32, len: usize, random: &mut Random) -> Vec<u8> {
    let mut bytes = random.pick(&WHOLE)(code, len, random);
    damage(&mut bytes, random);
    bytes
}

/// Damages a stream in a few places.
pub fn damage(bytes: &mut Vec<u8>, random: &mut Random) {
    for _ in 0..=random.below(2 + bytes.len() as u64 / 1_024) {
        // The first head is damaged more often than another: it decides on the first payload.
        let within = if random.below(8) == 0 { bytes.len().min(8) } else { bytes.len() };
        let place = random.below(within as u64 + 1) as usize;
        let end = bytes.len().min(place + 1 + random.below(9) as usize);
        match random.below(4) {
            0 => drop(bytes.drain(place..end)),
            1 => drop(bytes.splice(place..place, random.bytes()[..end - place].to_vec())),
            _ if place < bytes.len() => bytes[place] ^= 1 << random.below(8),
            _ => {}
        }
    }
}

/// Cut off anywhere.
fn cut_off(code: u32, len: usize, random: &mut Random) -> Vec<u8> {
    let mut bytes = random.pick(&WHOLE)(code, len, random);
    bytes.truncate(random.below(bytes.len() as u64 + 1) as usize);
    bytes
}

/// Frames of the syntax, then of another, and again, each part cut off somewhere half the time.
fn two_syntaxes(code: u32, len: usize, random: &mut Random) -> Vec<u8> {
    let other = (code + 1 + random.below(2) as u32) % 3;
    let mut turn = 0;
    grown(len, || {
        turn += 1;
        let make = random.pick(&[cut_off, short_frames]);
        make(if turn % 2 == 1 { code } else { other }, len / 3 + 1, random)
    })
}

/// Frames behind junk. Where that has whole payloads, the first frame begins a payload.
fn junk_first(code: u32, len: usize, random: &mut Random) -> Vec<u8> {
    let any = random.below(len as u64 + 1) as usize;
    let before = random.pick(&[1, 7, 100, any, 4_095, 4_096, 4_096, 4_096, 4_097, 8_192]);
    let mut bytes = junk(code, before, random);
    bytes.extend(random.pick(&WHOLE)(code, len, random));
    bytes
}

/// Frames, with junk between them or far apart.
fn junk_between(code: u32, len: usize, random: &mut Random) -> Vec<u8> {
    let outside = random.pick(&OUTSIDE);
    grown(len, || {
        let mut bytes = short_frames_with(code, len / 8 + 1, outside, random);
        match random.below(2) {
            0 => bytes.extend(junk(code, random.below(600) as usize, random)),
            _ => bytes.extend(soup::stream_with(Sort::Sparse, code, outside, random)),
        }
        bytes
    })
}

fn pieces(code: u32, len: usize, random: &mut Random) -> Vec<u8> {
    let outside = random.pick(&OUTSIDE);
    grown(len, || soup::stream_with(Sort::Pieces, code, outside, random))
}
