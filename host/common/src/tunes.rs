//! Streams by their geometry, which is samples and rate: one throughout, or tracks of several joined.

use crate::frames::{filled, kinds, short_head, NEVER};
use crate::random::Random;
use crate::samples::{with_fields, Bytes};

/// Frames of one geometry and of several lengths. In some of the streams a few bytes are lost, or
/// zeros stand between.
pub fn one_geometry(code: u32, random: &mut Random) -> Vec<u8> {
    let kind = random.pick(kinds(code));
    let head = short_head(kind, NEVER, random);
    let mut bytes = track(kind, head, 2 + random.below(8), random);
    for _ in 0..random.below(3) {
        scar(&mut bytes, random);
    }
    bytes
}

/// One to six tracks of two to four geometries, of which most differ from another in samples or in
/// rate alone.
pub fn joined(code: u32, random: &mut Random) -> Vec<u8> {
    let kind = random.pick(kinds(code));
    let mut heads = vec![short_head(kind, NEVER, random)];
    for _ in 0..=random.below(3) {
        let head = random.pick(&heads);
        heads.push(sibling(kind, head, random));
    }
    let mut bytes = Vec::new();
    for _ in 0..=random.below(6) {
        let head = random.pick(&heads);
        bytes.extend(track(kind, head, 1 + random.below(4), random));
    }
    if random.below(4) == 0 {
        scar(&mut bytes, random);
    }
    bytes
}

/// So many frames of that head's geometry.
pub fn track(kind: u32, head: Bytes, frames: u64, random: &mut Random) -> Vec<u8> {
    let frame = |random: &mut Random| filled(kind, alike(kind, head, random), random);
    (0..frames).flat_map(|_| frame(random)).collect()
}

/// A head of the same geometry, whose frame may have another length.
fn alike(kind: u32, head: Bytes, random: &mut Random) -> Bytes {
    match kind {
        1 => with_fields(head, &[(34, 6, random.below(4))]),
        2 => with_fields(head, &[(21, 11, 3 + random.below(9))]),
        3..=5 => with_fields(head, &[(16, 4, 1 + random.below(2)), (22, 1, random.below(2))]),
        // Without CRC no frame is shorter than its head.
        _ => {
            let more = random.pick(&[1, 3, 30]);
            with_fields(head, &[(15, 1, 1), (30, 13, 7 + random.below(more))])
        }
    }
}

/// A head of another geometry by one field, or of the same if the field is as it was.
fn sibling(kind: u32, head: Bytes, random: &mut Random) -> Bytes {
    let field = match (kind, random.below(2)) {
        // AC-3 has 1536 samples throughout.
        (1, _) | (2, 0) => (32, 2, random.below(3)),
        (2, _) => (34, 2, random.below(3)),
        (3..=5, 0) => (20, 2, random.below(3)),
        // Another layer, of the kinds that the syntax reads too.
        (3..=5, _) => (13, 2, 1 + random.below(3)),
        (_, 0) => (18, 4, random.below(12)),
        _ => (54, 2, random.below(4)),
    };
    with_fields(head, &[field])
}

/// Drops some bytes, or puts zeros between.
fn scar(bytes: &mut Vec<u8>, random: &mut Random) {
    let place = random.below(bytes.len() as u64 + 1) as usize;
    let len = 1 + random.below(9) as usize;
    match random.below(2) {
        0 => drop(bytes.drain(place..bytes.len().min(place + len))),
        _ => drop(bytes.splice(place..place, vec![0x00; len])),
    }
}
