//! Heads made from their fields, with the bit places of the standards' syntax tables: heads that
//! read, damaged ones, and random bytes under a sync word.

use crate::random::Random;

/// A head and the bytes that follow it.
pub type Bytes = [u8; 16];

/// The kinds of frame by number: AC-3, E-AC-3, MPEG Layers I, II, III, ADTS.
pub const KINDS: [u32; 6] = [1, 2, 3, 4, 5, 6];

/// AC-3: A/52 Tables 5.1 and 5.2.
pub struct Ac3 {
    pub fscod: u64,
    pub frmsizecod: u64,
    pub bsid: u64,
    pub acmod: u64,
    pub lfeon: u64,
}

/// E-AC-3: A/52 Table E1.2. `code2` is fscod2 where fscod is 3, else numblkscod.
pub struct Eac3 {
    pub strmtyp: u64,
    pub frmsiz: u64,
    pub fscod: u64,
    pub code2: u64,
    pub acmod: u64,
    pub lfeon: u64,
    pub bsid: u64,
}

/// MPEG audio: 11172-3 §2.4.1.3. Layer code 3 is Layer I, 2 Layer II, 1 Layer III.
pub struct Mpeg {
    pub id: u64,
    pub layer_code: u64,
    pub bit_rate_index: u64,
    pub rate_code: u64,
    pub padding: u64,
    pub mode: u64,
}

/// ADTS: 13818-7 Tables 8 and 9.
pub struct Adts {
    pub layer: u64,
    pub protection_absent: u64,
    pub rate_code: u64,
    pub channel_configuration: u64,
    pub frame_length: u64,
    pub further_blocks: u64,
}

impl Ac3 {
    /// The head with these fields; its other bits, and the bytes behind it, are those of `rest`.
    pub fn head(&self, rest: Bytes) -> Bytes {
        // lfeon stands behind the mix levels and the surround mode that acmod asks for.
        let lfeon_at = [51, 51, 53, 53, 53, 55, 53, 55][self.acmod as usize];
        let fields = [
            (0, 16, 0x0B77),
            (32, 2, self.fscod),
            (34, 6, self.frmsizecod),
            (40, 5, self.bsid),
            (48, 3, self.acmod),
            (lfeon_at, 1, self.lfeon),
        ];
        with_fields(rest, &fields)
    }

    fn any(random: &mut Random) -> Self {
        Ac3 {
            fscod: random.below(3),
            frmsizecod: random.below(38),
            bsid: random.below(9),
            acmod: random.below(8),
            lfeon: random.below(2),
        }
    }
}

impl Eac3 {
    /// As [`Ac3::head`].
    pub fn head(&self, rest: Bytes) -> Bytes {
        let fields = [
            (0, 16, 0x0B77),
            (16, 2, self.strmtyp),
            (21, 11, self.frmsiz),
            (32, 2, self.fscod),
            (34, 2, self.code2),
            (36, 3, self.acmod),
            (39, 1, self.lfeon),
            (40, 5, self.bsid),
        ];
        with_fields(rest, &fields)
    }

    fn any(random: &mut Random) -> Self {
        let fscod = random.below(4);
        Eac3 {
            strmtyp: random.below(3),
            frmsiz: random.below(2048),
            fscod,
            code2: random.below(if fscod == 3 { 3 } else { 4 }),
            acmod: random.below(8),
            lfeon: random.below(2),
            bsid: 11 + random.below(6),
        }
    }
}

impl Mpeg {
    /// As [`Ac3::head`].
    pub fn head(&self, rest: Bytes) -> Bytes {
        let fields = [
            (0, 12, 0xFFF),
            (12, 1, self.id),
            (13, 2, self.layer_code),
            (16, 4, self.bit_rate_index),
            (20, 2, self.rate_code),
            (22, 1, self.padding),
            (24, 2, self.mode),
        ];
        with_fields(rest, &fields)
    }

    fn any(layer_code: u64, random: &mut Random) -> Self {
        Mpeg {
            id: random.below(2),
            layer_code,
            bit_rate_index: 1 + random.below(14),
            rate_code: random.below(3),
            padding: random.below(2),
            mode: random.below(4),
        }
    }
}

impl Adts {
    /// As [`Ac3::head`].
    pub fn head(&self, rest: Bytes) -> Bytes {
        let fields = [
            (0, 12, 0xFFF),
            (13, 2, self.layer),
            (15, 1, self.protection_absent),
            (18, 4, self.rate_code),
            (23, 3, self.channel_configuration),
            (30, 13, self.frame_length),
            (54, 2, self.further_blocks),
        ];
        with_fields(rest, &fields)
    }

    fn any(random: &mut Random) -> Self {
        let further_blocks = random.below(4);
        // With CRC the head has so many bytes.
        let least = 9 + 2 * further_blocks;
        Adts {
            layer: 0,
            protection_absent: random.below(2),
            rate_code: random.below(12),
            channel_configuration: random.below(8),
            frame_length: least + random.below(8192 - least),
            further_blocks,
        }
    }
}

/// The syntax code under which a kind is read.
pub fn code_of(kind: u32) -> u32 {
    match kind {
        1 | 2 => 0,
        3..=5 => 1,
        _ => 2,
    }
}

/// A head of that kind that reads, its fields and all other bits by chance. It is inside the domain of
/// equality: the unchanged Rust reads it too.
pub fn good(kind: u32, random: &mut Random) -> Bytes {
    let rest = random.bytes();
    match kind {
        1 => Ac3::any(random).head(rest),
        2 => Eac3::any(random).head(rest),
        3..=5 => Mpeg::any(u64::from(6 - kind), random).head(rest),
        _ => Adts::any(random).head(rest),
    }
}

/// A head that read before one or two of its bits or bytes were changed.
pub fn damaged(kind: u32, random: &mut Random) -> Bytes {
    let mut head = good(kind, random);
    let bits_only = random.below(2) == 0;
    for _ in 0..=random.below(2) {
        let byte = &mut head[random.below(8) as usize];
        *byte = if bits_only { *byte ^ (1 << random.below(8)) } else { random.word() as u8 };
    }
    head
}

/// Random bytes; 15 of 16 begin with the sync word of `code`, so that many of them read.
pub fn random_head(code: u32, random: &mut Random) -> Bytes {
    let bytes = random.bytes();
    match (random.below(16), code) {
        (0, _) => bytes,
        (_, 0) => with_fields(bytes, &[(0, 16, 0x0B77)]),
        _ => with_fields(bytes, &[(0, 12, 0xFFF)]),
    }
}

/// `bytes` with each field set: the bit where it begins, its width, its value.
pub fn with_fields(mut bytes: Bytes, fields: &[(u32, u32, u64)]) -> Bytes {
    let (start, _) = bytes.split_first_chunk_mut::<8>().expect("16 bytes");
    let mut word = u64::from_be_bytes(*start);
    for &(at, width, value) in fields {
        let shift = 64 - at - width;
        let mask = ((1 << width) - 1) << shift;
        word = (word & !mask) | ((value << shift) & mask);
    }
    *start = word.to_be_bytes();
    bytes
}
