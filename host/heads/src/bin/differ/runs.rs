//! The runs of the differential runner: which heads and durations are compared.

use crate::compare::{difference, words, Difference, Outcome, Tally};
use crate::Options;
use common::random::Random;
use common::samples::{self, Bytes, KINDS};
use heads::cases;
use heads::library::{self, LONGEST_OUT, LONGEST_TAPE, RECORD};
use heads::writes::Table;

/// Heads in each of the runs over head lengths and lent lengths.
const SAMPLES: u32 = 20_000;

/// Every rate that a head can name.
const RATES: [u32; 12] =
    [8_000, 11_025, 12_000, 16_000, 22_050, 24_000, 32_000, 44_100, 48_000, 64_000, 88_200, 96_000];

/// Document 01's own cases, K3's and K6's: the answer by hand is held against the one that all sides give.
pub fn document_cases(tally: &mut Tally, _: &Options) -> Outcome {
    for case in cases::heads() {
        let answer = tally.agreed(case.code, case.head, RECORD)?;
        if !cases::agrees(&case.says, &answer) {
            let said = words(case.says).replace(&cases::UNSAID.to_string(), "?");
            let found = words(answer);
            let answers = format!("{}: the document {said}, each side here {found}", case.name);
            return Err(difference(case.code, case.head, &answers));
        }
    }
    Ok(())
}

/// Document 01's durations, then extremes of both arguments, real rates and random numbers.
pub fn durations(tally: &mut Tally, options: &Options) -> Outcome {
    for case in &cases::DURATIONS {
        tally.duration(case.samples, case.rate)?;
        if library::duration_90k(case.samples, case.rate) != case.says {
            let what = format!("{}: only the document says {}", case.name, case.says);
            return Err(Difference(what));
        }
    }
    let extremes = [0, 1, 2, 3, 65_535, 65_536, 1 << 31, u32::MAX - 1, u32::MAX];
    let samples = [256, 384, 512, 576, 768, 1024, 1152, 1536, 2048, 3072, 4096];
    for samples in extremes.into_iter().chain(samples) {
        for rate in extremes.into_iter().chain(RATES) {
            tally.duration(samples, rate)?;
        }
    }
    let mut random = Random::new(options.seed);
    for _ in 0..1_000_000 {
        // Numbers of every size, not only the large ones that a plain random number gives.
        let samples = random.word() as u32 >> random.below(32);
        let rate = random.word() as u32 >> random.below(32);
        tally.duration(samples, rate)?;
    }
    Ok(())
}

/// Codes above 2 are refused with 7 whatever the head and the lent length are, 12 included.
pub fn other_codes(tally: &mut Tally, _: &Options) -> Outcome {
    for code in [3, 4, 255, 1 << 31, u32::MAX] {
        for case in cases::heads() {
            for out_len in 0..=LONGEST_OUT {
                tally.head_into(code, case.head, out_len)?;
            }
        }
    }
    Ok(())
}

/// Heads made to read: each of them must, as the kind that it was made for, and inside the domain.
pub fn good_heads(tally: &mut Tally, options: &Options) -> Outcome {
    let mut random = Random::new(options.seed);
    for _ in 0..SAMPLES {
        let kind = random.pick(&KINDS);
        let (code, head) = (samples::code_of(kind), samples::good(kind, &mut random));
        let answer = tally.agreed(code, &head, RECORD)?;
        if answer.map(|six| six[0]) != Ok(kind) {
            let answers = format!("made as kind {kind}, {}", words(answer));
            return Err(difference(code, &head, &answers));
        }
    }
    outside_are(tally, [0, 0])
}

/// Good and damaged heads at every lent length: 12 below 24, whatever the head is.
pub fn lent_lengths(tally: &mut Tally, options: &Options) -> Outcome {
    let mut random = Random::new(options.seed);
    for _ in 0..SAMPLES {
        let (code, head) = good_or_damaged(&mut random);
        let head_len = random.below(17) as usize;
        for out_len in 0..=LONGEST_OUT {
            tally.head_into(code, &head[..head_len], out_len)?;
        }
    }
    Ok(())
}

/// Good and damaged heads cut at every length, and with many bytes behind them.
pub fn head_lengths(tally: &mut Tally, options: &Options) -> Outcome {
    let mut random = Random::new(options.seed);
    let mut long = vec![0xFF; 65_536];
    for _ in 0..SAMPLES {
        let (code, head) = good_or_damaged(&mut random);
        for head_len in 0..=head.len() {
            tally.head(code, &head[..head_len])?;
        }
        long[..head.len()].copy_from_slice(&head);
        tally.head(code, &long)?;
    }
    Ok(())
}

/// Every (byte 0, byte 1) in each of document 01's heads.
pub fn sync_words(tally: &mut Tally, _: &Options) -> Outcome {
    for case in cases::heads().filter(|case| case.code <= 2) {
        every_pair(tally, case.code, case.head, 0)?;
    }
    Ok(())
}

/// Every (byte 1, byte 2) in each of document 01's heads of MPEG and ADTS, behind a byte 0 of FF.
pub fn second_and_third_bytes(tally: &mut Tally, _: &Options) -> Outcome {
    for case in cases::heads().filter(|case| matches!(case.code, 1 | 2)) {
        let mut head = case.head.to_vec();
        head[0] = 0xFF;
        every_pair(tally, case.code, &head, 1)?;
    }
    Ok(())
}

/// Every (byte 1, byte 2) behind each first byte of a sync word, with the rest of each of document
/// 01's heads. The heads at places 0 and 1 are both compared, and must not both read: a splitter that
/// goes on by a byte from a head that reads finds none there.
pub fn overlapping_heads(tally: &mut Tally, _: &Options) -> Outcome {
    for case in cases::heads().filter(|case| case.code <= 2) {
        let mut bytes = [&[if case.code == 0 { 0x0B } else { 0xFF }], case.head].concat();
        bytes.resize(9, 0x00);
        for pair in 0..=u16::MAX {
            bytes[1..3].copy_from_slice(&pair.to_be_bytes());
            let first = tally.agreed(case.code, &bytes, RECORD)?;
            let second = tally.agreed(case.code, &bytes[1..], RECORD)?;
            if first.is_ok() && second.is_ok() {
                return Err(difference(case.code, &bytes, "a head at place 0 and one at place 1"));
            }
        }
    }
    Ok(())
}

/// Every MPEG head under the sync word.
pub fn mpeg_words(tally: &mut Tally, _: &Options) -> Outcome {
    for low in 0..1u32 << 20 {
        tally.head(1, &(0xFFF0_0000 | low).to_be_bytes())?;
    }
    Ok(())
}

/// Every first four bytes of ADTS under the sync word, the other bytes random.
pub fn adts_words(tally: &mut Tally, options: &Options) -> Outcome {
    let mut random = Random::new(options.seed);
    for low in 0..1u32 << 20 {
        let mut head = random.bytes();
        head[..4].copy_from_slice(&(0xFFF0_0000 | low).to_be_bytes());
        tally.head(2, &head[..7])?;
    }
    Ok(())
}

/// Every ADTS frame length, with and without CRC, with every byte 6; all other bits random.
pub fn adts_lengths(tally: &mut Tally, options: &Options) -> Outcome {
    let mut random = Random::new(options.seed);
    for frame_length in 0..8192 {
        for protection_absent in 0..2 {
            for byte_6 in 0..256 {
                let fields = [(15, 1, protection_absent), (30, 13, frame_length), (48, 8, byte_6)];
                let head = samples::with_fields(samples::good(6, &mut random), &fields);
                tally.head(2, &head[..7])?;
            }
        }
    }
    Ok(())
}

/// K3: ADTS heads about the bound of their frame_length, which with CRC and n further blocks is
/// 9 + 2 × n, at most 15; and numbers far above it, whose low bits alone are below. Each is read with
/// a byte too few, with all, and with one more; and written.
pub fn short_adts_frames(tally: &mut Tally, _: &Options) -> Outcome {
    for frame_length in (0..32).chain([256, 2048, 2057, 4096, 4106, 8191]) {
        for rate_code in [0, 11, 12, 15] {
            for choice in 0..128 {
                let head = chosen_adts(frame_length, rate_code, choice);
                for len in [6, 7, 8] {
                    tally.head(2, &head[..len])?;
                }
                tally.write(Table::Adts, &Table::Adts.read(&head), LONGEST_TAPE, 0)?;
            }
        }
    }
    // 9 and 10 for n = 1, 9 to 12 for n = 2, 9 to 14 for n = 3; each with two IDs, two rate indices
    // and all other bits in two ways. Those are read with 7 and with 8 bytes, and written once.
    let heads = (2 + 4 + 6) * 2 * 2 * 2;
    outside_are(tally, [2 * heads, heads])
}

/// So many heads that were read, and so many that were to be written, must have been outside the domain.
fn outside_are(tally: &Tally, expected: [u64; 2]) -> Outcome {
    match [tally.sides.outside(), tally.writes.sides.outside()] {
        found if found == expected => Ok(()),
        found => Err(Difference(format!(
            "outside the domain are {found:?} heads, read and to be written, and not {expected:?}"
        ))),
    }
}

/// An ADTS head with these fields; by `choice`, below 128, each ID, layer, CRC and number of further
/// blocks, and all other bits 0 or 1.
fn chosen_adts(frame_length: u64, rate_code: u64, choice: u64) -> Bytes {
    // ID, layer and protection_absent stand side by side.
    let [id_to_crc, further_blocks] = [choice % 16, choice / 16 % 4];
    let rest = if choice < 64 { [0x00; 16] } else { [0xFF; 16] };
    let fields = [
        (0, 12, 0xFFF),
        (12, 4, id_to_crc),
        (18, 4, rate_code),
        (30, 13, frame_length),
        (54, 2, further_blocks),
    ];
    samples::with_fields(rest, &fields)
}

/// K6: every byte 2, so every strmtyp, with every bsid and every fscod and fscod2. Each head is read
/// with a byte too few for E-AC-3, with as many as it needs, and with more; and written by both tables.
pub fn stream_types(tally: &mut Tally, _: &Options) -> Outcome {
    for byte_2 in 0..=0xFF {
        for bsid in 0..32 {
            for codes in 0..16 {
                let head = [0x0B, 0x77, byte_2, 0x03, codes << 4, bsid << 3, 0x40, 0x00];
                for len in [5, 6, 7, 8] {
                    tally.head(0, &head[..len])?;
                }
                for table in [Table::Ac3, Table::Eac3] {
                    tally.write(table, &table.read(&head), LONGEST_TAPE, 0)?;
                }
            }
        }
    }
    // strmtyp 3 with 64 other ends of byte 2, six bsids, and all codes but fscod 3 with fscod2 3. Those
    // are read with 6, 7 and 8 bytes, and written once: AC-3's table refuses their bsid by 13.
    let heads = 64 * 6 * 15;
    outside_are(tally, [3 * heads, heads])
}

/// Every (byte 2, byte 3) of E-AC-3, so every frmsiz, with each bsid that is E-AC-3.
pub fn eac3_sizes(tally: &mut Tally, options: &Options) -> Outcome {
    let mut random = Random::new(options.seed);
    for bsid in 11..=16 {
        let good = samples::good(2, &mut random);
        every_pair(tally, 0, &samples::with_fields(good, &[(40, 5, bsid)])[..6], 2)?;
    }
    Ok(())
}

/// Every (byte 4, byte 5) of a six-byte head: E-AC-3 reads, and AC-3 misses its seventh byte only
/// where nothing else refuses it.
pub fn six_bytes(tally: &mut Tally, _: &Options) -> Outcome {
    every_pair(tally, 0, &[0x0B, 0x77, 0x00, 0x03, 0x00, 0x00], 4)
}

/// Every (byte 4, byte 5, byte 6) of AC-3 and E-AC-3, all other bytes random.
pub fn ac3_fields(tally: &mut Tally, options: &Options) -> Outcome {
    let mut random = Random::new(options.seed);
    for fields in 0..1u32 << 24 {
        let [_, byte_4, byte_5, byte_6] = fields.to_be_bytes();
        let [byte_2, byte_3, byte_7, ..] = random.word().to_be_bytes();
        let head = [0x0B, 0x77, byte_2, byte_3, byte_4, byte_5, byte_6, byte_7];
        tally.head(0, &head)?;
    }
    Ok(())
}

/// Random bytes, most of them under a sync word, a part of them cut short.
pub fn random_heads(tally: &mut Tally, options: &Options) -> Outcome {
    let mut random = Random::new(options.seed);
    for _ in 0..options.random {
        let code = random.below(3) as u32;
        let head = samples::random_head(code, &mut random);
        let cut = random.below(5) == 0;
        let len = if cut { random.below(17) as usize } else { head.len() };
        tally.head(code, &head[..len])?;
    }
    Ok(())
}

/// Heads that read before one or two of their bits or bytes were changed.
pub fn damaged_heads(tally: &mut Tally, options: &Options) -> Outcome {
    let mut random = Random::new(options.seed);
    for _ in 0..options.random {
        let kind = random.pick(&KINDS);
        tally.head(samples::code_of(kind), &samples::damaged(kind, &mut random))?;
    }
    Ok(())
}

/// A head that reads or, as often, a damaged one, with its syntax code.
fn good_or_damaged(random: &mut Random) -> (u32, Bytes) {
    let kind = random.pick(&KINDS);
    let make = random.pick(&[samples::good, samples::damaged]);
    (samples::code_of(kind), make(kind, random))
}

/// `base` with each value of the two bytes from `at` on.
fn every_pair(tally: &mut Tally, code: u32, base: &[u8], at: usize) -> Outcome {
    let mut head = base.to_vec();
    for pair in 0..=u16::MAX {
        head[at..at + 2].copy_from_slice(&pair.to_be_bytes());
        tally.head(code, &head)?;
    }
    Ok(())
}
