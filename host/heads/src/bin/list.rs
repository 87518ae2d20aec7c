//! Writes the stored list: heads, lengths of heads, skips, durations and heads to be written, one a
//! line, and beside it the answers that they must get. A Rattle program replays it where no Rust is at
//! hand.
//!
//!   list INPUTS ANSWERS
//!
//! An input is `CODE HEX..`, `m HEX..`, `h HEX..`, `s CODE HEX..`, `d SAMPLES RATE` or `w TABLE AT
//! ROOM FIELD..`. Its answer is the six numbers of the head, its length, the place, the duration, the
//! tape, or `refused NUMBER`.

use common::random::Random;
use common::samples::{self, Ac3, Adts, Bytes, Eac3, Mpeg, KINDS};
use heads::line::Line::{self, Chart, Duration, Head, HeadLength, Skip};
use heads::line::MOST_BYTES;
use heads::records::{by_chance, good};
use heads::writes::{Fields, Table, MOST_FIELDS, TABLES};
use heads::{cases, chart};
use std::process::ExitCode;

fn main() -> ExitCode {
    let arguments: Vec<String> = std::env::args().skip(1).collect();
    let [inputs, answers] = arguments.as_slice() else {
        eprintln!("usage: list INPUTS ANSWERS");
        return ExitCode::from(2);
    };
    if let Err(what) = cases::check_head_lengths() {
        eprintln!("list: {what}");
        return ExitCode::FAILURE;
    }
    let lines = all_lines();
    let written = std::fs::write(inputs, text(&lines, Line::text))
        .and_then(|()| std::fs::write(answers, text(&lines, answer)));
    match written {
        Ok(()) => ExitCode::SUCCESS,
        Err(error) => {
            eprintln!("list: {error}");
            ExitCode::FAILURE
        }
    }
}

/// All lines in that form, each closed by a line feed.
fn text(lines: &[Line], form: fn(&Line) -> Vec<u8>) -> Vec<u8> {
    lines.iter().flat_map(|line| [form(line), b"\n".to_vec()].concat()).collect()
}

fn answer(line: &Line) -> Vec<u8> {
    match line.answer() {
        Ok(answer) => answer.text.into_bytes(),
        Err(contradiction) => {
            panic!("{}: {contradiction}", String::from_utf8_lossy(&line.text()))
        }
    }
}

fn all_lines() -> Vec<Line> {
    let case = |case: &cases::Case| Head(case.code, case.head.to_vec());
    let mut lines: Vec<Line> = cases::CORNERS.iter().map(case).collect();
    lines.extend(cases::DURATIONS.iter().map(|case| Duration(case.samples, case.rate)));
    lines.extend(cases::NUMBERS.iter().map(case));
    lines.extend(ac3_heads());
    lines.extend(eac3_heads());
    lines.extend(bsid_heads());
    lines.extend(mpeg_heads());
    lines.extend(reserved_mpeg_heads());
    lines.extend(adts_heads());
    lines.extend(short_adts_heads());
    lines.extend(cut_heads());
    lines.extend(damaged_heads());
    lines.extend(DURATIONS.map(|(samples, rate)| Duration(samples, rate)));
    lines.extend(small_skips());
    lines.extend(skips_to_a_sync_word());
    lines.extend(skips_to_the_last_byte());
    lines.extend(written_cases());
    lines.extend(fields_at_their_bounds());
    lines.extend(written_by_chance());
    lines.extend(tapes());
    lines.extend(chart_heads());
    lines.extend(refused_by_the_chart());
    lines.extend(cases::K3.iter().map(case));
    lines.extend(head_lengths());
    lines.extend(cut_head_lengths());
    lines.extend(cases::K6.iter().map(case));
    lines
}

/// The first `len` bytes of a head by code.
fn head(code: u32, bytes: Bytes, len: usize) -> Line {
    Head(code, bytes[..len].to_vec())
}

/// What stands in the bits that a head's fields leave free: all 0 or all 1, in turn.
fn rest(n: u64) -> Bytes {
    [if n & 1 == 0 { 0x00 } else { 0xFF }; 16]
}

/// Each frmsizecod with each fscod, and reserved ones. acmod and lfeon go through all their pairs.
fn ac3_heads() -> Vec<Line> {
    let mut lines = Vec::new();
    for fscod in 0..4 {
        let last = if fscod == 3 { 0 } else { 39 };
        for frmsizecod in (0..=last).chain([63]) {
            let (acmod, lfeon) = (frmsizecod % 8, frmsizecod / 8 % 2);
            let fields = Ac3 { fscod, frmsizecod, bsid: 8, acmod, lfeon };
            lines.push(head(0, fields.head(rest(fscod + frmsizecod)), 7));
        }
    }
    lines
}

/// Each fscod with each fscod2 or numblkscod, twice. acmod and lfeon go through all their pairs,
/// frmsiz from its least to its greatest, and strmtyp through those that are not reserved.
fn eac3_heads() -> Vec<Line> {
    let one = |n: u64| {
        let fields = Eac3 {
            strmtyp: n % 3,
            frmsiz: 2047 * n / 31,
            fscod: n / 4 % 4,
            code2: n % 4,
            acmod: (n + n / 16) % 8,
            lfeon: n / 8 % 2,
            bsid: 16 - n % 6,
        };
        head(0, fields.head(rest(n)), 6)
    };
    (0..32).map(one).collect()
}

/// Each bsid: AC-3, neither, E-AC-3, neither. In every other AC-3 head crc1 begins as stream type 3.
fn bsid_heads() -> Vec<Line> {
    let fields = |bsid| Ac3 { fscod: 1, frmsizecod: 8, bsid, acmod: 7, lfeon: 1 };
    let bytes = |bsid| match bsid {
        11..=16 => samples::with_fields(fields(bsid).head(rest(bsid)), &[(16, 2, bsid % 3)]),
        _ => fields(bsid).head(rest(bsid)),
    };
    (0..32).map(|bsid| head(0, bytes(bsid), 8)).collect()
}

/// Each bit rate index with each ID and layer; each rate code, padding and mode beside them.
fn mpeg_heads() -> Vec<Line> {
    let mut lines = Vec::new();
    for n in 0..96 {
        let (bit_rate_index, id, layer_code) = (n % 16, n / 16 % 2, n / 32 + 1);
        let (rate_code, padding, mode) = (n % 3, n / 2 % 2, n % 4);
        let fields = Mpeg { id, layer_code, bit_rate_index, rate_code, padding, mode };
        lines.push(head(1, fields.head(rest(n)), 4));
    }
    lines
}

/// Layer code 0 and rate code 3, alone and beside a bit rate index that is refused too.
fn reserved_mpeg_heads() -> Vec<Line> {
    let codes = [(0, 7, 0), (0, 15, 3), (1, 15, 3), (2, 0, 3), (1, 7, 3), (2, 7, 3), (3, 7, 3)];
    let mut lines = Vec::new();
    for (layer_code, bit_rate_index, rate_code) in codes {
        for id in [0, 1] {
            let (padding, mode) = (id, 0);
            let fields = Mpeg { id, layer_code, bit_rate_index, rate_code, padding, mode };
            lines.push(head(1, fields.head(rest(id)), 4));
        }
    }
    lines
}

/// Each rate code and each channel configuration, with and without CRC, one to four blocks.
fn adts_heads() -> Vec<Line> {
    let mut lines = Vec::new();
    for n in 0..32 {
        let fields = Adts {
            layer: 0,
            protection_absent: n / 16,
            rate_code: n % 16,
            channel_configuration: n % 8,
            frame_length: 9 + 8182 * n / 31,
            further_blocks: n / 4 % 4,
        };
        lines.push(head(2, fields.head(rest(n)), 7));
    }
    lines
}

/// Frame lengths about the two least ones, with and without CRC, and layers that are not 0.
fn short_adts_heads() -> Vec<Line> {
    let lengths = [(0, 0), (0, 6), (0, 7), (0, 8), (0, 9), (0, 10), (1, 9), (2, 9), (3, 6)];
    let mut lines = Vec::new();
    for (layer, frame_length) in lengths {
        for protection_absent in [0, 1] {
            let (rate_code, channel_configuration, further_blocks) = (4, 2, 0);
            let fields = Adts {
                layer,
                protection_absent,
                rate_code,
                channel_configuration,
                frame_length,
                further_blocks,
            };
            lines.push(head(2, fields.head(rest(frame_length)), 7));
        }
    }
    lines
}

/// A head of each kind, cut at every length up to 8, and whole with the bytes behind it.
fn cut_heads() -> Vec<Line> {
    let mut random = Random::new(1);
    let mut lines = Vec::new();
    for kind in KINDS {
        let bytes = samples::good(kind, &mut random);
        lines.extend((0..=8).chain([16]).map(|len| head(samples::code_of(kind), bytes, len)));
    }
    lines
}

/// Heads that read before one or two of their bits or bytes were changed.
fn damaged_heads() -> Vec<Line> {
    let mut random = Random::new(2);
    let one = |n: usize| {
        let kind = KINDS[n % KINDS.len()];
        head(samples::code_of(kind), samples::damaged(kind, &mut random), 8 + n % 9)
    };
    (0..42).map(one).collect()
}

/// Samples and rates of frames, then no rate, and numbers at the ends of their range. 47721
/// samples at 1 Hz are the most whose duration fits 32 bits.
#[rustfmt::skip]
const DURATIONS: [(u32, u32); 34] = [
    (1536, 48_000), (1536, 44_100), (1536, 32_000), (256, 48_000), (512, 44_100), (768, 32_000),
    (1536, 24_000), (1536, 22_050), (1536, 16_000), (384, 48_000), (1152, 44_100), (576, 22_050),
    (1024, 96_000), (1024, 88_200), (1024, 64_000), (1024, 44_100), (2048, 12_000), (3072, 11_025),
    (4096, 8_000), (0, 0), (0, 1), (1, 0), (1, 1), (1, 2), (1, u32::MAX), (65_535, 1), (47_721, 1),
    (47_722, 1), (u32::MAX, 0), (u32::MAX, 1), (u32::MAX, 2), (u32::MAX, 1 << 31),
    (u32::MAX, u32::MAX), (1 << 31, u32::MAX),
];

/// An unknown code, few bytes, runs, and sync words of the other syntaxes.
#[rustfmt::skip]
fn small_skips() -> Vec<Line> {
    let skips: [(u32, &[u8]); 25] = [
        (3, &[]), (3, &[0xFF, 0xF1]), (u32::MAX, &[0x0B, 0x77]),
        (0, &[]), (1, &[]), (2, &[]),
        (0, &[0x0B]), (0, &[0x77]), (1, &[0xFF]), (2, &[0xFF]),
        (0, &[0x0B, 0x76]), (0, &[0x0B, 0x78]), (0, &[0x0A, 0x77]), (0, &[0x77, 0x0B]),
        (0, &[0x0B, 0x0B, 0x77]), (0, &[0xFF, 0xF1, 0x50, 0x80]),
        (1, &[0xFE, 0xFF]), (2, &[0xFF, 0xEF, 0xFF, 0xF0]), (1, &[0x0B, 0x77, 0x00]),
        (0, &[0xFF; MOST_BYTES]), (1, &[0xFF; MOST_BYTES]), (2, &[0xFF; 2]),
        (0, &[0x0B; MOST_BYTES]), (1, &[0x00; MOST_BYTES]), (2, &[0xF0; MOST_BYTES]),
    ];
    skips.map(|(code, bytes)| Skip(code, bytes.to_vec())).into()
}

/// A sync word at each of many places, about the ends of blocks of 32 above all. It ends the line, or
/// as many bytes as a line may give stand behind it, further sync words among them.
fn skips_to_a_sync_word() -> Vec<Line> {
    let places = [0, 1, 2, 15, 30, 31, 32, 33, 34, 62, 63, 64, 65, 95, 96, 97, 125, 126];
    let mut lines = Vec::new();
    for (n, place) in places.into_iter().enumerate() {
        for (turn, len) in [(n, place + 2), (n + 1, MOST_BYTES)] {
            let code = turn as u32 % 3;
            let mut bytes = without_sync_word(code, place);
            let sync_word = if code == 0 { [0x0B, 0x77] } else { [0xFF, 0xF0 + (n % 16) as u8] };
            bytes.extend(sync_word.iter().cycle().take(len - place));
            lines.push(Skip(code, bytes));
        }
    }
    lines
}

/// No sync word, but the first half of one at the end.
fn skips_to_the_last_byte() -> Vec<Line> {
    let one = |(n, len): (usize, usize)| {
        let code = n as u32 % 3;
        let mut bytes = without_sync_word(code, len - 1);
        bytes.push(if code == 0 { 0x0B } else { 0xFF });
        Skip(code, bytes)
    };
    [2, 31, 32, 33, 34, 64, 65, 66, 97, 127, 128, 128].into_iter().enumerate().map(one).collect()
}

/// Bytes that have halves of sync words and whole ones of the other syntaxes, and none of `code`;
/// nor do they with the first byte of one behind them.
fn without_sync_word(code: u32, len: usize) -> Vec<u8> {
    // From the last byte backwards.
    let cycle = match code {
        0 => [0x0B, 0xF0, 0xFF, 0x77, 0x78],
        _ => [0xEF, 0xFF, 0x77, 0x0B, 0xF0],
    };
    (0..len).rev().map(|k| cycle[k % cycle.len()]).collect()
}

/// The heads that are worked out by hand.
fn written_cases() -> Vec<Line> {
    let line = |case: &cases::Write| {
        let mut fields = [0; MOST_FIELDS];
        fields[..case.fields.len()].copy_from_slice(case.fields);
        Line::Write(case.table, fields, case.at, case.room)
    };
    cases::WRITES.iter().map(line).collect()
}

/// Each field of a head that reads: the largest that its width holds, the next, and the largest of
/// its type in a record, and of 32 bits.
fn fields_at_their_bounds() -> Vec<Line> {
    let mut random = Random::new(12);
    let mut lines = Vec::new();
    for table in TABLES {
        let fields = good(table, &mut random);
        for field in 0..table.fields() {
            let most = 1 << table.widths(&fields)[field];
            let of_type = if most > 256 { 65_535 } else { 255 };
            lines.extend(
                [most - 1, most, of_type, u32::MAX]
                    .map(|number| with(table, fields, field, number)),
            );
        }
    }
    lines
}

fn with(table: Table, mut fields: Fields, field: usize, number: u32) -> Line {
    fields[field] = number;
    Line::Write(table, fields, 1, table.bytes() + 2)
}

/// Each acmod and each bsid, and records by chance.
fn written_by_chance() -> Vec<Line> {
    let mut random = Random::new(21);
    let mut lines = Vec::new();
    for acmod in 0..8 {
        let mut fields = good(Table::Ac3, &mut random);
        while fields[6] != acmod {
            fields = good(Table::Ac3, &mut random);
        }
        lines.push(Line::Write(Table::Ac3, fields, 0, 7));
        lines.extend((7..10).map(|field| with(Table::Ac3, fields, field, 1)));
    }
    for bsid in 0..33 {
        lines.push(with(Table::Ac3, good(Table::Ac3, &mut random), 4, bsid));
        lines.push(with(Table::Eac3, good(Table::Eac3, &mut random), 9, bsid));
    }
    for n in 0..60 {
        let table = TABLES[n % 4];
        lines.push(Line::Write(
            table,
            by_chance(table, &mut random),
            n as u64 % 3,
            table.bytes() + 3,
        ));
    }
    lines
}

/// A head that reads on tapes about its own length, and on the longest; places about their ends, and
/// the largest place.
fn tapes() -> Vec<Line> {
    let mut random = Random::new(7);
    let mut lines = Vec::new();
    for table in TABLES {
        let fields = good(table, &mut random);
        let bytes = table.bytes();
        let places = [
            (0, 0),
            (0, bytes - 1),
            (0, bytes),
            (1, bytes),
            (1, bytes + 1),
            (bytes, bytes),
            (bytes + 1, bytes),
        ];
        lines.extend(places.map(|(at, room)| Line::Write(table, fields, at as u64, room)));
        let last = (MOST_BYTES - bytes) as u64;
        lines.extend(
            [last, last + 1, u64::MAX - 6, u64::MAX]
                .map(|at| Line::Write(table, fields, at, MOST_BYTES)),
        );
    }
    lines
}

/// Each length of the chart, without and with padding. The modes come by turns.
fn chart_heads() -> Vec<Line> {
    let mut lines = Vec::new();
    for (n, fields) in (0..).zip(chart::heads()) {
        for padding in [0, 1] {
            let fields = Mpeg { padding, mode: (n + padding) % 4, ..fields };
            lines.push(Chart(fields.head(rest(n / 3))[..4].to_vec()));
        }
    }
    lines
}

/// Heads for each number that refuses one, in their order: 1, 2, 3, 5, 4. Some of them a later number
/// would refuse too.
#[rustfmt::skip]
fn refused_by_the_chart() -> Vec<Line> {
    let heads: [&[u8]; 12] = [
        &[0xFF, 0xFB, 0x90], &[], &[0xFF, 0xE9, 0xFC],
        &[0xFF, 0xEB, 0x90, 0xC0], &[0x0B, 0x77, 0x0C, 0x00],
        &[0xFF, 0xF9, 0x90, 0xC0], &[0xFF, 0xF1, 0xFC, 0xC0],
        &[0xFF, 0xFB, 0x00, 0xC0], &[0xFF, 0xF5, 0xF8, 0x00], &[0xFF, 0xFF, 0x0C, 0xC0],
        &[0xFF, 0xFB, 0x9C, 0xC0], &[0xFF, 0xF7, 0xEE, 0xC0],
    ];
    heads.map(|head| Chart(head.to_vec())).into()
}

/// The lengths of ADTS heads by hand; what each of these heads says; and those that have all their
/// bytes, written from their fields.
fn head_lengths() -> Vec<Line> {
    let mut lines = Vec::new();
    for cases::HeadLength { head, .. } in &cases::HEAD_LENGTHS {
        lines.push(HeadLength(head.to_vec()));
        lines.push(Head(2, head.to_vec()));
        if head.len() >= Table::Adts.bytes() {
            lines.push(Line::Write(Table::Adts, Table::Adts.read(head), 1, 9));
        }
    }
    lines
}

/// The length of an ADTS head that is cut at every length up to 8, and has bytes behind it, at last
/// as many as a line may give; then those of damaged ones.
fn cut_head_lengths() -> Vec<Line> {
    let mut random = Random::new(3);
    let with_crc = samples::with_fields(samples::good(6, &mut random), &[(15, 1, 0), (54, 2, 2)]);
    let mut bytes = with_crc.to_vec();
    bytes.resize(MOST_BYTES, 0xFF);
    let cut = (0..=8).chain([16, MOST_BYTES]).map(|len| HeadLength(bytes[..len].to_vec()));
    let mut lines: Vec<Line> = cut.collect();
    lines.extend((0..24).map(|_| HeadLength(samples::damaged(6, &mut random)[..8].to_vec())));
    lines
}
