//! Nanoseconds a head: the library through its C export beside the Rust module, in one process,
//! with one driver and the same buffers. The chart reader stands beside the present one. Heads
//! are written beside a plain writer over that module, which has none of its own.

use common::random::Random;
use common::samples::{self, Bytes};
use heads::library::{self, RECORD};
use heads::records;
use heads::writes::{Fields, Table, MOST_FIELDS, TABLES};
use oracle::answers;
use std::hint::black_box;
use std::time::Instant;

/// Different heads of one kind, cycled through so that branches cannot be learned from one head.
const HEADS: usize = 64;

/// Times the heads are gone through in one round, and rounds of which the best counts.
const PASSES: u32 = 1_000;
const ROUNDS: u32 = 300;

const KIND_NAMES: [&str; 6] = ["AC-3", "E-AC-3", "Layer I", "Layer II", "Layer III", "ADTS"];

fn main() {
    println!("ns a head, best of {ROUNDS} rounds of {PASSES} x {HEADS} heads;");
    println!("ratio: the Rust doing the same work, divided by ours");
    println!("head                      ours   Rust, same work  Rust, parse only   ratio");
    let mut random = Random::new(1);
    for (kind, name) in samples::KINDS.into_iter().zip(KIND_NAMES) {
        let sample = [(); HEADS].map(|()| samples::good(kind, &mut random));
        row(name, samples::code_of(kind), &sample);
    }
    for code in 0..3 {
        let sample = [(); HEADS].map(|()| without_sync_word(&mut random));
        row(&format!("no sync word, code {code}"), code, &sample);
    }
    println!("\nns a written head          ours   Rust, same work   ratio");
    for table in TABLES {
        let sample = [(); HEADS].map(|()| records::good(table, &mut random));
        written_row(table, &sample);
    }
    println!("\nratio: the chart reader divided by the present one");
    println!("ns an MPEG head          chart           present   Rust, same work   ratio");
    for kind in 3..=5 {
        let sample = [(); HEADS].map(|()| samples::good(kind, &mut random));
        chart_row(KIND_NAMES[kind as usize - 1], &sample);
    }
}

/// Measures and prints the line of a layer's readers, by turns.
fn chart_row(name: &str, sample: &[Bytes; HEADS]) {
    let [mut chart, mut present, mut rust] = [f64::INFINITY; 3];
    for _ in 0..ROUNDS {
        chart = chart.min(round(sample, |head, out| library::read_by_chart_into(head, out)));
        present = present.min(round(sample, |head, out| library::read_into(1, head, out)));
        rust = rust.min(round(sample, |head, out| rust_into(1, head, out)));
    }
    let ratio = chart / present;
    println!("{name:<22}{chart:>8.2}{present:>18.2}{rust:>18.2}{ratio:>8.2}");
}

/// Measures and prints the line of a table's writer.
fn written_row(table: Table, sample: &[Fields; HEADS]) {
    let [mut ours, mut rust] = [f64::INFINITY; 2];
    let own = table.fields();
    for _ in 0..ROUNDS {
        ours = ours
            .min(round(sample, |fields, tape| library::write_into(table, &fields[..own], tape, 2)));
        rust = rust.min(round(sample, |fields, tape| rust_write(table, fields, tape, 2)));
    }
    let ratio = rust / ours;
    println!("{:<22}{ours:>8.2}{rust:>18.2}{ratio:>8.2}", table.word());
}

/// A plain writer: the fields' widths tested, the bits in one word, the module's own reader asked.
#[inline(never)]
fn rust_write(table: Table, fields: &Fields, tape: &mut [u8], at: usize) -> u32 {
    let widths = table.widths(fields);
    let mut word = 0u64;
    let mut bits = 0;
    for i in 0..MOST_FIELDS {
        if u64::from(fields[i]) >> widths[i] != 0 {
            return 13;
        }
        word = word << widths[i] | u64::from(fields[i]);
        bits += widths[i];
    }
    let bsid = if table == Table::Ac3 { fields[4] } else { fields[9] };
    if table == Table::Ac3 && (11..=16).contains(&bsid) || table == Table::Eac3 && bsid <= 8 {
        return 13;
    }
    let size = table.bytes();
    let Some(part) = tape.get_mut(at..).and_then(|part| part.get_mut(..size)) else {
        return 12;
    };
    let head = (word << (64 - bits)).to_be_bytes();
    match answers::syntax(table.code()).and_then(|syntax| syntax.parse(&head[..size])) {
        Some(_) => {
            part.copy_from_slice(&head[..size]);
            0
        }
        None => 1,
    }
}

/// Random bytes that no syntax takes for a head: byte 0 is neither 0B nor FF.
fn without_sync_word(random: &mut Random) -> Bytes {
    let mut bytes = random.bytes();
    bytes[0] &= 0xF0;
    bytes
}

/// Measures and prints one line of the table. The three rounds take turns, so that a change of the
/// processor's clock meets all of them.
fn row(name: &str, code: u32, sample: &[Bytes; HEADS]) {
    let syntax = answers::syntax(code).expect("a code below 3");
    let [mut ours, mut same, mut parse] = [f64::INFINITY; 3];
    for _ in 0..ROUNDS {
        ours = ours.min(round(sample, |head, out| library::read_into(code, head, out)));
        same = same.min(round(sample, |head, out| rust_into(code, head, out)));
        parse = parse.min(round(sample, |head, _| black_box(syntax.parse(head)).is_none().into()));
    }
    let ratio = same / ours;
    println!("{name:<22}{ours:>8.2}{same:>18.2}{parse:>18.2}{ratio:>8.2}");
}

/// Nanoseconds a head of one round.
fn round<T>(sample: &[T; HEADS], call: impl Fn(&T, &mut [u8]) -> u32) -> f64 {
    let mut out = [0; RECORD];
    let start = Instant::now();
    for _ in 0..PASSES {
        for head in sample {
            black_box(call(black_box(head), black_box(&mut out)));
        }
    }
    start.elapsed().as_secs_f64() * 1e9 / (f64::from(PASSES) * HEADS as f64)
}

/// The Rust doing what the C export does: the same tests of the call, the same record written.
#[inline(never)]
fn rust_into(code: u32, head: &[u8], out: &mut [u8]) -> u32 {
    let Some(syntax) = answers::syntax(code) else {
        return 7;
    };
    let Some(record) = out.first_chunk_mut::<RECORD>() else {
        return 12;
    };
    match syntax.parse(head) {
        Some(info) => {
            let numbers = answers::numbers_of(&info);
            for (i, number) in numbers.into_iter().enumerate() {
                record[4 * i..4 * i + 4].copy_from_slice(&number.to_le_bytes());
            }
            0
        }
        // The Rust does not tell its refusals apart: 1 stands for all of them.
        None => 1,
    }
}
