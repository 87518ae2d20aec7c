//! The wall chart of lengths: its heads in their order, and its text. Every number of the text is what
//! the Rust answers to such a head, unchanged and as requested; no table of numbers stands here.

use crate::reference;
use common::samples::Mpeg;
use std::fmt::Display;

/// Layers of an ID, rows of a layer, and lengths of a row, one for each sampling_frequency.
const LAYERS: u64 = 3;
const ROWS: u64 = 14;
const RATES: u64 = 3;

/// A head for each length of the chart, without padding: ID 0 before 1, Layer I to III, bitrate_index
/// rising, sampling_frequency rising fastest.
pub fn heads() -> impl Iterator<Item = Mpeg> {
    (0..2 * LAYERS * ROWS * RATES).map(|n| {
        let (row, rate_code) = (n / RATES, n % RATES);
        let (block, bit_rate_index) = (row / ROWS, 1 + row % ROWS);
        let (id, layer_code) = (block / LAYERS, LAYERS - block % LAYERS);
        Mpeg { id, layer_code, bit_rate_index, rate_code, padding: 0, mode: 0 }
    })
}

/// The chart, one length a line.
pub fn lines() -> String {
    heads().map(|head| format!("{:>6}\n", says(&head).length)).collect()
}

/// The chart for a wall: a block for each ID and layer.
pub fn table() -> String {
    let heads: Vec<Mpeg> = heads().collect();
    let blocks = heads.chunks((ROWS * RATES) as usize).map(block);
    ["MPEG audio: bytes of a frame without padding\n".into()].into_iter().chain(blocks).collect()
}

/// What the Rust says of a head.
struct Said {
    layer: &'static str,
    length: u32,
    rate: u32,
    kbps: u32,
}

fn says(head: &Mpeg) -> Said {
    let expected = reference::head(1, &head.head([0; 16])).expect("the references agree");
    let [kind, length, _, rate, _, bit_rate] =
        expected.answer.expect("the Rust reads every head of the chart");
    let layer = ["I", "II", "III"][kind as usize - 3];
    Said { layer, length, rate, kbps: bit_rate / 1000 }
}

/// An empty line, a title, the headings of the columns, and the rows.
fn block(heads: &[Mpeg]) -> String {
    let Mpeg { id, layer_code, .. } = heads[0];
    let layer = one(heads.iter().map(|head| says(head).layer));
    let padding = match one(heads.iter().map(padding)) {
        1 => "1 byte".into(),
        more => format!("{more} bytes"),
    };
    let rates = (0..RATES).map(|code| {
        one(heads.iter().filter(|head| head.rate_code == code).map(|head| says(head).rate))
    });
    let mut text =
        format!("\nID {id}, Layer {layer} (layer {layer_code}): padding adds {padding}\n");
    text += &format!("{:<20}{}\n", "sampling_frequency", columns(0..RATES));
    text += &format!("bitrate_index kbit/s{} Hz\n", columns(rates));
    for row in heads.chunks(RATES as usize) {
        let kbps = one(row.iter().map(|head| says(head).kbps));
        let lengths = columns(row.iter().map(|head| says(head).length));
        text += &format!("{:>13}{kbps:>7}{lengths}\n", row[0].bit_rate_index);
    }
    text
}

/// The bytes that padding adds to a head's frame.
fn padding(head: &Mpeg) -> u32 {
    says(&Mpeg { padding: 1, ..*head }).length - says(head).length
}

fn columns(numbers: impl Iterator<Item = impl Display>) -> String {
    numbers.map(|number| format!("{number:>7}")).collect()
}

/// What all of these are. The chart would have no place for more than one.
fn one<T: PartialEq>(mut answers: impl Iterator<Item = T>) -> T {
    let first = answers.next().expect("an answer");
    assert!(answers.all(|answer| answer == first), "the Rust answers in more than one way");
    first
}
