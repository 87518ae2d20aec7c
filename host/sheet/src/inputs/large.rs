//! Streams of megabytes: line numbers of seven digits, stamps beyond 32 bits.

use super::input::{random, Input};
use super::long::SORTS;
use common::samples::Adts;

/// The group of these inputs.
pub const GROUP: &str = "large streams";

const MILLION: &str = "a million frames";

/// The others: sorts of streams, and how many bytes of each for each code.
const SORTED: [(&str, usize); 4] = [
    ("damaged frames", 500_000),
    ("junk first", 300_000),
    ("any bytes", 2_000_000),
    ("frames of any heads", 2_000_000),
];

/// All names.
pub fn names() -> impl Iterator<Item = &'static str> {
    SORTED.into_iter().map(|(name, _)| name).chain([MILLION])
}

pub fn inputs(seed: u64) -> impl Iterator<Item = Input> {
    let each = SORTED.into_iter().flat_map(|sorted| [0, 1, 2].map(|code| (code, sorted)));
    let sorted = each.zip(0..).map(move |((code, (name, len)), n)| {
        let (_, make) = SORTS.into_iter().find(|sort| sort.0 == name).expect("a sort of that name");
        Input::of_stream((GROUP, name), code, &make(code, len, &mut random(seed, 3 << 20 | n)))
    });
    sorted.chain([2].map(million_frames))
}

/// A little more than a million ADTS frames of 7 bytes, each as many ticks long as a frame can be:
/// 4096 samples at 8000 Hz.
fn million_frames(code: u32) -> Input {
    let frame = Adts {
        layer: 0,
        protection_absent: 1,
        rate_code: 11,
        channel_configuration: 0,
        frame_length: 7,
        further_blocks: 3,
    };
    let stream = frame.head([0; 16])[..7].repeat(1_000_010);
    Input::of_stream((GROUP, MILLION), code, &stream)
}
