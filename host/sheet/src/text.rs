//! The lines of a cut sheet, by document 01's port order 7.

// By `super`: it is compiled over either module, and in host/selftests/sheet over wrong texts.
use super::answers;
use super::audio_frame::AudioFrame;
use std::fmt::{self, Write};

/// Writes the line of the frame with that number; the first frame has 1.
pub fn line(sheet: &mut String, number: u64, frame: &AudioFrame) -> fmt::Result {
    let [kind, length, samples, rate, channels, _] = answers::numbers_of(&frame.info);
    let number = number % 100_000_000;
    write!(sheet, "{number:>8} {length:>5} {kind:>2} {samples:>5} {rate:>6} {channels:>2}")?;
    match frame.info.bit_rate {
        Some(bit_rate) => write!(sheet, " {bit_rate:>7}")?,
        None => write!(sheet, " {:>7}", '-')?,
    }
    match frame.pts {
        Some(stamp) => writeln!(sheet, " {stamp:>20}"),
        None => writeln!(sheet, " {:>20}", '-'),
    }
}

/// Writes the last line.
pub fn end_line(sheet: &mut String, discarded: u64, pending: usize) -> fmt::Result {
    writeln!(sheet, "E {discarded:>20} {pending:>5}")
}
