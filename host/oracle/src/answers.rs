//! The answers of the Rust module (host/oracle/audio_frame.rs, unchanged) as plain numbers.

// By `super`: host/selftests/ compiles this file beside wrong texts of the module.
use super::audio_frame::{parse_adts_header, AudioFrameInfo, AudioFrameKind, AudioSyntax};

/// The Rust's reader for a syntax code. A code above 2 has none there.
#[inline]
pub fn syntax(code: u32) -> Option<AudioSyntax> {
    match code {
        0 => Some(AudioSyntax::Ac3),
        1 => Some(AudioSyntax::MpegAudio),
        2 => Some(AudioSyntax::AacAdts),
        _ => None,
    }
}

/// The code of a syntax.
pub fn code(syntax: AudioSyntax) -> u32 {
    match syntax {
        AudioSyntax::Ac3 => 0,
        AudioSyntax::MpegAudio => 1,
        AudioSyntax::AacAdts => 2,
    }
}

/// The six numbers of a head that the Rust reads.
pub fn read(code: u32, head: &[u8]) -> Option<[u32; 6]> {
    let info = syntax(code)?.parse(head)?;
    Some(numbers_of(&info))
}

/// The Rust's duration of a frame with so many samples at that rate.
pub fn duration_90k(samples: u32, rate: u32) -> u32 {
    // The record can only be made by reading a head; its fields may then be set.
    let adts = [0xFF, 0xF1, 0x50, 0x80, 0x00, 0xE0, 0x00];
    let mut info = parse_adts_header(&adts).expect("document 01's frame F reads");
    info.samples_per_frame = samples;
    info.sample_rate = rate;
    info.duration_90k()
}

/// The record in the order of the C interface.
#[inline]
pub fn numbers_of(info: &AudioFrameInfo) -> [u32; 6] {
    [
        kind_number(info.kind),
        info.frame_len as u32,
        info.samples_per_frame,
        info.sample_rate,
        u32::from(info.channels),
        info.bit_rate.unwrap_or(0),
    ]
}

fn kind_number(kind: AudioFrameKind) -> u32 {
    match kind {
        AudioFrameKind::Ac3 => 1,
        AudioFrameKind::Eac3 => 2,
        AudioFrameKind::MpegLayer1 => 3,
        AudioFrameKind::MpegLayer2 => 4,
        AudioFrameKind::MpegLayer3 => 5,
        AudioFrameKind::AacAdts => 6,
    }
}
