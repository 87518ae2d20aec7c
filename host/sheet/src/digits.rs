//! A frame's line with its digits written by hand: `write!` takes longer than all the rest of a
//! short frame. For the measurements only.

use super::answers;
use super::audio_frame::AudioFrame;
use std::fmt;

/// As `text::line`.
pub fn line(sheet: &mut String, number: u64, frame: &AudioFrame) -> fmt::Result {
    let [kind, length, samples, rate, channels, _] =
        answers::numbers_of(&frame.info).map(i64::from);
    let number = (number % 100_000_000) as i64;
    let columns = [(8, number), (5, length), (2, kind), (5, samples), (6, rate), (2, channels)];
    for (width, value) in columns {
        column(sheet, width, value);
        sheet.push(' ');
    }
    match frame.info.bit_rate {
        Some(bit_rate) => column(sheet, 7, bit_rate.into()),
        None => sheet.push_str("      -"),
    }
    sheet.push(' ');
    match frame.pts {
        Some(stamp) => column(sheet, 20, stamp),
        None => sheet.push_str("                   -"),
    }
    sheet.push('\n');
    Ok(())
}

/// A number, right-justified.
fn column(sheet: &mut String, width: usize, value: i64) {
    // As long as the longest number with its sign.
    let mut text = [b' '; 20];
    let mut at = text.len();
    let mut rest = value.unsigned_abs();
    loop {
        at -= 1;
        text[at] = b'0' + (rest % 10) as u8;
        rest /= 10;
        if rest == 0 {
            break;
        }
    }
    if value < 0 {
        at -= 1;
        text[at] = b'-';
    }
    let from = at.min(text.len() - width);
    sheet.push_str(std::str::from_utf8(&text[from..]).expect("spaces, a sign and digits"));
}
