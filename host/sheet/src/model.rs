//! What the program `cutsheet` must print: document 01's port order 7, over the splitter of the
//! Rust module that stands beside this file: the unchanged one, or the one as requested.

// By `super`: it is compiled over either module, and in host/selftests/sheet over wrong texts.
use super::audio_frame::{AudioFrame, AudioFrameSplitter, AudioSyntax};
use super::text;
use std::fmt;
use std::io::{self, ErrorKind, Read, Write};

/// Writes a frame's line.
pub type Line = fn(&mut String, u64, &AudioFrame) -> fmt::Result;

const PAYLOAD: usize = 4_096;

/// Bytes that are read at a time: whole payloads, but for the stream's last.
const AT_ONCE: usize = 16 * PAYLOAD;

/// Prints what belongs to the standard input: its sheet, or a question mark.
pub fn print(input: impl Read, sheet: &mut impl Write, line: Line) -> io::Result<()> {
    print_while(input, sheet, line, |_, _| true)
}

/// The same while `goes_on`, which is asked before each payload is pushed: where it says no, the
/// sheet ends with the lines so far.
pub fn print_while(
    mut input: impl Read,
    sheet: &mut impl Write,
    line: Line,
    goes_on: impl FnMut(&AudioFrameSplitter, &[u8]) -> bool,
) -> io::Result<()> {
    let mut first_line = [0; 2];
    let len = fill(&mut input, &mut first_line)?;
    match syntax(&first_line[..len]) {
        Some(syntax) => cut(syntax, input, sheet, line, goes_on),
        None => sheet.write_all(b"?\n"),
    }
}

/// The syntax that a first line names.
fn syntax(line: &[u8]) -> Option<AudioSyntax> {
    match line {
        b"0\n" => Some(AudioSyntax::Ac3),
        b"1\n" => Some(AudioSyntax::MpegAudio),
        b"2\n" => Some(AudioSyntax::AacAdts),
        _ => None,
    }
}

/// Pushes the stream payload by payload. A push is refused only behind 4,294,000,000 frames or 2^62
/// bytes lost, and so none is here.
fn cut(
    syntax: AudioSyntax,
    mut stream: impl Read,
    sheet: &mut impl Write,
    line: Line,
    mut goes_on: impl FnMut(&AudioFrameSplitter, &[u8]) -> bool,
) -> io::Result<()> {
    let mut splitter = AudioFrameSplitter::new(syntax);
    let mut buffer = vec![0; AT_ONCE];
    let mut lines = String::new();
    let mut number = 0;
    let mut timestamp = Some(0);
    loop {
        let len = fill(&mut stream, &mut buffer)?;
        for payload in buffer[..len].chunks(PAYLOAD) {
            if !goes_on(&splitter, payload) {
                return Ok(());
            }
            for frame in splitter.push(payload, timestamp.take()) {
                number += 1;
                line(&mut lines, number, &frame).map_err(io::Error::other)?;
            }
            sheet.write_all(lines.as_bytes())?;
            lines.clear();
        }
        if len < AT_ONCE {
            break;
        }
    }
    let (discarded, pending) = (splitter.discarded_bytes(), splitter.pending_bytes());
    text::end_line(&mut lines, discarded, pending).map_err(io::Error::other)?;
    sheet.write_all(lines.as_bytes())
}

/// Reads until the buffer is full or the input ends, and says how many bytes there are.
fn fill(input: &mut impl Read, buffer: &mut [u8]) -> io::Result<usize> {
    let mut len = 0;
    while len < buffer.len() {
        match input.read(&mut buffer[len..]) {
            Ok(0) => break,
            Ok(more) => len += more,
            Err(error) if error.kind() == ErrorKind::Interrupted => {}
            Err(error) => return Err(error),
        }
    }
    Ok(len)
}
