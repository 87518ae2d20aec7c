//! First lines that are not `0`, `1` or `2` and a line feed, each wrong in one way.

use common::random::Random;

/// The group of inputs with such a line.
pub const GROUP: &str = "malformed first lines";

/// The ways by name, each with first lines of its own. Those without a line feed end the input, or
/// the stream follows at once.
#[rustfmt::skip]
pub const WAYS: [(&str, &[&[u8]]); 12] = [
    ("no input", &[b""]),
    ("one byte", &[b"0", b"1", b"2", b"3", b"\n", b"?", b"\0", b"\xFF"]),
    ("other digit", &[b"3\n", b"4\n", b"8\n", b"9\n"]),
    ("neighbour of a digit", &[b"/\n", b":\n", b"P\n", b"p\n", b"\xB0\n", b"\xB2\n", b"\0\n", b"\x01\n", b"\x02\n"]),
    ("two digits", &[b"00\n", b"01\n", b"02\n", b"10\n", b"12\n", b"20\n", b"22\n"]),
    ("sign", &[b"+0\n", b"-1\n", b"+2\n"]),
    ("carriage return", &[b"0\r\n", b"1\r\n", b"2\r\n", b"0\r", b"2\r", b"\r\n"]),
    ("no line feed", &[b"0 ", b"1\0", b"2\xFF", b"2\xFF\xF1\x50\x80\x00\xE0\x00", b"0\x0B\x77", b"1\x0B"]),
    ("space before", &[b" 0\n", b" 1\n", b"\t2\n", b" \n"]),
    ("space behind", &[b"0 \n", b"1 \n", b"2 \n", b"1\t\n"]),
    ("empty line", &[b"\n0\n", b"\n1\n", b"\n\n", b"\n2"]),
    ("letters", &[b"a\n", b"ac3\n", b"E\n", b"?\n", b"\xEF\xBB\xBF2\n"]),
];

/// Each first line once, with the name of its way.
pub fn all() -> impl Iterator<Item = (&'static str, Vec<u8>)> {
    WAYS.into_iter().flat_map(|(way, lines)| lines.iter().map(move |line| (way, line.to_vec())))
}

/// One of them.
pub fn any(random: &mut Random) -> (&'static str, Vec<u8>) {
    let (way, lines) = random.pick(&WAYS);
    (way, random.pick(lines).to_vec())
}

/// Every first byte before a line feed, and every byte behind a code.
pub fn pairs() -> impl Iterator<Item = [u8; 2]> {
    let first = (0..=u8::MAX).map(|byte| [byte, b'\n']);
    first.chain((0..=u8::MAX).map(|byte| [b'0' + byte % 3, byte]))
}
