//! Lines that ask for nothing, each wrong in one way.

use crate::call::Call;
use common::random::Random;

/// The ways by name, each with lines of its own.
#[rustfmt::skip]
pub const WAYS: [(&str, &[&str]); 9] = [
    ("empty", &[""]),
    ("other letter", &["q", "N 2", "P - 8190 0 0", "push", "nn 2", "rr"]),
    ("a word too few", &["n", "p", "p -", "p - 8190", "p - 8190 100", "f 8190 0", "f", "s 2 0 - - 0", "s"]),
    ("a word too many", &["n 2 2", "f 8190 0 8 00", "r 0", "u 0"]),
    ("no number", &["n x", "n -1", "p x 8190 0 0", "p - 8190 0 z", "f 8190 - 8", "s 2 0 - - x 0", "s 2 0 - - 0 2", "s 2 - - - 0 0"]),
    ("no anchor", &["s 2 0 - 1:2:3:4 0 0", "s 2 0 - 1:2:3:4:0:0 0 0", "s 2 0 - 1:2:3:x:0 0 0", "s 2 0 - 1 0 0", "s 2 0 - :::: 0 0", "s 2 0 - 1:2:3:4: 0 0", "s 2 0 - 1:2:3:4:x 0 0", "s 2 0 - 1:2:3:4:- 0 0", "s 2 0 - 1:2:3:4:-1 0 0", "s 2 0 - 1:2:3:4:2 0 0", "s 2 0 - 1:2:3:4:10 0 0", "s 2 0 - 1:2:3:4:4294967295 0 0"]),
    ("number too large", &["n 4294967296", "p 9223372036854775808 8190 9 9 00", "p -9223372036854775809 8190 9 9 00", "s 2 0 - 0:4294967296:0:0:0 0 0", "s 2 0 - - 18446744073709551616 0"]),
    ("no bytes", &["p - 8190 9 9 0", "p - 8190 9 9 000", "p - 8190 9 9 0G", "p - 8190 9 9 00*x", "p - 8190 9 9 00*", "p - 8190 9 9 00 1", "s 2 0 - - 0 0 F"]),
    ("over a limit", &["p - 8201 0 0", "p - 8190 73801 0", "p - 8190 0 84281", "f 8201 0 8", "f 8190 73801 8", "f 8190 0 84281", "p - 8190 73800 84280 00*65601", "p - 8190 73800 84280 00*65600 00"]),
];

/// A malformed line; each way comes as often as the others.
pub fn line(random: &mut Random) -> Call {
    let (way, lines) = random.pick(&WAYS);
    Call::Malformed(way, random.pick(lines).into())
}
