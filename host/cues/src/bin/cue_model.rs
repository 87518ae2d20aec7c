//! The program `cue` in Rust, over the second definition: the right answers.

use cues::line;
use std::io::{self, BufWriter, Write};

fn main() -> io::Result<()> {
    let mut answers = BufWriter::with_capacity(1 << 16, io::stdout().lock());
    line::print(io::stdin().lock(), &mut answers)?;
    answers.flush()
}
