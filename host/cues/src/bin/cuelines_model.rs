//! The program `cuelines` in Rust, over the second definition and the sheets of the module as requested:
//! the right lines.

use cues::found;
use std::io::{self, BufWriter, Write};

fn main() -> io::Result<()> {
    let mut lines = BufWriter::with_capacity(1 << 16, io::stdout().lock());
    found::print(io::stdin().lock(), &mut lines)?;
    lines.flush()
}
