//! Writes the stored input of the program `cuelines`, and what it must print.
//!
//!   cuelines_list INPUT LINES
//!
//! ADTS frames of one block and of four by turns, 2089 and 8359 ticks long, so that the stamps are 0,
//! 2089, 10448, 12537 and 20896 (K7), with the start of another behind them; and times at, before and
//! behind these stamps.

use cues::{cases, found};
use sheet::requested::cases::F;
use std::process::ExitCode;

const FIRST_LINE: &[u8] = b"2 2089 2088 0 -1 10448 10447 20895 9223372036854775807\n";

fn main() -> ExitCode {
    let arguments: Vec<String> = std::env::args().skip(1).collect();
    let [input, lines] = arguments.as_slice() else {
        eprintln!("usage: cuelines_list INPUT LINES");
        return ExitCode::from(2);
    };
    if let Err(what) = cases::check_printed(found::printed) {
        eprintln!("cuelines_list: {what}");
        return ExitCode::FAILURE;
    }
    let stream = [&F[..], &cases::G, &F, &cases::G, &F, &F[..3]].concat();
    let bytes = [FIRST_LINE, &stream].concat();
    let written =
        std::fs::write(input, &bytes).and_then(|()| std::fs::write(lines, found::printed(&bytes)));
    match written {
        Ok(()) => ExitCode::SUCCESS,
        Err(error) => {
            eprintln!("cuelines_list: {error}");
            ExitCode::FAILURE
        }
    }
}
