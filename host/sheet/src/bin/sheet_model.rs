//! The program `cutsheet` in Rust, over the module as requested, as a careful Rust programmer would
//! write it. It prints the sheet of its standard input. Ours is measured beside it, over the module as
//! it was published.

use sheet::{digits, model, requested, text};
use std::io::{self, BufWriter, StdinLock, StdoutLock, Write};
use std::process::ExitCode;

const USAGE: &str = "usage: sheet_model [--unchanged] [--digits]
  --unchanged   over the Rust module as it was published
  --digits      writes the frames' lines digit by digit, not by write!; they are the same";

fn main() -> ExitCode {
    let arguments: Vec<String> = std::env::args().skip(1).collect();
    let words: Vec<&str> = arguments.iter().map(String::as_str).collect();
    match print(&words) {
        Some(Ok(())) => ExitCode::SUCCESS,
        Some(Err(error)) => {
            eprintln!("sheet_model: {error}");
            ExitCode::FAILURE
        }
        None => {
            eprintln!("{USAGE}");
            ExitCode::from(2)
        }
    }
}

/// Prints the sheet that the arguments ask for; `None` where they ask for none.
fn print(arguments: &[&str]) -> Option<io::Result<()>> {
    Some(match arguments {
        [] => over(|i, o| requested::model::print(i, o, requested::text::line)),
        ["--digits"] => over(|i, o| requested::model::print(i, o, requested::digits::line)),
        ["--unchanged"] => over(|i, o| model::print(i, o, text::line)),
        ["--unchanged", "--digits"] => over(|i, o| model::print(i, o, digits::line)),
        _ => return None,
    })
}

/// From the standard input to the standard output.
fn over(print: impl Fn(StdinLock, &mut BufWriter<StdoutLock>) -> io::Result<()>) -> io::Result<()> {
    let mut sheet = BufWriter::with_capacity(1 << 16, io::stdout().lock());
    print(io::stdin().lock(), &mut sheet)?;
    sheet.flush()
}
