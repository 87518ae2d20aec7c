//! The program `chart` in Rust: it prints the chart that the Rust module's answers call for.

use heads::chart;
use std::io::{self, Write};
use std::process::ExitCode;

const USAGE: &str = "usage: chart_model [--table]
  --table   the chart for a wall, not one length a line";

fn main() -> ExitCode {
    let arguments: Vec<String> = std::env::args().skip(1).collect();
    let text = match arguments.iter().map(String::as_str).collect::<Vec<_>>().as_slice() {
        [] => chart::lines(),
        ["--table"] => chart::table(),
        _ => {
            eprintln!("{USAGE}");
            return ExitCode::from(2);
        }
    };
    match io::stdout().write_all(text.as_bytes()) {
        Ok(()) => ExitCode::SUCCESS,
        Err(error) => {
            eprintln!("chart_model: {error}");
            ExitCode::FAILURE
        }
    }
}
