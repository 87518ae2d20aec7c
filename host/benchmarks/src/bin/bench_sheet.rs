//! The program `cutsheet` beside the Rust's, from start to end: megabytes a second over the same
//! long streams, and the most memory that each has. Their sheets must be the same.

use benchmarks::{median, streams, Stream};
use common::asking::verdict;
use sheet::cases::F;
use std::error::Error;
use std::fs::{self, File};
use std::io::{self, Write};
use std::process::{Command, ExitCode, Stdio};
use std::thread;
use std::time::{Duration, Instant};

const USAGE: &str = "usage: bench_sheet [PROGRAM [ARG..]]
  PROGRAM   the program to measure beside the Rust; without it the Rust alone";

/// How often the programs run in turn. What counts is the median: of the rates, and of the ratios of
/// those that ran in one turn.
const TURNS: usize = 15;

/// Where the streams and the sheets go.
const INPUT: &str = "target/host/sheet-bench.bin";
const SHEET: &str = "target/host/sheet-bench.txt";
const OTHER_SHEET: &str = "target/host/sheet-bench-other.txt";

/// A program, and the name of its column.
struct Program {
    name: &'static str,
    command: Vec<String>,
}

/// A long input: the line with the code, then `first` once, then `part` so many times.
struct Work {
    name: &'static str,
    code: u32,
    first: Vec<u8>,
    part: Vec<u8>,
    times: usize,
}

/// Where a program reads from.
#[derive(Clone, Copy)]
enum Source {
    File,
    Pipe,
}

fn main() -> ExitCode {
    let ours: Vec<String> = std::env::args().skip(1).collect();
    if ours.first().is_some_and(|flag| flag.starts_with('-')) {
        eprintln!("{USAGE}");
        return ExitCode::from(2);
    }
    verdict(tables(ours))
}

fn tables(ours: Vec<String>) -> Result<(), Box<dyn Error>> {
    let programs = programs(ours)?;
    speeds(&programs)?;
    memory(&programs)?;
    for file in [INPUT, SHEET, OTHER_SHEET] {
        fs::remove_file(file)?;
    }
    Ok(())
}

/// Ours, if it was named, and the Rust, which stands beside this program: over the module as it was
/// published. The streams are inside the domain of equality, each of one geometry.
fn programs(ours: Vec<String>) -> io::Result<Vec<Program>> {
    let rust =
        std::env::current_exe()?.with_file_name("sheet_model").to_string_lossy().into_owned();
    let rust = [rust, "--unchanged".into()];
    let mut programs = vec![
        Program { name: "ours", command: ours },
        Program { name: "Rust", command: rust.to_vec() },
        Program { name: "Rust, digits", command: [&rust[..], &["--digits".into()]].concat() },
    ];
    programs.retain(|program| !program.command.is_empty());
    Ok(programs)
}

/// The streams: 200 MB each, and 20 MB of the shortest frames, which make nine times as much text.
fn works() -> Vec<Work> {
    let repeated = |Stream { name, code, bytes }: Stream| Work {
        name,
        code,
        first: Vec::new(),
        times: 200_000_000 / bytes.len(),
        part: bytes,
    };
    let names = ["AC-3, 1536", "MP2, 576", "MP3, 417 and 418", "ADTS, 250 to 499", "no head, ADTS"];
    let is_named = |stream: &Stream| names.contains(&stream.name);
    let mut works: Vec<Work> = streams().into_iter().filter(is_named).map(repeated).collect();
    if let Some(no_head) = works.last_mut() {
        no_head.first = whole_payload();
    }
    let part = F.repeat(10_000);
    works.push(Work { name: "ADTS, 7", code: 2, first: Vec::new(), times: 285, part });
    works
}

/// An ADTS frame as long as a payload, so that the splitter is locked whatever follows.
fn whole_payload() -> Vec<u8> {
    let mut frame = vec![0xFF, 0xF1, 0x50, 0x82, 0x00, 0x00, 0x00];
    frame.resize(4_096, 0x00);
    frame
}

impl Work {
    fn len(&self) -> usize {
        self.first.len() + self.part.len() * self.times
    }

    fn write(&self, mut to: impl Write) -> io::Result<()> {
        writeln!(to, "{}", self.code)?;
        to.write_all(&self.first)?;
        (0..self.times).try_for_each(|_| to.write_all(&self.part))
    }
}

fn speeds(programs: &[Program]) -> Result<(), Box<dyn Error>> {
    println!("MB/s, medians of {TURNS}, to a file once; ratios: the first column by each other");
    print!("{:<18}{:>4}  {:<10}", "stream", "MB", "from, to");
    programs.iter().for_each(|program| print!("{:>14}", program.name));
    println!("   ratios");
    for work in works() {
        work.write(File::create(INPUT)?)?;
        row(&work, "file, null", &in_turn(programs, &work, Source::File)?);
        row(&work, "pipe, null", &in_turn(programs, &work, Source::Pipe)?);
        row(&work, "file, file", &to_files(programs, &work)?);
    }
    Ok(())
}

/// The times of each program, in the order of the turns.
fn row(work: &Work, name: &str, times: &[Vec<f64>]) {
    let bytes = work.len() as f64;
    print!("{:<18}{:>4.0}  {name:<10}", work.name, bytes / 1e6);
    for times in times {
        print!("{:>14.0}", bytes / median(times.clone()) / 1e6);
    }
    print!("  ");
    for others in &times[1..] {
        let ratios = others.iter().zip(&times[0]).map(|(other, first)| other / first);
        print!("{:>7.2}", median(ratios.collect()));
    }
    println!();
}

/// Of each program, the output thrown away.
fn in_turn(programs: &[Program], work: &Work, source: Source) -> io::Result<Vec<Vec<f64>>> {
    let mut times = vec![Vec::new(); programs.len()];
    for _ in 0..TURNS {
        // In turn, so that a change of the processor's clock or load meets all.
        for (program, times) in programs.iter().zip(&mut times) {
            times.push(time(program, work, source, Stdio::null())?.as_secs_f64());
        }
    }
    Ok(times)
}

/// Of each program once, the output to a file. All files must be the same.
fn to_files(programs: &[Program], work: &Work) -> Result<Vec<Vec<f64>>, Box<dyn Error>> {
    let mut times = Vec::new();
    for (n, program) in programs.iter().enumerate() {
        let file = if n == 0 { SHEET } else { OTHER_SHEET };
        times.push(vec![
            time(program, work, Source::File, File::create(file)?.into())?.as_secs_f64()
        ]);
        if n > 0 && fs::read(SHEET)? != fs::read(OTHER_SHEET)? {
            return Err(format!("{}: {SHEET} is not {OTHER_SHEET}", work.name).into());
        }
    }
    Ok(times)
}

/// From before the program starts until it has ended.
fn time(program: &Program, work: &Work, source: Source, output: Stdio) -> io::Result<Duration> {
    let start = Instant::now();
    let mut command = Command::new(&program.command[0]);
    command.args(&program.command[1..]).stdout(output);
    match source {
        Source::File => command.stdin(File::open(INPUT)?),
        Source::Pipe => command.stdin(Stdio::piped()),
    };
    let mut child = command.spawn()?;
    if let Some(pipe) = child.stdin.take() {
        work.write(pipe)?;
    }
    let status = child.wait()?;
    match status.success() {
        true => Ok(start.elapsed()),
        false => Err(io::Error::other(format!("{} ends with {status}", program.name))),
    }
}

/// The most memory of each program, for a short and for a long stream.
fn memory(programs: &[Program]) -> io::Result<()> {
    println!("most memory, kB");
    for mut work in works().into_iter().filter(|work| work.name.starts_with("ADTS, 250")) {
        for times in [2, 200] {
            work.times = times;
            print!("{:<18}{:>4.0}  {:<10}", work.name, work.len() as f64 / 1e6, "pipe, null");
            for program in programs {
                print!("{:>14}", most_memory(program, &work)?);
            }
            println!();
        }
    }
    Ok(())
}

/// In kB, as the system keeps it. It is asked while the program waits for more of a pipe that is
/// not closed yet, and then until it has ended.
fn most_memory(program: &Program, work: &Work) -> io::Result<u64> {
    let mut command = Command::new(&program.command[0]);
    command.args(&program.command[1..]).stdin(Stdio::piped()).stdout(Stdio::null());
    let mut child = command.spawn()?;
    let mut pipe = child.stdin.take().expect("a pipe");
    work.write(&mut pipe)?;
    thread::sleep(Duration::from_millis(100));
    let mut most = memory_so_far(child.id());
    drop(pipe);
    while child.try_wait()?.is_none() {
        most = most.max(memory_so_far(child.id()));
    }
    Ok(most)
}

/// 0 where the process has ended.
fn memory_so_far(process: u32) -> u64 {
    let status = fs::read_to_string(format!("/proc/{process}/status")).unwrap_or_default();
    let line = status.lines().find_map(|line| line.strip_prefix("VmHWM:"));
    let number = line.and_then(|line| line.trim().strip_suffix(" kB")?.parse().ok());
    number.unwrap_or(0)
}
