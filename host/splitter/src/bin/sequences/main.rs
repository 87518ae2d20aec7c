//! Asks a program the splitter's calls over pipes, and compares each answer with the one that the
//! model gives: the Rust module's, with document 01's numbers and lent buffers. It is the module as
//! requested, and where the run is inside the domain of equality the unchanged one as well. It stops
//! with status 1 at the first difference, or where something that should be seen never was.

mod counts;
mod stamps;

use common::asking::{self, Pieces};
use common::random::Random;
use counts::Counts;
use oracle::domain::cases;
use splitter::answer::Outcome;
use splitter::call::Call;
use splitter::calls::sequences::Sequences;
use splitter::calls::talk::Exchange;
use std::error::Error;
use std::io::{self, BufRead, Write};
use std::process::{Child, ChildStdin, Command, ExitCode};
use std::sync::mpsc::{channel, Receiver, Sender};
use std::time::Instant;

const USAGE: &str = "usage: sequences PROGRAM PUSHES SEED [ARG..]
       sequences --lines PUSHES SEED
  PROGRAM   the program to ask; --lines: asks none, and prints the lines
  PUSHES    pushes to make at least; the other calls come beside them
  SEED      seed of everything random
  ARG..     the program's arguments";

/// The parts of an answer, in their order.
const PARTS: [&str; 6] = ["answer", "state", "rows", "output", "pending bytes", "rest"];

/// A line as it is asked, and what it asks and must be answered.
type Question = (String, Exchange);

fn main() -> ExitCode {
    let arguments: Vec<String> = std::env::args().skip(1).collect();
    let Some((program, sequences, seed)) = options(&arguments) else {
        eprintln!("{USAGE}");
        return ExitCode::from(2);
    };
    if program == "--lines" {
        return show(sequences, seed);
    }
    match asking::start(Command::new(program).args(&arguments[3..])) {
        Ok(program) => asking::verdict(ask_all(program, sequences, seed)),
        Err(error) => {
            eprintln!("sequences: {program}: {error}");
            ExitCode::from(2)
        }
    }
}

fn options(arguments: &[String]) -> Option<(&str, Sequences, u64)> {
    let [program, pushes, seed, ..] = arguments else {
        return None;
    };
    let seed = seed.parse().ok()?;
    Some((program, Sequences::new(pushes.parse().ok()?, seed), seed))
}

/// Prints the lines. Whoever reads them may stop.
fn show(sequences: Sequences, seed: u64) -> ExitCode {
    let mut lines = io::BufWriter::new(io::stdout().lock());
    let printed = questions(sequences, seed).try_for_each(|(line, _)| writeln!(lines, "{line}"));
    match printed.and_then(|()| lines.flush()) {
        Ok(()) => ExitCode::SUCCESS,
        Err(_) => ExitCode::FAILURE,
    }
}

/// Asks everything, and prints the counts.
fn ask_all(mut program: Child, sequences: Sequences, seed: u64) -> Result<(), Box<dyn Error>> {
    let start = Instant::now();
    println!("seed {seed}");
    cases::check()?;
    let (asked, to_compare) = channel();
    let counts = asking::converse(
        &mut program,
        move |lines| ask(lines, asked, sequences, seed),
        |answers| compare(answers, to_compare),
    )?;
    let unseen = counts.unseen();
    if !unseen.is_empty() {
        return Err(format!("never seen: {}", unseen.join("; ")).into());
    }
    let seconds = start.elapsed().as_secs_f64();
    println!("{counts}{} calls compared ({seconds:.1} s): no difference", counts.calls());
    Ok(())
}

/// Each line, a part of them in small letters.
fn questions(sequences: Sequences, seed: u64) -> impl Iterator<Item = Question> {
    let mut random = Random::new(!seed);
    sequences.map(move |exchange| {
        let mut line = exchange.call.text();
        if random.below(8) == 0 && !matches!(exchange.call, Call::Malformed(..)) {
            line.make_ascii_lowercase();
        }
        (line, exchange)
    })
}

/// Writes all lines. What is asked is handed on before it is written, so that the other side never
/// waits for it.
fn ask(
    program: ChildStdin,
    asked: Sender<Question>,
    sequences: Sequences,
    seed: u64,
) -> io::Result<()> {
    let mut pieces = Pieces::new(program, 12, Random::new(seed));
    for question in questions(sequences, seed) {
        pieces.hold(question.0.as_bytes());
        pieces.hold(b"\n");
        if asked.send(question).is_err() {
            // The other side has found a difference.
            return Ok(());
        }
        pieces.write()?;
    }
    pieces.end()
}

/// Holds each answer to those that are expected.
fn compare(mut answers: impl BufRead, asked: Receiver<Question>) -> Result<Counts, Box<dyn Error>> {
    let mut counts = Counts::new();
    let (mut answer, mut since) = (Vec::new(), Vec::new());
    for (n, (line, exchange)) in (1..).zip(asked) {
        if starts_anew(&exchange) {
            since.clear();
        }
        since.push(line);
        answer.clear();
        answers.read_until(b'\n', &mut answer)?;
        for (module, expected) in exchange.answers.by_module() {
            let expected = expected.text();
            if answer.strip_suffix(b"\n") != Some(expected.as_bytes()) {
                println!("{}", since.join("\n"));
                return Err(wrong_answer(n, &answer, module, &expected).into());
            }
        }
        counts.count(&exchange);
    }
    asking::no_more(answers)?;
    Ok(counts)
}

/// True where the state does not depend on what was before.
fn starts_anew(exchange: &Exchange) -> bool {
    let sets_state = matches!(exchange.call, Call::New(_) | Call::Set(..));
    sets_state && matches!(exchange.answers.requested.outcome, Outcome::Done)
}

/// The first part of the answer that is not the one of that module.
fn wrong_answer(n: u64, answer: &[u8], module: &str, expected: &str) -> String {
    let answer = match answer.split_last() {
        None => return format!("line {n}: the program gives no more answers"),
        Some((b'\n', answer)) => String::from_utf8_lossy(answer),
        Some(_) => return format!("line {n}: the program's last answer is not a whole line"),
    };
    let pairs = answer.split(' ').zip(expected.split(' '));
    let different = PARTS.iter().zip(pairs).find(|(_, (ours, right))| ours != right);
    let (part, (ours, right)) = different.unwrap_or((&"line", (&answer, expected)));
    let place = ours.bytes().zip(right.bytes()).take_while(|(a, b)| a == b).count();
    let (ours, right) = (around(ours, place), around(right, place));
    format!("line {n}, {part}: the program says '{ours}', {module} '{right}'")
}

/// A long text about that place only.
fn around(text: &str, place: usize) -> String {
    let (from, to) = (place.saturating_sub(80), text.len().min(place + 40));
    let part = text.as_bytes().get(from..to).unwrap_or_default().escape_ascii();
    let [before, behind] = [from > 0, to < text.len()].map(|cut| if cut { ".." } else { "" });
    format!("{before}{part}{behind}")
}
