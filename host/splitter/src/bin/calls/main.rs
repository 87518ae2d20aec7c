//! Writes the stored list of calls, one a line, and beside it the answers that they must get. A
//! Rattle program replays it where no Rust is at hand.
//!
//!   calls INPUTS ANSWERS
//!
//! In this order: document 01's S1 to S8; its small inputs of numbers 7 to 12; the order of the
//! numbers; the first of its four wrong turns (the others are S4, S5 and S2); the readings; what
//! requests K3, K6 and K7 changed; malformed lines; short streams cut in two and three; combinations
//! of what K7 tells apart; streams and states by chance. The answers are those of the module as
//! requested. Answers written by hand are held to them, and inside the domain of equality to the
//! unchanged module's, and nothing is written where they differ.

mod cases;
mod changes;
mod stamps;

use cases::{Case, CORNERS, NUMBERS, ORDER, READINGS};
use cases::{LAST_STAMP, STEPS, STEP_BYTES, STEP_HEAD, STEP_START};
use changes::{Changed, ADTS_HEADS, STREAM_TYPES};
use common::random::Random;
use common::soup::{stream, Sort};
use splitter::call::Call;
use splitter::calls::malformed::WAYS;
use splitter::calls::talk::{Exchange, Talk};
use splitter::calls::{short, states, tunes};
use splitter::model::Model;
use splitter::oracles::{Answers, Oracles};
use stamps::STAMPS;
use std::process::ExitCode;

/// One of so many short streams is stored.
const EVERY_SHORT: usize = 941;

/// One of so many combinations that K7 tells apart is.
const EVERY_TUNE: usize = 61;

/// Sequences by chance: so many, none of them longer than this as text.
const BY_CHANCE: usize = 48;
const MOST_TEXT: usize = 2_400;

/// The lines so far and their answers.
#[derive(Default)]
struct List {
    oracles: Oracles,
    lines: Vec<String>,
    answers: Vec<String>,
}

fn main() -> ExitCode {
    let arguments: Vec<String> = std::env::args().skip(1).collect();
    let [inputs, answers] = arguments.as_slice() else {
        eprintln!("usage: calls INPUTS ANSWERS");
        return ExitCode::from(2);
    };
    match write(inputs, answers) {
        Ok(()) => ExitCode::SUCCESS,
        Err(error) => {
            eprintln!("calls: {error}");
            ExitCode::FAILURE
        }
    }
}

fn write(inputs: &str, answers: &str) -> Result<(), String> {
    let mut list = List::default();
    let cases = CORNERS.iter().chain(&NUMBERS).chain([&ORDER]);
    cases.into_iter().try_for_each(|case| list.case(case))?;
    list.steps()?;
    READINGS.iter().try_for_each(|case| list.case(case))?;
    let changed = ADTS_HEADS.iter().chain(&STREAM_TYPES).chain(&STAMPS);
    changed.into_iter().try_for_each(|case| list.changed(case))?;
    WAYS.iter().flat_map(|(_, lines)| *lines).for_each(|line| drop(list.ask(line)));
    list.short_streams();
    list.tunes();
    list.by_chance();
    let text = |lines: &[String]| lines.iter().map(|line| format!("{line}\n")).collect::<String>();
    std::fs::write(inputs, text(&list.lines))
        .and_then(|()| std::fs::write(answers, text(&list.answers)))
        .map_err(|error| error.to_string())
}

impl List {
    fn ask(&mut self, line: &str) -> Answers {
        let answers = self.oracles.answer(&call(line));
        self.answers.push(answers.requested.text());
        self.lines.push(line.into());
        answers
    }

    /// A case written by hand. Its answers must begin as the document says.
    fn case(&mut self, case: &Case) -> Result<(), String> {
        for (line, says) in case.turns {
            let answers = self.ask(line);
            for (module, answer) in answers.by_module() {
                same(case.name, line, says, module, &answer.text())?;
            }
        }
        Ok(())
    }

    /// A case that a request changed, with the answers from before and from now on. It must leave
    /// the domain where it says so, and come back.
    fn changed(&mut self, case: &Changed) -> Result<(), String> {
        let mut unchanged = Model::default();
        let (mut left, mut sides) = (None, String::new());
        for (line, before, now) in case.turns {
            let answers = self.ask(line);
            same(case.name, line, now, "as requested", &answers.requested.text())?;
            let mut answer = unchanged.answer(&call(line));
            if before.is_none() {
                answer.state.take_mark(&answers.requested.state);
            }
            same(case.name, line, before.unwrap_or(now), "unchanged", &answer.text())?;
            left = left.or(answers.left);
            sides.push(if answers.is_inside() { 'i' } else { 'o' });
        }
        match left == case.left && case.sides.is_none_or(|right| sides == right) {
            true => Ok(()),
            false => Err(format!("{}: leaves the domain at {left:?}: {sides}", case.name)),
        }
    }

    /// The wrong turn of added durations: many frames at 44100 Hz, the last stamp by hand.
    fn steps(&mut self) -> Result<(), String> {
        let (zeros, frames) = ("00".repeat(STEP_BYTES - STEP_HEAD.len() / 2), STEPS as usize + 1);
        let joined = STEP_BYTES * frames;
        let rows = 8 * (joined / 7);
        self.ask(STEP_START.0);
        self.ask(&format!("p 0 8190 {joined} {rows} {STEP_HEAD}{zeros}*{frames}"));
        let answer = self.answers.last().expect("the answer to the line");
        match answer.contains(LAST_STAMP) {
            true => Ok(()),
            false => Err(format!("{STEPS} steps: no '{LAST_STAMP}' in '{answer}'")),
        }
    }

    fn short_streams(&mut self) {
        let mut talk = Talk::default();
        for (n, short) in short::all().into_iter().step_by(EVERY_SHORT).enumerate() {
            short.tell(4 * n as u64, &mut talk);
            self.add(talk.take());
        }
    }

    fn tunes(&mut self) {
        let mut talk = Talk::default();
        for tune in tunes::all().into_iter().step_by(EVERY_TUNE) {
            tune.tell(&mut talk);
            self.add(talk.take());
        }
    }

    /// Streams of each syntax and of each sort, and states that are set, in turn. Long ones are left
    /// out; what a later one finds pending is the stored list's own.
    fn by_chance(&mut self) {
        let mut random = Random::new(1);
        let mut talk = Talk::default();
        let sorts = [Sort::Whole, Sort::Damaged, Sort::Joined, Sort::Pieces, Sort::Sparse];
        let mut stored = 0;
        while stored < BY_CHANCE {
            let (code, sort) = (stored as u32 % 3, sorts[stored % 5]);
            if stored % 7 == 6 {
                states::set_and_go_on(&mut talk, &mut random);
            } else {
                talk.ask(Call::New(code));
                talk.feed(&stream(sort, code, &mut random), &mut random);
                talk.flush();
            }
            let exchanges = talk.take();
            if text_len(&exchanges) <= MOST_TEXT {
                self.add(exchanges);
                stored += 1;
            }
        }
    }

    fn add(&mut self, exchanges: Vec<Exchange>) {
        exchanges.iter().for_each(|exchange| drop(self.ask(&exchange.call.text())));
    }
}

fn call(line: &str) -> Call {
    Call::parse(line).unwrap_or(Call::Malformed("", String::new()))
}

/// An answer must begin as it was written by hand, and where that is whole it must be that.
fn same(case: &str, line: &str, says: &str, module: &str, answer: &str) -> Result<(), String> {
    match answer.starts_with(says) && (!says.ends_with('=') || answer == says) {
        true => Ok(()),
        false => Err(format!("{case}: '{line}': '{says}' by hand, {module} '{answer}'")),
    }
}

/// Bytes of all lines and answers.
fn text_len(exchanges: &[Exchange]) -> usize {
    let answer = |exchange: &Exchange| exchange.answers.requested.text();
    let one = |exchange: &Exchange| exchange.call.text().len() + answer(exchange).len();
    exchanges.iter().map(one).sum()
}
