//! A program asked many lines over pipes, and how a run ends.

use crate::random::Random;
use std::error::Error;
use std::fmt::Display;
use std::io::{self, BufRead, BufReader, Write};
use std::process::{Child, ChildStdin, ChildStdout, Command, ExitCode, Stdio};
use std::thread;

/// Starts a program that is to be asked.
pub fn start(command: &mut Command) -> io::Result<Child> {
    command.stdin(Stdio::piped()).stdout(Stdio::piped()).spawn()
}

/// Lets `ask` write to the program while `compare` reads its answers; then the program must end well.
pub fn converse<T>(
    program: &mut Child,
    ask: impl FnOnce(ChildStdin) -> io::Result<()> + Send,
    compare: impl FnOnce(BufReader<ChildStdout>) -> Result<T, Box<dyn Error>>,
) -> Result<T, Box<dyn Error>> {
    let questions = program.stdin.take().expect("a pipe");
    let answers = program.stdout.take().expect("a pipe");
    let compared = thread::scope(|scope| {
        // On a thread of its own: else each side could wait for the other to empty a full pipe. That
        // a write failed needs no report: then answers are missing.
        scope.spawn(|| ask(questions));
        let compared = compare(BufReader::with_capacity(1 << 16, answers));
        if compared.is_err() {
            // Else the thread would go on to ask, or wait for a program that does not read.
            program.kill()?;
        }
        compared
    })?;
    match program.wait()? {
        status if status.success() => Ok(compared),
        status => Err(format!("all answers are right, but the program ends with {status}").into()),
    }
}

/// There must be no further answer.
pub fn no_more(mut answers: impl BufRead) -> Result<(), Box<dyn Error>> {
    let mut answer = Vec::new();
    match answers.read_until(b'\n', &mut answer)? {
        0 => Ok(()),
        _ => Err(format!("a line too many: '{}'", answer.escape_ascii()).into()),
    }
}

/// Status 0, or the difference as the last line and status 1.
pub fn verdict(outcome: Result<(), impl Display>) -> ExitCode {
    match outcome {
        Ok(()) => ExitCode::SUCCESS,
        Err(what) => {
            println!("difference: {what}");
            ExitCode::FAILURE
        }
    }
}

/// An odd size of a piece, up to 65535; the larger `spread`, up to 16, the more small ones.
pub fn piece(spread: u64, random: &mut Random) -> usize {
    (random.word() >> (48 + random.below(spread))) as usize | 1
}

/// Writes in pieces of odd sizes, small and large, so that lines are cut anywhere.
pub struct Pieces<W> {
    to: W,
    spread: u64,
    random: Random,
    waiting: Vec<u8>,
    size: usize,
}

impl<W: Write> Pieces<W> {
    pub fn new(to: W, spread: u64, mut random: Random) -> Self {
        let size = piece(spread, &mut random);
        Pieces { to, spread, random, waiting: Vec::new(), size }
    }

    /// Keeps bytes that are to be written.
    pub fn hold(&mut self, bytes: &[u8]) {
        self.waiting.extend(bytes);
    }

    /// Writes as many pieces as are whole.
    pub fn write(&mut self) -> io::Result<()> {
        while self.waiting.len() >= self.size {
            self.to.write_all(&self.waiting[..self.size])?;
            self.waiting.drain(..self.size);
            self.size = piece(self.spread, &mut self.random);
        }
        Ok(())
    }

    /// Writes the rest.
    pub fn end(mut self) -> io::Result<()> {
        self.to.write_all(&self.waiting)
    }
}
