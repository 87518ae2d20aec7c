//! The answers to expect of a list of calls: the Rust module's frames and fields, the refusals from
//! `refusals.rs`, and document 01's rules about rows and lent buffers. The module is the one that
//! stands beside this file: the unchanged one, or the one as requested.

// By `super`: it is compiled over either module, and in host/selftests/splitter over wrong texts.
use super::audio_frame::{AudioFrame, AudioFrameSplitter, AudioSyntax, Parts};
use super::{answers, refusals};
use crate::answer::{Answer, Outcome, Row};
use crate::call::{Call, Lent, MOST_PENDING};
use crate::state::{Anchor, State};

/// What a call did: its outcome, and the frames that it gave.
type Done = (Outcome, Vec<AudioFrame>);

/// One splitter, kept from call to call, and the pending buffer that is lent to it.
pub struct Model {
    /// The Rust knows no other code than 0, 1 and 2, and `splitter` then has a stand-in.
    code: u32,
    /// A state that was set may say more pending bytes than the buffer has.
    pending: u64,
    splitter: AudioFrameSplitter,
    buffer: [u8; MOST_PENDING],
}

impl Default for Model {
    fn default() -> Self {
        let splitter = AudioFrameSplitter::new(AudioSyntax::Ac3);
        Model { code: 0, pending: 0, splitter, buffer: [0xA5; MOST_PENDING] }
    }
}

impl Model {
    pub fn answer(&mut self, call: &Call) -> Answer {
        self.answer_by(&self.state(), call)
    }

    /// The same where the numbers look at that state, which may not be the splitter's own.
    pub fn answer_by(&mut self, numbers: &State, call: &Call) -> Answer {
        let (outcome, frames) = match call {
            Call::New(code) => self.renew(*code),
            Call::Set(state, bytes) => self.set(state, bytes),
            Call::Push(pts, lent, payload) => self.push(numbers, *pts, lent, payload),
            Call::Flush(lent) => self.flush(numbers, lent),
            Call::Reset => self.change(AudioFrameSplitter::reset),
            Call::Unlock => self.change(AudioFrameSplitter::unlock),
            Call::Malformed(..) => (Outcome::Malformed, Vec::new()),
        };
        Answer {
            outcome,
            state: self.state(),
            rows: frames.iter().map(row).collect(),
            output: frames.iter().flat_map(|frame| &frame.data).copied().collect(),
            pending: self.pending_bytes().to_vec(),
        }
    }

    /// The bytes that are pending; of more than the buffer has, all that it has.
    pub fn pending_bytes(&self) -> &[u8] {
        &self.buffer[..self.held()]
    }

    pub fn buffer(&self) -> &[u8; MOST_PENDING] {
        &self.buffer
    }

    /// Lends it another pending buffer, with the bytes of that one. A call that sets the state must
    /// follow: what is pending is kept in the splitter too.
    pub fn lend(&mut self, buffer: &[u8; MOST_PENDING]) {
        self.buffer = *buffer;
    }

    pub fn state(&self) -> State {
        let parts = self.splitter.parts();
        let anchor =
            |(pts, frames, samples, rate, unread)| Anchor { pts, frames, samples, rate, unread };
        State {
            code: self.code(),
            pending: self.pending,
            pts: parts.residual_pts,
            anchor: parts.anchor.map(anchor),
            discarded: self.splitter.discarded_bytes(),
            locked: self.splitter.is_locked(),
        }
    }

    /// The code of the Rust's syntax; a code that has none is kept here alone.
    fn code(&self) -> u32 {
        match answers::syntax(self.code) {
            Some(_) => answers::code(self.splitter.syntax()),
            None => self.code,
        }
    }

    /// How many of the pending bytes the buffer has.
    fn held(&self) -> usize {
        self.pending.min(MOST_PENDING as u64) as usize
    }

    fn renew(&mut self, code: u32) -> Done {
        if let Some(number) = refusals::of_new(code) {
            return (Outcome::Refused(number), Vec::new());
        }
        self.code = code;
        self.splitter = AudioFrameSplitter::new(syntax(code));
        self.keep_pending();
        (Outcome::Done, Vec::new())
    }

    fn set(&mut self, state: &State, bytes: &[u8]) -> Done {
        self.buffer[..bytes.len()].copy_from_slice(bytes);
        self.code = state.code;
        self.pending = state.pending;
        self.splitter = AudioFrameSplitter::from_parts(Parts {
            syntax: syntax(state.code),
            residual: self.pending_bytes().to_vec(),
            residual_pts: state.pts,
            anchor: state.anchor.map(|a| (a.pts, a.frames, a.samples, a.rate, a.unread)),
            discarded: state.discarded,
            locked: state.locked,
        });
        (Outcome::Done, Vec::new())
    }

    fn push(&mut self, numbers: &State, pts: Option<i64>, lent: &Lent, payload: &[u8]) -> Done {
        if let Some(number) = refusals::of_push(numbers, pts, lent, payload.len()) {
            return (Outcome::Refused(number), Vec::new());
        }
        let state = self.state();
        // The Rust does not say whether it took the payload; this is document 01's rule.
        let reads = syntax(self.code).parse(payload).is_some();
        let taken = state.locked || state.pending > 0 || reads;
        let frames = self.splitter.push(payload, pts);
        self.keep_pending();
        (if taken { Outcome::Written } else { Outcome::Nothing }, frames)
    }

    fn flush(&mut self, numbers: &State, lent: &Lent) -> Done {
        if let Some(number) = refusals::of_flush(numbers, lent) {
            return (Outcome::Refused(number), Vec::new());
        }
        let frame = self.splitter.flush();
        self.keep_pending();
        (if frame.is_some() { Outcome::Written } else { Outcome::Nothing }, Vec::from_iter(frame))
    }

    /// Reset and unlock refuse nothing.
    fn change(&mut self, change: fn(&mut AudioFrameSplitter)) -> Done {
        change(&mut self.splitter);
        self.keep_pending();
        (Outcome::Done, Vec::new())
    }

    /// Writes what is pending now to the front of the buffer. What stands behind it stays.
    fn keep_pending(&mut self) {
        let residual = self.splitter.parts().residual;
        self.buffer[..residual.len()].copy_from_slice(&residual);
        self.pending = self.splitter.pending_bytes() as u64;
    }
}

/// The syntax of a code; for a code that has none a stand-in, with which no push or flush is made.
fn syntax(code: u32) -> AudioSyntax {
    answers::syntax(code).unwrap_or(AudioSyntax::Ac3)
}

fn row(frame: &AudioFrame) -> Row {
    let [kind, length, samples, rate, channels, bit_rate] =
        answers::numbers_of(&frame.info).map(i64::from);
    let present = frame.pts.is_some().into();
    [length, kind, samples, rate, channels, bit_rate, present, frame.pts.unwrap_or(0)]
}
