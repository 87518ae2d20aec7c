//! Both models beside each other. The one over the module as requested answers for every call; the
//! one over the unchanged module too, and its answer counts while the run is inside the domain of
//! equality.

use crate::answer::{Answer, Outcome};
use crate::call::Call;
use crate::state::State;
use crate::{model, requested};
use oracle::domain::{Left, Run};

/// What a call must be answered.
pub struct Answers {
    /// By the module as requested.
    pub requested: Answer,
    /// By the unchanged module, where the run is inside the domain, this call included.
    pub unchanged: Option<Answer>,
    /// How the run left the domain, if it is this call that left it.
    pub left: Option<Left>,
    /// Whether the run is inside, this call included, and was outside before: K7 looks at no more than
    /// what came since the last reset.
    pub is_inside_again: bool,
    /// Whether it is this call that brought the run back.
    pub is_back: bool,
}

impl Answers {
    pub fn is_inside(&self) -> bool {
        self.unchanged.is_some()
    }

    /// All that count, each with the name of its module.
    pub fn by_module(&self) -> impl Iterator<Item = (&'static str, &Answer)> {
        let unchanged = self.unchanged.iter().map(|answer| ("the unchanged module", answer));
        [("the module as requested", &self.requested)].into_iter().chain(unchanged)
    }
}

/// Two splitters, kept from call to call, and the run that they are in.
#[derive(Default)]
pub struct Oracles {
    requested: requested::model::Model,
    /// It goes on outside the domain too: where a later part of a run is inside again, by the
    /// domain's own words, it has to be what the Rust is then.
    unchanged: model::Model,
    run: Run,
}

impl Oracles {
    /// The state as requested.
    pub fn state(&self) -> State {
        self.requested.state()
    }

    pub fn answer(&mut self, call: &Call) -> Answers {
        let (before, was_inside) = (self.requested.state(), self.run.is_inside());
        let requested = self.requested.answer(call);
        let left = match &requested.outcome {
            // It asks no reader, and begins no run.
            Outcome::Refused(_) => None,
            _ => self.judge(call),
        };
        let is_inside = self.run.is_inside();
        let is_back = is_inside && !was_inside && matches!(call, Call::Reset | Call::Unlock);
        let mut unchanged = match is_inside {
            true => self.unchanged.answer(call),
            // The anchors are different ones: the calls that are refused are those as requested.
            false => self.unchanged.answer_by(&before, call),
        };
        // Its anchor has no mark, so that the mark is left out of what is compared.
        unchanged.state.take_mark(&requested.state);
        Answers {
            requested,
            unchanged: is_inside.then_some(unchanged),
            left,
            is_inside_again: self.run.is_inside_again(),
            is_back,
        }
    }

    /// Tells the domain of a call that is not refused and that the unchanged model has yet to
    /// answer. All that the domain is told is told here.
    fn judge(&mut self, call: &Call) -> Option<Left> {
        let State { code, locked, .. } = self.unchanged.state();
        let pending = self.unchanged.pending_bytes();
        match call {
            Call::New(_) => self.begin(Run::default()),
            Call::Set(state, _) => {
                let anchor = state.anchor.map(|a| ((a.samples, a.rate), a.unread));
                self.begin(Run::from(anchor))
            }
            Call::Push(pts, _, payload) => {
                self.run.push(code, locked, pending, payload, pts.is_some())
            }
            Call::Flush(_) => self.run.flush(code, pending),
            Call::Reset | Call::Unlock => {
                self.run.reset();
                None
            }
            Call::Malformed(..) => None,
        }
    }

    /// The call sets all but the pending buffer, whose bytes stay from run to run; those that were
    /// written outside the domain may be from the other splitter.
    fn begin(&mut self, run: Run) -> Option<Left> {
        self.run = run;
        self.unchanged.lend(self.requested.buffer());
        None
    }
}
