//! K7: "Equality with the Rust is claimed where all frames kept or given since the splitter was new or
//! reset (here .. an unlock is a reset too) share one geometry and no unread tail made the first anchor
//! since then."

/// Samples and rate.
pub type Geometry = (u32, u32);

/// The anchor of a state that was set: its geometry, and whether it is marked.
pub type SetAnchor = (Geometry, bool);

/// How K7's words are left: a frame of another geometry than one before is given by a push, kept by
/// one, or given by a flush; or an unread tail makes the first anchor.
#[derive(Clone, Copy, Debug, PartialEq)]
pub enum Stamped {
    Given,
    Kept,
    Flushed,
    Tail,
}

impl Stamped {
    pub const NAMES: [&'static str; 4] = [
        "another geometry given",
        "another geometry kept",
        "another geometry flushed",
        "an unread tail made the first anchor",
    ];

    pub fn name(self) -> &'static str {
        Stamped::NAMES[self as usize]
    }
}

/// What a call keeps or gives, and where in the joined bytes it begins.
pub(super) struct Thing {
    pub at: usize,
    pub what: What,
}

pub(super) enum What {
    /// A frame with its head read, and what becomes of it.
    Frame(Stamped, Geometry),
    /// A tail too short for its head to be read.
    Tail,
}

/// What came since the splitter was new, reset or unlocked.
#[derive(Default)]
pub(super) struct Since {
    /// Of the first frame kept or given, and while inside of all of them.
    geometry: Option<Geometry>,
    /// Whether an anchor was made.
    has_anchor: bool,
    pub is_outside: bool,
}

impl Since {
    /// An unmarked anchor stands for a frame of its geometry that was given. A marked one is an unread
    /// tail's, perhaps the first.
    pub fn from(anchor: Option<SetAnchor>) -> Since {
        match anchor {
            None => Since::default(),
            Some((geometry, is_outside)) => {
                Since { geometry: Some(geometry), has_anchor: true, is_outside }
            }
        }
    }

    /// What a call keeps and gives, with so many bytes pending before. Says how it leaves the domain,
    /// if it does.
    pub fn follow(
        &mut self,
        things: &[Thing],
        pending: usize,
        has_timestamp: bool,
    ) -> Option<Stamped> {
        let mut unused = has_timestamp;
        let mut left = None;
        for thing in things {
            // The timestamp is for the first thing to commence in the payload, and makes an anchor.
            let makes_anchor = unused && thing.at >= pending;
            let found = match thing.what {
                What::Frame(stamped, geometry) => self.is_another(geometry).then_some(stamped),
                What::Tail => (makes_anchor && !self.has_anchor).then_some(Stamped::Tail),
            };
            self.has_anchor |= makes_anchor;
            unused &= !makes_anchor;
            left = left.or(found);
        }
        let left = if self.is_outside { None } else { left };
        self.is_outside |= left.is_some();
        left
    }

    /// A frame is kept or given: whether one before it had another geometry.
    fn is_another(&mut self, geometry: Geometry) -> bool {
        *self.geometry.get_or_insert(geometry) != geometry
    }
}
