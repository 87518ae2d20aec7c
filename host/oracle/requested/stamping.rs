// Document 02, K7, the tune that changes its rate: how frames are stamped, written from the request's
// words alone. `build.rs` puts it behind the text with the edits made, out of which the anchor and all
// that stamped were taken; push and flush call what stands here. The words in quotes are K7's, but for
// those that are named as document 01's.

/// "Number 10's bounds" are -2^62 .. 2^62, both ends inside.
const FARTHEST: i64 = 1 << 62;

/// The samples of a frame, and their rate.
#[derive(Debug, Clone, Copy, PartialEq, Eq)]
struct Geometry {
    samples: u32,
    rate: u32,
}

/// Of a tail before which there was no anchor. No head that is read says so.
const UNKNOWN: Geometry = Geometry { samples: 0, rate: 0 };

/// Where stamps are counted from.
#[derive(Debug, Clone, Copy)]
struct Anchor {
    pts: i64,
    /// How many things were stamped from it, itself among them.
    frames_since: u32,
    /// "The geometry of the frames since the anchor."
    geometry: Geometry,
    /// "Made by an unread tail, marked so in the state": its geometry is yet to be learnt.
    unread: bool,
}

impl Geometry {
    fn of(info: &AudioFrameInfo) -> Geometry {
        Geometry { samples: info.samples_per_frame, rate: info.sample_rate }
    }
}

impl Anchor {
    /// An anchor "with count zero before itself": whatever made it is the first to be counted.
    fn new(pts: i64, geometry: Geometry) -> Anchor {
        Anchor { pts, frames_since: 1, geometry, unread: false }
    }

    /// "A frame's stamp uses the geometry of the frames since the anchor"; document 01: "anchor +
    /// floor(frames since × samples × 90,000 / rate), and the bare anchor when the rate is 0; each
    /// such stamp counts one".
    fn next_stamp(&mut self) -> i64 {
        let before = i128::from(self.frames_since);
        self.frames_since += 1;
        let Geometry { samples, rate } = self.geometry;
        if rate == 0 {
            return self.pts;
        }
        let ticks = before * i128::from(samples) * 90_000 / i128::from(rate);
        self.pts + ticks as i64
    }
}

impl AudioFrameSplitter {
    /// A frame that begins in the payload, given or kept, with its head read.
    fn stamp_new_frame(
        &mut self,
        timestamp: &mut Option<i64>,
        info: &AudioFrameInfo,
    ) -> Option<i64> {
        self.learn_from(info);
        match timestamp.take() {
            // Document 01: "the payload's timestamp if unused, making a new anchor", which has the
            // frame's own geometry and nothing to learn.
            Some(pts) => {
                self.anchor = Some(Anchor::new(pts, Geometry::of(info)));
                Some(pts)
            }
            None => self.work_out(info),
        }
    }

    /// A tail that begins in the payload, too short for its head to be read.
    fn stamp_new_tail(&mut self, timestamp: &mut Option<i64>) -> Option<i64> {
        match timestamp.take() {
            // "An anchor made by an unread tail, marked so in the state"; "until then it holds the
            // earlier anchor's [geometry], if there was one".
            Some(pts) => {
                let held = self.anchor.map_or(UNKNOWN, |earlier| earlier.geometry);
                self.anchor = Some(Anchor { unread: true, ..Anchor::new(pts, held) });
                Some(pts)
            }
            // It counts one, as any thing that is stamped, by the geometry of the frames since the
            // anchor. It has none of its own that could differ, and makes no mark nor takes one away.
            None => self.anchor.as_mut().map(Anchor::next_stamp),
        }
    }

    /// A frame that begins in pending bytes and is given by a push, with its head read.
    fn give_older_frame(&mut self, info: &AudioFrameInfo) -> Option<i64> {
        self.learn_from(info);
        match self.residual_pts.take() {
            // It was stamped when it was kept, and counted then; its head may be read only now.
            Some(stamp) => {
                self.stamped(stamp, info);
                Some(stamp)
            }
            // Document 01: "if that is absent and the frame is given, it is worked out from the
            // anchor the same way, counting one".
            None => self.work_out(info),
        }
    }

    /// A frame that begins in pending bytes and is kept once more, with its head read. It keeps the
    /// stamp that it has. If it has none it is not stamped by this call, so that it moves no anchor:
    /// that is for "the call by which its head is read and it is stamped".
    fn keep_older_frame(&mut self, info: &AudioFrameInfo) -> Option<i64> {
        self.learn_from(info);
        if let Some(stamp) = self.residual_pts {
            self.stamped(stamp, info);
        }
        self.residual_pts
    }

    /// The pending frame that a flush gives: as one that is kept, but the stamp is used up.
    fn flush_older_frame(&mut self, info: &AudioFrameInfo) -> Option<i64> {
        self.keep_older_frame(info);
        self.residual_pts.take()
    }

    /// "An anchor made by an unread tail .. learns its geometry from the first frame kept or given
    /// after it with its head read, the tail's own if it has one." That is before the frame is
    /// stamped, since its stamp uses the geometry of the frames since the anchor: its own.
    fn learn_from(&mut self, info: &AudioFrameInfo) {
        if let Some(anchor) = self.anchor.as_mut().filter(|anchor| anchor.unread) {
            anchor.geometry = Geometry::of(info);
            anchor.unread = false;
        }
    }

    /// The stamp of a frame that has no timestamp. No anchor, no stamp.
    fn work_out(&mut self, info: &AudioFrameInfo) -> Option<i64> {
        let stamp = self.anchor.as_mut()?.next_stamp();
        self.stamped(stamp, info);
        Some(stamp)
    }

    /// A frame has its head read and is stamped, by this call or before.
    fn stamped(&mut self, stamp: i64, info: &AudioFrameInfo) {
        let own = Geometry::of(info);
        // "A frame whose geometry differs from theirs keeps that stamp and becomes .. the new anchor
        // with count zero before itself." Where there is no anchor there is none to differ from.
        if self.anchor.is_some_and(|anchor| anchor.geometry != own) {
            // "A frame that would move the anchor outside number 10's bounds keeps its stamp and
            // leaves no anchor."
            let is_inside = -FARTHEST <= stamp && stamp <= FARTHEST;
            self.anchor = is_inside.then(|| Anchor::new(stamp, own));
        }
    }
}

impl Anchor {
    /// As `parts.rs` gives and takes it.
    fn numbers(self) -> AnchorParts {
        (self.pts, self.frames_since, self.geometry.samples, self.geometry.rate, self.unread)
    }

    fn from_numbers((pts, frames_since, samples, rate, unread): AnchorParts) -> Anchor {
        Anchor { pts, frames_since, geometry: Geometry { samples, rate }, unread }
    }
}
