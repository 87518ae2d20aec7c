// `build.rs` puts this behind a copy of audio_frame.rs, whose own text stays as it is, and behind the
// text as requested. The splitter's fields are private there; here they are given and set.

/// Of an anchor: its timestamp, frames since, samples and rate, and whether an unread tail made it and
/// its geometry is yet to be learnt (K7). The unchanged text knows no such mark.
pub type AnchorParts = (i64, u32, u32, u32, bool);

/// All fields of a splitter.
pub struct Parts {
    pub syntax: AudioSyntax,
    pub residual: Vec<u8>,
    pub residual_pts: Option<i64>,
    pub anchor: Option<AnchorParts>,
    pub discarded: u64,
    pub locked: bool,
}

impl AudioFrameSplitter {
    pub fn parts(&self) -> Parts {
        Parts {
            syntax: self.syntax,
            residual: self.residual.clone(),
            residual_pts: self.residual_pts,
            anchor: self.anchor.map(Anchor::numbers),
            discarded: self.discarded,
            locked: self.locked,
        }
    }

    pub fn from_parts(parts: Parts) -> Self {
        Self {
            syntax: parts.syntax,
            residual: parts.residual,
            residual_pts: parts.residual_pts,
            anchor: parts.anchor.map(Anchor::from_numbers),
            discarded: parts.discarded,
            locked: parts.locked,
        }
    }
}
