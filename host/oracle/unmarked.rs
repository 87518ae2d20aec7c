// `build.rs` puts this behind the unchanged text, whose anchor has no mark.

impl Anchor {
    /// As `parts.rs` gives and takes it, never marked.
    fn numbers(self) -> AnchorParts {
        (self.pts, self.frames_since, self.samples_per_frame, self.sample_rate, false)
    }

    fn from_numbers((pts, frames_since, samples_per_frame, sample_rate, _): AnchorParts) -> Anchor {
        Anchor { pts, frames_since, samples_per_frame, sample_rate }
    }
}
