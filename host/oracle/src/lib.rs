//! The Rust module that was ported, and its answers as plain numbers; the same module as the change
//! requests want it; and the domain in which the two are equal.

// The module's own text is unchanged: `audio_frame.rs`, with `parts.rs` behind it, as `build.rs` wrote them.
include!(concat!(env!("OUT_DIR"), "/audio_frame.rs"));

pub mod answers;
pub mod domain;
pub mod requested;
