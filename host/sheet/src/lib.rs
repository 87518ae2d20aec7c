//! The cut sheet of a stream: the Rust module's frames, in document 01's lines. Over the unchanged
//! module stand [`model`], [`text`], [`digits`] and [`cases`], and in [`requested`] the same over
//! the module as requested.

pub use oracle::{answers, audio_frame};

pub mod cases;
pub mod digits;
pub mod inputs;
pub mod inside;
pub mod model;
pub mod requested;
pub mod text;

/// Whether the module that stands here is the one as requested.
pub const AS_REQUESTED: bool = false;
