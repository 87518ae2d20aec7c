//! The cut sheet over the module as requested.

pub use oracle::requested::{answers, audio_frame};

#[path = "cases.rs"]
pub mod cases;
#[path = "digits.rs"]
pub mod digits;
#[path = "model.rs"]
pub mod model;
#[path = "text.rs"]
pub mod text;

/// Whether the module that stands here is the one as requested.
pub const AS_REQUESTED: bool = true;
