//! The model over the module as requested. The refusals are the same: they ask no module.

pub use crate::refusals;
pub use oracle::requested::{answers, audio_frame};

#[path = "model.rs"]
pub mod model;
