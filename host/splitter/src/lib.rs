//! The splitter's calls, and the answers that they must get: the Rust module's, with the numbers
//! and the lent buffers that document 01 adds. Over the unchanged module stands [`model`], over the
//! module as requested [`requested::model`], and [`oracles`] has both.

pub use oracle::{answers, audio_frame};

pub mod answer;
pub mod call;
pub mod calls;
pub mod model;
pub mod oracles;
pub mod refusals;
pub mod requested;
pub mod state;
