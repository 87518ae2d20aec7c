//! The module as requested: the unchanged text with the edits of `requested/` made, as `build.rs`
//! wrote it, and its answers.

include!(concat!(env!("OUT_DIR"), "/requested.rs"));

#[path = "answers.rs"]
pub mod answers;
