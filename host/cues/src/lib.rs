//! Which frame sounds at a cue: request K4 a second time, what the programs `cue` and `cuelines` are
//! asked, and what they must answer.

pub mod cases;
pub mod cue;
pub mod first_lines;
pub mod found;
pub mod inputs;
pub mod line;
pub mod malformed;
pub mod rows;
