//! What the layers share: the making of heads, frames and streams, a program asked over pipes or run
//! on an input, and the counts of what was seen.

pub mod asking;
pub mod counts;
pub mod feed;
pub mod frames;
pub mod random;
pub mod samples;
pub mod soup;
pub mod tunes;
