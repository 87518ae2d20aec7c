//! Lists of calls for a splitter, made from one seed: streams and damaged streams cut into payloads,
//! states at their bounds, short streams cut everywhere, tunes that change their rate.

pub mod large;
pub mod malformed;
pub mod sequences;
pub mod short;
pub mod states;
pub mod talk;
pub mod tunes;
