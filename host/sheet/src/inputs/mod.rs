//! Standard inputs for the program `cutsheet`, made from one seed: a first line and a stream.

pub mod demo;
pub mod edges;
pub mod first_lines;
pub mod input;
pub mod large;
pub mod long;
