//! The library under test, and the answers that it and the program `head` must give.

pub mod cases;
pub mod chart;
pub mod library;
pub mod line;
pub mod numbers;
pub mod records;
pub mod reference;
pub mod skip;
pub mod writes;
