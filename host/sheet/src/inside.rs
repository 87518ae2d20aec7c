//! How far a sheet has to be the unchanged module's: as far as its run is inside the domain of
//! equality. A run is one sheet, all pushes from a new splitter on.

use crate::{answers, model, text};
use oracle::domain::{Left, Run};
use std::io;

/// The unchanged module's sheet, whole, or its lines up to the payload that left the domain.
pub struct Inside {
    pub sheet: Vec<u8>,
    /// How many payloads were inside.
    pub payloads: usize,
    /// How the domain was left, if it was.
    pub left: Option<Left>,
}

impl Inside {
    /// Of a standard input.
    pub fn of(input: &[u8]) -> io::Result<Inside> {
        let mut inside = Inside { sheet: Vec::new(), payloads: 0, left: None };
        let Inside { sheet, payloads, left } = &mut inside;
        let mut run = Run::default();
        model::print_while(input, sheet, text::line, |splitter, payload| {
            let parts = splitter.parts();
            let code = answers::code(parts.syntax);
            // The first payload has the one timestamp.
            *left = run.push(code, parts.locked, &parts.residual, payload, *payloads == 0);
            let goes_on = run.is_inside();
            *payloads += usize::from(goes_on);
            goes_on
        })?;
        Ok(inside)
    }

    /// As much of a sheet as has to be this one.
    pub fn part_of<'a>(&self, sheet: &'a [u8]) -> &'a [u8] {
        match self.left {
            None => sheet,
            Some(_) => &sheet[..sheet.len().min(self.sheet.len())],
        }
    }
}
