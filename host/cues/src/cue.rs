//! Request K4 a second time, from its words alone: which frame sounds at the cue.

/// Numbers of a row: length, kind, samples, rate, channels, bit rate or 0, mark, stamp.
pub const WIDTH: usize = 8;

/// Where a row has its mark, which is 1 where there is a stamp, and where the stamp.
pub const MARK: usize = 6;
pub const STAMP: usize = 7;

/// The number that refuses a list whose length is not a multiple of a row's.
pub const RAGGED: u32 = 14;

/// The place of a row, from 0, or that there is none; or the number of the refusal.
pub type Answer = Result<Option<usize>, u32>;

/// The place of the row standing last in the list among those whose stamp is at or before that time;
/// only rows whose mark is 1 count.
pub fn cue(rows: &[i64], time: i64) -> Answer {
    if rows.len() % WIDTH != 0 {
        return Err(RAGGED);
    }
    let counts = |row: &[i64]| row[MARK] == 1 && row[STAMP] <= time;
    let placed = rows.chunks_exact(WIDTH).enumerate();
    let places = placed.filter(|(_, row)| counts(row)).map(|(place, _)| place);
    Ok(places.last())
}
