//! The fields of heads to be written, by chance and about the bounds of their widths.

use crate::writes::{Fields, Table};
use common::random::Random;
use common::samples::{self, KINDS};

/// Numbers about the bounds of widths and of types, and the largest.
const BOUNDS: [u32; 14] = [
    0,
    1,
    255,
    256,
    257,
    511,
    512,
    65_535,
    65_536,
    65_537,
    1 << 24,
    1 << 31,
    u32::MAX - 1,
    u32::MAX,
];

/// The fields of a head that reads.
pub fn good(table: Table, random: &mut Random) -> Fields {
    let of_table = |kind: &u32| Table::of_kind(*kind) == table;
    let kinds: Vec<u32> = KINDS.into_iter().filter(of_table).collect();
    table.read(&samples::good(random.pick(&kinds), random))
}

/// Numbers up to 40, about the bounds of a field's width, and about those of types.
pub fn about(table: Table, field: usize, fields: &Fields) -> impl Iterator<Item = u32> {
    let most = 1 << table.widths(fields)[field];
    (0..=40).chain([most - 1, most, most + 1]).chain(BOUNDS)
}

/// Half of the records begin as one that reads, and have a few fields changed.
pub fn by_chance(table: Table, random: &mut Random) -> Fields {
    let mut fields = good(table, random);
    let all = random.below(2) == 0;
    let changes = if all { table.fields() as u64 } else { random.below(4) };
    for change in 0..changes {
        let field = if all { change } else { random.below(table.fields() as u64) } as usize;
        let most: u32 = 1 << table.widths(&fields)[field];
        fields[field] = match random.below(if all { 64 } else { 4 }) {
            0 => random.pick(&BOUNDS),
            1 => most - 1 + random.below(3) as u32,
            2 => random.word() as u32 >> random.below(32),
            _ if field == 0 && random.below(8) > 0 => fields[0],
            _ => random.below(u64::from(most)) as u32,
        };
    }
    fields
}

/// As [`by_chance`]. A quarter of ADTS reads but for its frame_length, which is about the least ones,
/// 7 to 15: chance alone gives too few of them.
pub fn with_short_frames(table: Table, random: &mut Random) -> Fields {
    if table != Table::Adts || random.below(4) > 0 {
        return by_chance(table, random);
    }
    let mut fields = good(table, random);
    fields[12] = random.below(18) as u32;
    fields
}
