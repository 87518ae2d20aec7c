//! Heads written on a tape: a second definition, from document 02's K1. Fields become bits one by
//! one, and bits bytes; whether a head reads is asked of the other references.

use crate::reference::{self, Expected};

/// The syntax tables of the four heads.
#[derive(Clone, Copy, Debug, PartialEq)]
pub enum Table {
    Ac3,
    Eac3,
    Mpeg,
    Adts,
}

pub const TABLES: [Table; 4] = [Table::Ac3, Table::Eac3, Table::Mpeg, Table::Adts];

/// The most fields, and the most bytes, of a head.
pub const MOST_FIELDS: usize = 15;
pub const MOST_BYTES: usize = 7;

/// A head's fields, in the order of its syntax table.
pub type Fields = [u32; MOST_FIELDS];

impl Table {
    /// Its word in a line of the program `head`.
    pub fn word(self) -> &'static str {
        ["ac3", "eac3", "mpeg", "adts"][self as usize]
    }

    /// The syntax code under which the head is read.
    pub fn code(self) -> u32 {
        [0, 0, 1, 2][self as usize]
    }

    pub fn fields(self) -> usize {
        [11, 10, 13, 15][self as usize]
    }

    pub fn bytes(self) -> usize {
        [7, 6, 4, 7][self as usize]
    }

    /// The table of a kind of frame, by document 01's numbers.
    pub fn of_kind(kind: u32) -> Table {
        match kind {
            1 => Table::Ac3,
            2 => Table::Eac3,
            3..=5 => Table::Mpeg,
            _ => Table::Adts,
        }
    }

    /// The bits of each field. One that acmod or fscod leaves out has none.
    pub fn widths(self, fields: &Fields) -> Fields {
        let mut widths = [0; MOST_FIELDS];
        let own: &[u32] = match self {
            Table::Ac3 => {
                let [center, surround, dolby] = match fields[6] {
                    2 => [0, 0, 2],
                    3 => [2, 0, 0],
                    4 | 6 => [0, 2, 0],
                    5 | 7 => [2, 2, 0],
                    _ => [0, 0, 0],
                };
                &[16, 16, 2, 6, 5, 3, 3, center, surround, dolby, 1]
            }
            Table::Eac3 if fields[4] == 3 => &[16, 2, 3, 11, 2, 2, 0, 3, 1, 5],
            Table::Eac3 => &[16, 2, 3, 11, 2, 0, 2, 3, 1, 5],
            Table::Mpeg => &[12, 1, 2, 1, 4, 2, 1, 1, 2, 2, 1, 1, 2],
            Table::Adts => &[12, 1, 2, 1, 2, 4, 1, 3, 1, 1, 1, 1, 13, 11, 2],
        };
        widths[..own.len()].copy_from_slice(own);
        widths
    }

    /// The fields of a head, which has its bytes. acmod and fscod are looked up first, since they say
    /// which bits belong to what stands behind them.
    pub fn read(self, head: &[u8]) -> Fields {
        let mut fields = [0; MOST_FIELDS];
        match self {
            Table::Ac3 => fields[6] = u32::from(head[6] >> 5),
            Table::Eac3 => fields[4] = u32::from(head[4] >> 6),
            _ => {}
        }
        let widths = self.widths(&fields);
        let mut bits = (0..self.bytes() * 8).map(|bit| head[bit / 8] >> (7 - bit % 8) & 1);
        for (field, width) in fields.iter_mut().zip(widths) {
            *field = (0..width).fold(0, |value, _| {
                value << 1 | u32::from(bits.next().expect("the widths fit the head"))
            });
        }
        fields
    }

    /// The bytes of a head whose fields fit; last bits that no field has are 0.
    fn bytes_of(self, fields: &Fields) -> [u8; MOST_BYTES] {
        let mut bytes = [0; MOST_BYTES];
        let mut bit = 0;
        for (field, width) in fields.iter().zip(self.widths(fields)) {
            for place in (0..width).rev() {
                bytes[bit / 8] |= ((field >> place & 1) as u8) << (7 - bit % 8);
                bit += 1;
            }
        }
        bytes
    }

    /// A head's own bytes with the unused bits as 0: in AC-3 those behind lfeon in byte 6, in E-AC-3
    /// the low three of byte 5.
    pub fn cleared(self, head: &[u8]) -> [u8; MOST_BYTES] {
        let mut bytes = [0; MOST_BYTES];
        bytes[..self.bytes()].copy_from_slice(&head[..self.bytes()]);
        match self {
            Table::Ac3 => {
                bytes[6] &=
                    [0xF0, 0xF0, 0xFC, 0xFC, 0xFC, 0xFF, 0xFC, 0xFF][usize::from(head[6] >> 5)]
            }
            Table::Eac3 => bytes[5] &= 0xF8,
            _ => {}
        }
        bytes
    }

    /// True where 13 turns the fields down: one too large for its width, or left out and not 0, or a
    /// bsid that belongs to the other of AC-3 and E-AC-3.
    fn unfit(self, fields: &Fields) -> bool {
        let widths = self.widths(fields);
        let large = fields.iter().zip(widths).any(|(&field, width)| u64::from(field) >> width > 0);
        match self {
            Table::Ac3 => large || (11..=16).contains(&fields[4]),
            Table::Eac3 => large || fields[9] <= 8,
            _ => large,
        }
    }

    /// Writes a head on the tape, or answers the number of the refusal: 13, 12, the reader's own. An
    /// error says which references contradict each other about the head.
    pub fn write(self, fields: &Fields, tape: &mut [u8], at: u64) -> Result<Expected<()>, String> {
        if self.unfit(fields) {
            return Ok(Expected::refused(13));
        }
        let from = usize::try_from(at).ok().and_then(|at| tape.get_mut(at..));
        let Some(part) = from.and_then(|part| part.get_mut(..self.bytes())) else {
            return Ok(Expected::refused(12));
        };
        let bytes = self.bytes_of(fields);
        let head = &bytes[..self.bytes()];
        Ok(reference::head(self.code(), head)?.map(|_| part.copy_from_slice(head)))
    }
}
