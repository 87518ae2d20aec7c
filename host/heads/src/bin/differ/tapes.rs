//! Heads written on tapes: one write asked of the library and of the second definition, and which
//! writes are compared.

use crate::compare::{difference, Difference, Outcome, Tally};
use crate::sides::Sides;
use crate::Options;
use common::random::Random;
use heads::library::{self, blank, Tape, Touched, LONGEST_TAPE, RECORD};
use heads::records::{about, good, with_short_frames};
use heads::writes::{Fields, Table, MOST_FIELDS, TABLES};
use heads::{cases, reference};

/// How many writes were compared.
#[derive(Default)]
pub struct Writes {
    /// Heads that were read, and whose fields were then written.
    pub rewritten: u64,
    /// By table and number; number 0 is a head that was written.
    pub answers: [[u64; 14]; 4],
    /// Of the heads that were to be written, but for those that 13 or 12 refused.
    pub sides: Sides,
}

impl Writes {
    pub fn add(&mut self, other: &Writes) {
        self.rewritten += other.rewritten;
        self.sides.add(&other.sides);
        for (sums, numbers) in self.answers.iter_mut().zip(other.answers) {
            sums.iter_mut().zip(numbers).for_each(|(sum, n)| *sum += n);
        }
    }

    pub fn total(&self) -> u64 {
        self.answers.iter().flatten().sum()
    }

    /// The answers that no write has got, of those that a table's writes can get.
    pub fn unseen(&self) -> Vec<String> {
        let own: [&[usize]; 4] = [&[2, 3, 4], &[2, 3, 4], &[2, 3, 4, 5], &[2, 3, 4, 6]];
        let mut unseen = Vec::new();
        for (table, own) in TABLES.into_iter().zip(own) {
            for number in [0, 12, 13].into_iter().chain(own.iter().copied()) {
                if self.answers[table as usize][number] == 0 {
                    unseen.push(format!("{} written: {number}", table.word()));
                }
            }
        }
        unseen
    }
}

impl Tally {
    /// A head that reads: its fields write the same bytes, unused bits aside.
    pub fn rewrite(&mut self, head: &[u8], kind: u32) -> Outcome {
        let table = Table::of_kind(kind);
        let fields = table.read(head);
        let at = (self.writes.rewritten % (LONGEST_TAPE as u64 - 6)) as usize;
        let mut expected = blank();
        expected[at..][..table.bytes()].copy_from_slice(&table.cleared(head)[..table.bytes()]);
        let library = library::write_guarded(table, &fields[..table.fields()], LONGEST_TAPE, at);
        if library != Ok((0, expected)) {
            let what = format!("rewritten at {at}: {}", words(&library));
            return Err(difference(table.code(), head, &what));
        }
        self.writes.rewritten += 1;
        Ok(())
    }

    /// Compares a write; what was written must read back, also by the Rust, and have the same fields.
    pub fn write(
        &mut self,
        table: Table,
        fields: &Fields,
        room: usize,
        at: u64,
    ) -> Result<u32, Difference> {
        let mut tape = blank();
        let library = library::write_guarded(table, &fields[..table.fields()], room, at as usize);
        let expected = table
            .write(fields, &mut tape[..room], at)
            .map_err(|contradiction| wrong(table, fields, room, at, &contradiction))?;
        let number = expected.answer.err().unwrap_or(0);
        if library != Ok((number, tape)) {
            let what = format!("the library {}; expected {number}", words(&library));
            return Err(wrong(table, fields, room, at, &what));
        }
        if number == 0 {
            self.read_back(table, fields, &tape[at as usize..room])?;
        }
        self.writes.sides.count(expected.side);
        self.writes.answers[table as usize][number as usize] += 1;
        Ok(number)
    }

    /// What was written reads, in MPEG audio by the chart too, and has these fields.
    fn read_back(&mut self, table: Table, fields: &Fields, head: &[u8]) -> Outcome {
        let code = table.code();
        let read = reference::head(code, head)
            .map_err(|contradiction| difference(code, head, &contradiction))?
            .answer;
        if read.is_err() || library::read_guarded(code, head, RECORD) != Ok(read) {
            return Err(difference(code, head, "what was written does not read"));
        }
        if table == Table::Mpeg {
            self.chart(head, RECORD, read)?;
        }
        if table.read(head) != *fields {
            let what = format!("other fields are read than were written, {fields:?}");
            return Err(difference(code, head, &what));
        }
        Ok(())
    }
}

fn wrong(table: Table, fields: &Fields, room: usize, at: u64, what: &str) -> Difference {
    let fields = &fields[..table.fields()];
    Difference(format!("{} {fields:?} at {at} of {room}: {what}", table.word()))
}

/// What a call did, in words.
fn words(library: &Result<(u32, Tape), Touched>) -> String {
    match library {
        Ok((number, tape)) => {
            let shown = tape.iter().map(|byte| format!("{byte:02X}"));
            format!("answers {number} and leaves [{}]", shown.collect::<Vec<_>>().join(" "))
        }
        Err(Touched(place)) => format!("changes byte {place} of the tape"),
    }
}

/// The heads that [`cases::WRITES`] works out by hand.
pub fn written_cases(tally: &mut Tally, _: &Options) -> Outcome {
    for case in &cases::WRITES {
        let mut fields = [0; MOST_FIELDS];
        fields[..case.fields.len()].copy_from_slice(case.fields);
        let number = tally.write(case.table, &fields, case.room, case.at)?;
        if number != case.says {
            let what = format!("by hand {}, each side here {number}", case.says);
            return Err(wrong(case.table, &fields, case.room, case.at, &what));
        }
        let (_, left) =
            library::write_guarded(case.table, case.fields, case.room, case.at as usize)
                .expect("it was compared");
        if number == 0 && left[case.at as usize..][..case.bytes.len()] != *case.bytes {
            return Err(wrong(case.table, &fields, case.room, case.at, "by hand, other bytes"));
        }
    }
    Ok(())
}

/// More and fewer fields than a head has are 13, whatever they are.
pub fn field_counts(_: &mut Tally, options: &Options) -> Outcome {
    let mut random = Random::new(options.seed);
    for table in TABLES {
        let fields = good(table, &mut random);
        for count in (0..=MOST_FIELDS).filter(|&count| count != table.fields()) {
            for room in [0, LONGEST_TAPE] {
                if library::write_guarded(table, &fields[..count], room, 0) != Ok((13, blank())) {
                    let what = format!("{count} of the fields are not refused by 13");
                    return Err(wrong(table, &fields, room, 0, &what));
                }
            }
        }
    }
    Ok(())
}

/// Each field of heads that read, alone and beside another one: every number up to 40, about the bounds
/// of its width, and about the bounds of types.
pub fn field_bounds(tally: &mut Tally, options: &Options) -> Outcome {
    let mut random = Random::new(options.seed);
    for table in TABLES {
        for _ in 0..options.random.div_ceil(1_000_000) {
            let base = good(table, &mut random);
            for first in 0..table.fields() {
                for number in about(table, first, &base) {
                    let mut fields = base;
                    fields[first] = number;
                    write_any(tally, table, &fields, &mut random)?;
                    let second = random.below(table.fields() as u64) as usize;
                    for other in about(table, second, &base) {
                        fields[second] = other;
                        write_any(tally, table, &fields, &mut random)?;
                    }
                }
            }
        }
    }
    Ok(())
}

/// AC-3: each bsid up to 63 with each acmod, and every number up to 4 in each field that it may leave
/// out. E-AC-3: each bsid with each fscod, fscod2 and numblkscod up to 4.
pub fn left_out_fields(tally: &mut Tally, options: &Options) -> Outcome {
    let mut random = Random::new(options.seed);
    for bsid in 0..64 {
        for choice in 0..1000u32 {
            let [a, b, c] = [choice % 5, choice / 5 % 5, choice / 25 % 5];
            let mut fields = good(Table::Ac3, &mut random);
            (fields[4], fields[6]) = (bsid, choice / 125);
            [fields[7], fields[8], fields[9]] = [a, b, c];
            write_any(tally, Table::Ac3, &fields, &mut random)?;
            let mut fields = good(Table::Eac3, &mut random);
            [fields[4], fields[5], fields[6], fields[9]] = [a, b, c, bsid];
            write_any(tally, Table::Eac3, &fields, &mut random)?;
        }
    }
    Ok(())
}

/// Every place of tapes of every length, and the largest places, for heads that are written, that do
/// not read and that do not fit.
pub fn tapes(tally: &mut Tally, options: &Options) -> Outcome {
    let mut random = Random::new(options.seed);
    for table in TABLES {
        let good = good(table, &mut random);
        let (mut unread, mut unfit) = (good, good);
        unread[0] ^= 1;
        unfit[0] = 1 << 16;
        for fields in [good, unread, unfit] {
            for room in 0..=LONGEST_TAPE {
                let far = (0..20).map(|back| u64::MAX - back);
                for at in (0..=room as u64 + 9).chain(far).chain([1 << 32, 1 << 63]) {
                    tally.write(table, &fields, room, at)?;
                }
            }
        }
    }
    Ok(())
}

/// Records by chance: most fields within their widths, some at their bounds, some too large. Every
/// answer that a write can get must come.
pub fn random_records(tally: &mut Tally, options: &Options) -> Outcome {
    let mut random = Random::new(options.seed);
    for _ in 0..options.random / 4 {
        let table = random.pick(&TABLES);
        let fields = with_short_frames(table, &mut random);
        write_any(tally, table, &fields, &mut random)?;
    }
    match tally.writes.unseen() {
        unseen if unseen.is_empty() => Ok(()),
        unseen => Err(Difference(format!("never seen: {}", unseen.join(", ")))),
    }
}

/// Writes at any place of a tape that is mostly long enough.
fn write_any(tally: &mut Tally, table: Table, fields: &Fields, random: &mut Random) -> Outcome {
    let room = random.below(LONGEST_TAPE as u64 + 1) as usize;
    let at = random.below(room as u64 + 2);
    let [room, at] =
        if random.below(8) > 0 { [LONGEST_TAPE, at as usize % 33] } else { [room, at as usize] };
    tally.write(table, fields, room, at as u64).map(|_| ())
}
