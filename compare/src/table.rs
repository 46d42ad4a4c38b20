//! iff_records, the table of all records by columns.

use crate::borrowed::{numbers, refused, same, Column};
use crate::listings::{fill, Table};
use crate::numbers::{PLACES, STRUCTURE};
use crate::record::{in_library, kind_number};
use crate::{Call, Outcome, Subject, Tally};
use florinhado::calls;
use second::random::Random;
use second::Record;

const NAME: &str = "iff_records";

pub const CALL: Call = Call { name: NAME, numbers: &[STRUCTURE, PLACES], compare, run };

fn run(file: &[u8]) {
    let chunks = florinhado::check(file).unwrap().chunks;
    assert_eq!(fill(file, &mut Table::new(chunks)), 0);
}

/// Tables with as many places as there are chunks, one fewer, any fewer, more,
/// and with one column that is too short.
fn compare(subject: &Subject, random: &mut Random, tally: &mut Tally) -> Outcome {
    let count = subject.records.as_ref().map_or(0, Vec::len);
    let fewer = count.saturating_sub(1);
    let mut one_short = longer(random, count);
    one_short[random.below(6)] = fewer;
    let tables = [[count; 6], [fewer; 6], [random.below(count + 1); 6], longer(random, count), one_short];
    for lengths in tables {
        let told = Lent::new(random, lengths).compare(subject, random);
        tally.add(NAME, told.map_err(|text| format!("columns of {lengths:?}: {text}"))?);
    }
    let wanted = subject.records.as_ref().map(|records| records.iter().copied().map(in_library).collect());
    same("records", florinhado::records(subject.file()), wanted.map_err(|told| refused(*told)))
}

/// Columns of different lengths, each with a place for every chunk.
fn longer(random: &mut Random, count: usize) -> [usize; 6] {
    std::array::from_fn(|_| count + random.below(6))
}

/// A table to lend.
struct Lent {
    numbers: Column<usize>,
    levels: Column<usize>,
    kinds: Column<u8>,
    names: Column<u32>,
    places: Column<usize>,
    sizes: Column<usize>,
    /// How many places the shortest column has.
    room: usize,
}

impl Lent {
    /// Columns of these lengths, with any values in them.
    fn new(random: &mut Random, lengths: [usize; 6]) -> Lent {
        let room = lengths.into_iter().min().unwrap();
        let [numbers, levels, kinds, names, places, sizes] = lengths;
        Lent {
            numbers: Column::new(random.word() as usize, numbers),
            levels: Column::new(random.word() as usize, levels),
            kinds: Column::new(random.byte(), kinds),
            names: Column::new(random.word() as u32, names),
            places: Column::new(random.word() as usize, places),
            sizes: Column::new(random.word() as usize, sizes),
            room,
        }
    }

    /// Makes the call, compares all that it tells and writes, and gives its answer.
    fn compare(mut self, subject: &Subject, random: &mut Random) -> Result<usize, String> {
        let [mut place, mut chunks] = numbers(random);
        let (told, put) = self.wanted(subject);
        let number = calls::iff_records(
            subject.file(),
            self.numbers.slice(),
            self.levels.slice(),
            self.kinds.slice(),
            self.names.slice(),
            self.places.slice(),
            self.sizes.slice(),
            &mut place,
            &mut chunks,
        );
        same("number, place, chunks", [number, place, chunks], told)?;
        self.holds(put)?;
        Ok(number)
    }

    /// The number, place and count that are to be told, and the records to be put.
    fn wanted<'a>(&self, subject: &'a Subject) -> ([usize; 3], &'a [Record]) {
        match &subject.records {
            Ok(records) if records.len() <= self.room => ([0, 0, records.len()], records),
            Ok(_) => ([13, 0, 0], &[]),
            Err(refused) => ([refused.number as usize, refused.place, 0], &[]),
        }
    }

    fn holds(&self, records: &[Record]) -> Outcome {
        let count = records.len();
        self.numbers.compare("numbers", count, |n| records[n].number)?;
        self.levels.compare("levels", count, |n| records[n].level)?;
        self.kinds.compare("kinds", count, |n| kind_number(records[n].kind) as u8)?;
        self.names.compare("names", count, |n| u32::from_be_bytes(records[n].name.0))?;
        self.places.compare("places", count, |n| records[n].place)?;
        self.sizes.compare("sizes", count, |n| records[n].size)
    }
}
