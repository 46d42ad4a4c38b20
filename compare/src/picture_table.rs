//! ilbm_pictures, the table of all pictures.

use crate::borrowed::{numbers, refused, same, Column};
use crate::numbers::{PLACES, STRUCTURE};
use crate::{Call, Outcome, Subject, Tally};
use florinhado::{calls, File, Refused};
use second::random::Random;
use second::PictureRow;
use std::ops::Range;

const NAME: &str = "ilbm_pictures";

pub const CALL: Call = Call { name: NAME, numbers: &[STRUCTURE, PLACES], compare, run };

/// Numbers of a picture.
pub const ROW: usize = PictureRow::NUMBERS;

fn run(file: &[u8]) {
    let mut table = room(florinhado::count_pictures(file).unwrap());
    fill(file, &mut table).unwrap();
}

/// A table of so many places, none of them filled.
pub fn room(pictures: usize) -> Vec<usize> {
    vec![0; ROW * pictures]
}

/// Fills the table and tells how many pictures there are.
pub fn fill(file: &[u8], table: &mut [usize]) -> Result<usize, Refused> {
    let (mut place, mut pictures) = (0, 0);
    let number = calls::ilbm_pictures(file, table, &mut place, &mut pictures);
    if number == 0 {
        Ok(pictures)
    } else {
        Err(Refused { number, place })
    }
}

/// The numbers of one picture.
#[derive(Clone, Debug, PartialEq)]
pub(crate) struct Row([usize; ROW]);

/// The rows of all pictures by the library.
pub(crate) fn rows(file: &[u8]) -> Result<Vec<Row>, Refused> {
    let mut table = room(florinhado::count_pictures(file).unwrap_or(0));
    fill(file, &mut table)?;
    Ok(table.as_chunks().0.iter().copied().map(Row).collect())
}

impl Row {
    /// The rows of all pictures by the second reader.
    pub fn of_second(file: &[u8]) -> Result<Vec<Row>, Refused> {
        let rows = second::picture_rows(file).map_err(refused)?;
        Ok(rows.iter().map(|row| Row(row.numbers())).collect())
    }

    /// Where the data of the six properties and of the BODY lies; nowhere if there is none.
    pub fn parts(&self) -> [Range<usize>; 7] {
        let ends = |n: usize| if n < 6 { 5 + 4 * n } else { 28 };
        std::array::from_fn(|n| self.0[ends(n)]..self.0[ends(n) + 1])
    }

    /// The same with every place moved.
    pub fn moved(&self, place: &impl Fn(usize) -> usize) -> Row {
        let mut row = self.clone();
        row.0[1] = place(row.0[1]);
        for n in 0..6 {
            let [origin, shared, from, to] = [0, 1, 2, 3].map(|k| self.0[3 + 4 * n + k]);
            row.0[4 + 4 * n] = if origin == 2 { place(shared) } else { 0 };
            let part = if origin == 0 { 0..0 } else { data_moved(from..to, place) };
            (row.0[5 + 4 * n], row.0[6 + 4 * n]) = (part.start, part.end);
        }
        let part = if self.0[27] == 0 { 0..0 } else { data_moved(self.0[28]..self.0[29], place) };
        (row.0[28], row.0[29]) = (part.start, part.end);
        row
    }
}

/// Where a chunk's data lies after its header was moved.
pub(crate) fn data_moved(data: Range<usize>, place: &impl Fn(usize) -> usize) -> Range<usize> {
    let from = place(data.start - 8) + 8;
    from..from + data.len()
}

/// Tables with as many places as there are pictures, one fewer, one number fewer, some numbers more, and none.
fn compare(subject: &Subject, random: &mut Random, tally: &mut Tally) -> Outcome {
    let exact = ROW * subject.rows.as_ref().map_or(0, Vec::len);
    let longer = exact + random.below(3 * ROW);
    for length in [exact, exact.saturating_sub(ROW), exact.saturating_sub(1), longer, 0] {
        let told = lent(subject, random, length);
        tally.add(NAME, told.map_err(|text| format!("table of {length} numbers: {text}"))?);
    }
    let wanted = subject.rows.as_ref().map(Vec::len).map_err(|told| refused(*told));
    same("File", File::new(subject.file()).map(|file| file.pictures().len()), wanted)
}

/// Lends a table of this length, compares all that is told and written, and gives the answer.
fn lent(subject: &Subject, random: &mut Random, length: usize) -> Result<usize, String> {
    let [before, mut place, mut pictures] = numbers(random);
    let mut table = Column::new(before, length);
    let (told, put): ([usize; 3], &[PictureRow]) = match &subject.rows {
        Ok(rows) if rows.len() <= length / ROW => ([0, 0, rows.len()], rows),
        Ok(_) => ([13, 0, 0], &[]),
        Err(refused) => ([refused.number as usize, refused.place, 0], &[]),
    };
    let number = calls::ilbm_pictures(subject.file(), table.slice(), &mut place, &mut pictures);
    same("number, place, pictures", [number, place, pictures], told)?;
    let wanted: Vec<[usize; ROW]> = put.iter().map(PictureRow::numbers).collect();
    table.compare("numbers", ROW * put.len(), |n| wanted[n / ROW][n % ROW])?;
    Ok(number)
}
