//! The records of a file: all of them, or one by its number.

use crate::answer::{answer, Refused};
use crate::calls;
use crate::check::check;

/// What a chunk is.
#[derive(Clone, Copy, Debug, PartialEq, Eq, Hash)]
pub enum Kind {
    /// A FORM.
    Form,
    /// A LIST.
    List,
    /// A CAT.
    Cat,
    /// A PROP.
    Prop,
    /// A chunk with data of its own.
    Local,
    /// A chunk named by four spaces.
    Filler,
}

impl Kind {
    /// Whether chunks of this kind hold chunks.
    pub fn is_group(self) -> bool {
        !matches!(self, Kind::Local | Kind::Filler)
    }

    fn of(number: usize) -> Kind {
        match number {
            1 => Kind::Form,
            2 => Kind::List,
            3 => Kind::Cat,
            4 => Kind::Prop,
            5 => Kind::Local,
            _ => Kind::Filler,
        }
    }
}

/// One chunk of an accepted file.
#[derive(Clone, Copy, Debug, PartialEq, Eq, Hash)]
pub struct Record {
    /// Its number in file order, from 0.
    pub number: usize,
    /// Its level; the outermost chunk has 1.
    pub level: usize,
    /// What it is.
    pub kind: Kind,
    /// Its name, or the type for a group.
    pub name: [u8; 4],
    /// Where its header stands.
    pub place: usize,
    /// The size that its header tells.
    pub size: usize,
}

/// All records in file order; 1 to 12. The time is in proportion to the file.
///
/// ```
/// use florinhado::records;
/// let file = b"FORM\0\0\0\x10ILBMTINY\0\0\0\x03abc\0";
/// let names: Vec<_> = records(file)?.iter().map(|record| record.name).collect();
/// assert_eq!(names, [*b"ILBM", *b"TINY"]);
/// # Ok::<(), florinhado::Refused>(())
/// ```
pub fn records(file: &[u8]) -> Result<Vec<Record>, Refused> {
    let room = check(file)?.chunks;
    let [mut numbers, mut levels, mut places, mut sizes] = [0; 4].map(|zero| vec![zero; room]);
    let (mut kinds, mut names) = (vec![0; room], vec![0; room]);
    let (mut place, mut chunks) = (0, 0);
    let told = calls::iff_records(
        file,
        &mut numbers,
        &mut levels,
        &mut kinds,
        &mut names,
        &mut places,
        &mut sizes,
        &mut place,
        &mut chunks,
    );
    let record = |n: usize| Record {
        number: numbers[n],
        level: levels[n],
        kind: Kind::of(kinds[n].into()),
        name: names[n].to_be_bytes(),
        place: places[n],
        size: sizes[n],
    };
    answer(told, place, ())?;
    Ok((0..chunks).map(record).collect())
}

/// The record with this number; 1 to 12, or 14 if there is none. Each call goes
/// through the file; [`records`] tells all in about the same time.
///
/// ```
/// use florinhado::{record, Kind};
/// let file = b"FORM\0\0\0\x10ILBMTINY\0\0\0\x03abc\0";
/// let tiny = record(file, 1)?;
/// assert_eq!((tiny.kind, &tiny.name, tiny.place, tiny.size), (Kind::Local, b"TINY", 12, 3));
/// assert_eq!(record(file, 2).unwrap_err().number, 14);
/// # Ok::<(), florinhado::Refused>(())
/// ```
pub fn record(file: &[u8], number: usize) -> Result<Record, Refused> {
    let (mut refusal, mut level, mut kind, mut name, mut at, mut size) = (0, 0, 0, 0, 0, 0);
    let told =
        calls::iff_record(file, number, &mut refusal, &mut level, &mut kind, &mut name, &mut at, &mut size);
    let (kind, name) = (Kind::of(kind), name.to_be_bytes());
    answer(told, refusal, Record { number, level, kind, name, place: at, size })
}
