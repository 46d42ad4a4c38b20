//! A file with what the second reader tells of it.

use crate::{both_ways, Outcome, Tally, CALLS};
use second::random::Random;
use second::{PictureRow, Properties, Record, Refused};

/// Bytes on either side of the file that belong to nobody.
const MARGIN: usize = 24;

/// A file among other bytes, with its records and pictures by the second reader.
pub struct Subject {
    bytes: Vec<u8>,
    /// The numbers of records that are asked for.
    pub asked: Vec<usize>,
    pub records: Result<Vec<Record>, Refused>,
    /// The table of pictures.
    pub rows: Result<Vec<PictureRow>, Refused>,
    /// The pictures that are asked for, and what the second reader tells of them.
    pub pictures: Vec<(usize, Result<Properties, Refused>)>,
}

impl Subject {
    /// The file with every record and picture asked for, one beyond, and the last number.
    pub fn new(random: &mut Random, file: &[u8]) -> Subject {
        Subject::asking(random, file, |count| (0..=count).chain([usize::MAX]).collect())
    }

    /// The file with only some of its records and pictures asked for.
    pub fn large(random: &mut Random, file: &[u8]) -> Subject {
        Subject::asking(random, file, |count| vec![0, count / 2, count.saturating_sub(1), count])
    }

    /// The file with these numbers asked for, of so many.
    fn asking(random: &mut Random, file: &[u8], asked: fn(usize) -> Vec<usize>) -> Subject {
        let mut bytes = random.bytes(MARGIN);
        bytes.extend_from_slice(file);
        // What follows would do as chunks, for a reader that goes too far.
        bytes.extend_from_slice(random.pick(&[b"DATA\0\0\0\0", b"FORM\0\0\0\x04", b"    \0\0\0\0"]));
        bytes.extend(random.bytes(MARGIN - 8));
        let records = second::records(file);
        let count = records.as_ref().map_or(1, Vec::len);
        let rows = second::picture_rows(file);
        let mut pictures = asked(rows.as_ref().map_or(0, Vec::len));
        pictures.dedup();
        let told = |picture| (picture, second::properties(file, picture));
        let pictures = pictures.into_iter().map(told).collect();
        Subject { bytes, asked: asked(count), records, rows, pictures }
    }

    pub fn file(&self) -> &[u8] {
        &self.bytes[MARGIN..self.bytes.len() - MARGIN]
    }

    /// What `second::record` gives, without reading the file anew.
    pub fn record(&self, number: usize) -> Result<Record, Refused> {
        let records = self.records.as_ref().map_err(|refused| *refused)?;
        records.get(number).copied().ok_or(Refused { number: 14, place: 0 })
    }

    /// Makes every call, asks for every picture both ways, and sees that none changed the file.
    pub fn compare(&self, random: &mut Random, tally: &mut Tally) -> Outcome {
        let before = self.bytes.clone();
        for call in CALLS {
            (call.compare)(self, random, tally).map_err(|text| format!("{}: {text}", call.name))?;
            if self.bytes != before {
                return Err(format!("{}: the file was changed", call.name));
            }
        }
        both_ways::compare(self, random, tally).map_err(|text| format!("{}: {text}", both_ways::WHAT))
    }
}
