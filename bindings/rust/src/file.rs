//! A file that is checked once, with its pictures.

use crate::answer::{answer, Refused};
use crate::calls;
use crate::picture::{Picture, Row};
use crate::pictures::count_pictures;
use crate::record::{records, Record};

/// Places of the table that is lent first; it does for most files.
const FEW: usize = 4096;

/// Bytes of the shortest picture.
const SHORTEST: usize = 12;

/// An accepted file with its pictures. It is checked when it is made, and no
/// call on a [`Picture`] goes through it again.
///
/// ```
/// use florinhado::{File, Refused};
///
/// fn show(bytes: &[u8]) -> Result<(), Refused> {
///     for picture in File::new(bytes)?.pictures() {
///         let header = picture.header()?.value;
///         println!("{} by {}, {} planes", header.width, header.height, header.planes);
///         for line in picture.lines() {
///             println!("{:?}", line?);
///         }
///     }
///     Ok(())
/// }
///
/// show(include_bytes!("../../../samples/two_levels.iff"))?;
/// assert_eq!(show(b"FORM\0\0\0\x04ILBM").unwrap_err().number, 21);
/// # Ok::<(), Refused>(())
/// ```
#[derive(Clone, Debug, PartialEq, Eq)]
pub struct File<'a> {
    bytes: &'a [u8],
    rows: Vec<Row>,
}

impl<'a> File<'a> {
    /// Accepts a file and finds its pictures, or refuses it with the first of 1
    /// to 12. One check is enough for up to 4,096 pictures, three are made for
    /// more.
    ///
    /// ```
    /// let file = florinhado::File::new(include_bytes!("../../../samples/headers.iff"))?;
    /// assert_eq!(file.pictures().len(), 6);
    /// assert_eq!(florinhado::File::new(b"FORM").unwrap_err().number, 4);
    /// # Ok::<(), florinhado::Refused>(())
    /// ```
    pub fn new(bytes: &'a [u8]) -> Result<File<'a>, Refused> {
        let few = FEW.min(bytes.len() / SHORTEST);
        let rows = match table(bytes, few) {
            Err(Refused { number: 13, .. }) => table(bytes, count_pictures(bytes)?),
            told => told,
        };
        Ok(File { bytes, rows: rows? })
    }

    /// The bytes of the file.
    ///
    /// ```
    /// assert_eq!(florinhado::File::new(b"FORM\0\0\0\x04ILBM")?.bytes().len(), 12);
    /// # Ok::<(), florinhado::Refused>(())
    /// ```
    pub fn bytes(&self) -> &'a [u8] {
        self.bytes
    }

    /// The records of all chunks in file order, as [`records`] gives them, in a
    /// walk of their own.
    ///
    /// ```
    /// let file = florinhado::File::new(b"FORM\0\0\0\x10ILBMTINY\0\0\0\x03abc\0")?;
    /// assert_eq!(file.chunks()[1].name, *b"TINY");
    /// # Ok::<(), florinhado::Refused>(())
    /// ```
    pub fn chunks(&self) -> Vec<Record> {
        // The file is accepted, so that nothing is refused.
        records(self.bytes).unwrap_or_default()
    }

    /// The pictures in file order: every FORM of type ILBM at any depth.
    ///
    /// ```
    /// let file = florinhado::File::new(include_bytes!("../../../samples/headers.iff"))?;
    /// let shown = file.pictures().filter(|picture| picture.refusal().is_none());
    /// assert_eq!(shown.count(), 1);
    /// # Ok::<(), florinhado::Refused>(())
    /// ```
    pub fn pictures(&self) -> impl ExactSizeIterator<Item = Picture<'a>> + '_ {
        self.rows.iter().map(|row| Picture::new(self.bytes, *row))
    }

    /// The picture with this number, counted from 0, if there is one.
    ///
    /// ```
    /// let file = florinhado::File::new(b"FORM\0\0\0\x04ILBM")?;
    /// assert_eq!(file.picture(0).map(|picture| picture.place()), Some(0));
    /// assert!(file.picture(1).is_none());
    /// # Ok::<(), florinhado::Refused>(())
    /// ```
    pub fn picture(&self, number: usize) -> Option<Picture<'a>> {
        self.rows.get(number).map(|row| Picture::new(self.bytes, *row))
    }
}

/// The rows of the pictures, by a table of so many places; 1 to 12, or 13.
fn table(bytes: &[u8], places: usize) -> Result<Vec<Row>, Refused> {
    let mut rows = vec![Row::default(); places];
    let (mut place, mut pictures) = (0, 0);
    let told = calls::ilbm_pictures(bytes, rows.as_flattened_mut(), &mut place, &mut pictures);
    rows.truncate(pictures);
    rows.shrink_to_fit();
    answer(told, place, rows)
}
