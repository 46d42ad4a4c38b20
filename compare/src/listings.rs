//! The reader, by the archive of the crate `bench_reader`, and the table of
//! records, by the library.

use florinhado::calls;

extern "C" {
    fn listing_read(file: *const u8, length: usize) -> usize;
}

/// One column for each field of a record.
#[derive(PartialEq)]
pub struct Table {
    pub numbers: Vec<usize>,
    pub levels: Vec<usize>,
    pub kinds: Vec<u8>,
    pub names: Vec<u32>,
    pub places: Vec<usize>,
    pub sizes: Vec<usize>,
}

impl Table {
    /// A table of so many places, none of them filled.
    pub fn new(places: usize) -> Table {
        Table {
            numbers: vec![9; places],
            levels: vec![9; places],
            kinds: vec![9; places],
            names: vec![9; places],
            places: vec![9; places],
            sizes: vec![9; places],
        }
    }
}

/// How many records the reader gives before the end.
pub fn read(file: &[u8]) -> usize {
    unsafe { listing_read(file.as_ptr(), file.len()) }
}

/// Fills the table by the exported call: 0, or the number of a refusal.
pub fn fill(file: &[u8], table: &mut Table) -> usize {
    let (mut place, mut chunks) = (0, 0);
    calls::iff_records(
        file,
        &mut table.numbers,
        &mut table.levels,
        &mut table.kinds,
        &mut table.names,
        &mut table.places,
        &mut table.sizes,
        &mut place,
        &mut chunks,
    )
}
