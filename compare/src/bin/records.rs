//! Measures the table of record structs: twice the chunks must not take more than
//! 2.3 times as long. What it holds is compared with a plain walk. Linked by
//! run_records.sh with the code of `list_record_table::fill`, which can't be exported.

use compare::listings::Table;
use compare::plain;
use compare::shapes::{now, Count, Make, SHAPES};

/// The compiler's layout of a record.
#[repr(C)]
#[derive(Clone)]
struct Record {
    number: usize,
    level: usize,
    kind: u8,
    name: u32,
    place: usize,
    size: usize,
}

extern "C" {
    /// As the compiler passes them: room for the answer, then each slice as where it starts and how long it is.
    fn records_fill(answer: *mut [usize; 8], file: *const u8, length: usize, table: *mut Record, room: usize);
}

const TURNS: usize = 15;
const GROWTH: f64 = 2.3;
const UNTOUCHED: Record = Record { number: 9, level: 9, kind: 9, name: 9, place: 9, size: 9 };

fn fill(file: &[u8], table: &mut [Record]) {
    let mut answer = [0; 8];
    unsafe { records_fill(&mut answer, file.as_ptr(), file.len(), table.as_mut_ptr(), table.len()) }
}

/// The number of a kind, from the compiler's, which begins with 0; of a record that nothing was put into, its own.
fn kind_number(kind: u8) -> u8 {
    match kind {
        0..=5 => kind + 1,
        other => other,
    }
}

fn same(table: &[Record], expected: &Table) -> bool {
    table.iter().enumerate().all(|(n, record)| {
        record.number == expected.numbers[n]
            && record.level == expected.levels[n]
            && kind_number(record.kind) == expected.kinds[n]
            && record.name == expected.names[n]
            && record.place == expected.places[n]
            && record.size == expected.sizes[n]
    })
}

/// A file, its number of chunks, its table, and the least time of filling it, in seconds.
struct Subject {
    file: Vec<u8>,
    chunks: usize,
    table: Vec<Record>,
    least: f64,
}

impl Subject {
    fn new(file: Vec<u8>, chunks: usize) -> Subject {
        Subject { file, chunks, table: vec![UNTOUCHED; chunks + 1], least: f64::MAX }
    }

    fn turn(&mut self) {
        self.table.fill(UNTOUCHED);
        let start = now();
        fill(&self.file, &mut self.table);
        self.least = self.least.min(now() - start);
    }

    fn as_expected(&self) -> bool {
        let mut expected = Table::new(self.chunks + 1);
        plain::fill(&self.file, &mut expected) == self.chunks && same(&self.table, &expected)
    }
}

/// Half the members and all of them, in turns.
fn measure(make: Make, members: usize, chunks: Count) -> Result<(), String> {
    let mut half = Subject::new(make(members / 2), chunks(members / 2));
    let mut whole = Subject::new(make(members), chunks(members));
    for _ in 0..TURNS {
        half.turn();
        whole.turn();
    }
    if !half.as_expected() || !whole.as_expected() {
        return Err("the table differs from the plain walk's".to_string());
    }
    let growth = whole.least / half.least;
    println!("    {} chunks: {:.1} ms, {growth:.2} times the half", whole.chunks, whole.least * 1e3);
    if growth > GROWTH {
        return Err(format!("more than {GROWTH} times the half"));
    }
    Ok(())
}

fn main() {
    let mut failed = false;
    for (label, make, members, chunks) in SHAPES {
        println!("{label}:");
        if let Err(what) = measure(make, members, chunks) {
            println!("{label}: {what}");
            failed = true;
        }
    }
    std::process::exit(failed as i32);
}
