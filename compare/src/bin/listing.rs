//! Measures the reader and the table of records: twice the chunks must not take
//! more than 2.3 times as long. What they give is compared with a plain walk, and
//! so is their time. Prints the ratios; fails if a bound or a comparison fails.

use compare::listings::{fill, read, Table};
use compare::plain;
use compare::shapes::{now, Count, Make, SHAPES};

const TURNS: usize = 15;
const ROUNDS: usize = 4;
const GROWTH: f64 = 2.3;

/// Places beyond the last record. With one, the table of the largest file has 2^21 places: each column then begins at the same place of
/// a page, and they push each other out of the cache in some runs, which took 2.4 times the half where this takes 2.0.
const SPARE: usize = 4321;

const WAYS: [&str; 3] = ["reader", "table", "plain walk"];

/// A file, its number of chunks, and the tables that it is listed in.
struct Subject {
    file: Vec<u8>,
    chunks: usize,
    table: Table,
    expected: Table,
}

impl Subject {
    fn new(file: Vec<u8>, chunks: usize) -> Subject {
        let table = || Table::new(chunks + SPARE);
        Subject { file, chunks, table: table(), expected: table() }
    }

    /// The times of the reader, the table and the plain walk.
    fn turn(&mut self) -> Result<[f64; 3], String> {
        let mut times = [0.0; 3];
        for (way, time) in times.iter_mut().enumerate() {
            let start = now();
            let told = match way {
                0 => read(&self.file),
                1 => self.chunks + fill(&self.file, &mut self.table),
                _ => plain::fill(&self.file, &mut self.expected),
            };
            *time = now() - start;
            if told != self.chunks {
                return Err(format!("way {way} told {told} for {} chunks", self.chunks));
            }
        }
        if self.table != self.expected {
            return Err("the table differs from the plain walk's".to_string());
        }
        Ok(times)
    }
}

fn median(mut values: Vec<f64>) -> f64 {
    values.sort_by(f64::total_cmp);
    values[values.len() / 2]
}

/// Half the members and all of them, in turns. A growth is the median over the turns of the whole's time by the mean of the halves'
/// right before and after it, so that a machine that is busy with other work, and changes its speed, matters little. If a growth is over
/// the bound there are more turns: a call that grows too fast does so in most of them.
fn measure(label: &str, make: Make, members: usize, chunks: Count) -> Result<(), String> {
    let mut half = Subject::new(make(members / 2), chunks(members / 2));
    let mut whole = Subject::new(make(members), chunks(members));
    let mut halves = vec![half.turn()?];
    let mut wholes = Vec::new();
    let mut found = Ok(());
    for _ in 0..ROUNDS {
        for _ in 0..TURNS {
            wholes.push(whole.turn()?);
            halves.push(half.turn()?);
        }
        println!("{label}, {} chunks, {} turns:", whole.chunks, wholes.len());
        found = judge(&halves, &wholes);
        if found.is_ok() {
            break;
        }
    }
    found
}

fn judge(halves: &[[f64; 3]], wholes: &[[f64; 3]]) -> Result<(), String> {
    for (way, name) in WAYS.iter().enumerate() {
        let turns = wholes.iter().enumerate();
        let growth =
            median(turns.map(|(i, w)| 2.0 * w[way] / (halves[i][way] + halves[i + 1][way])).collect());
        let time = wholes.iter().map(|w| w[way]).fold(f64::MAX, f64::min);
        let to_plain = median(wholes.iter().map(|w| w[way] / w[2]).collect());
        println!(
            "    {name}: {:.1} ms, {growth:.2} times the half, {to_plain:.2} times the plain walk",
            time * 1e3
        );
        if way < 2 && growth > GROWTH {
            return Err(format!("the {name} takes more than {GROWTH} times the half"));
        }
    }
    Ok(())
}

fn main() {
    let mut failed = false;
    for (label, make, members, chunks) in SHAPES {
        if let Err(why) = measure(label, make, members, chunks) {
            println!("{label}: {why}");
            failed = true;
        }
    }
    std::process::exit(failed as i32);
}
