//! iff_record.

use crate::borrowed::{numbers, refused, same};
use crate::numbers::STRUCTURE;
use crate::{Call, Outcome, Subject, Tally};
use florinhado::{calls, Kind};
use second::random::Random;
use second::{Record, Refused};

const NAME: &str = "iff_record";

pub const CALL: Call = Call { name: NAME, numbers: &[STRUCTURE, &[14]], compare, run };

fn run(file: &[u8]) {
    florinhado::record(file, file.len() / 13).unwrap();
}

fn compare(subject: &Subject, random: &mut Random, tally: &mut Tally) -> Outcome {
    for number in subject.asked.iter().copied() {
        let wanted = subject.record(number);
        let answer = exported(subject.file(), number, random, wanted);
        let answer = answer.and_then(|answer| wrapped(subject.file(), number, wanted).map(|()| answer));
        tally.add(NAME, answer.map_err(|text| format!("record {number}: {text}"))?);
    }
    Ok(())
}

/// Compares the call itself and gives its answer.
fn exported(
    file: &[u8],
    number: usize,
    random: &mut Random,
    wanted: Result<Record, Refused>,
) -> Result<usize, String> {
    let [mut place, mut level, mut kind, mut at, mut size] = numbers(random);
    let mut name = random.word() as u32;
    let answer =
        calls::iff_record(file, number, &mut place, &mut level, &mut kind, &mut name, &mut at, &mut size);
    let told = match wanted {
        Ok(record) => {
            let name = u32::from_be_bytes(record.name.0) as usize;
            [0, 0, record.level, kind_number(record.kind), name, record.place, record.size]
        }
        Err(refused) => [refused.number as usize, refused.place, 0, 0, 0, 0, 0],
    };
    let ours = [answer, place, level, kind, name as usize, at, size];
    same("number, place, level, kind, name, at, size", ours, told)?;
    Ok(answer)
}

fn wrapped(file: &[u8], number: usize, wanted: Result<Record, Refused>) -> Outcome {
    same("record", florinhado::record(file, number), wanted.map(in_library).map_err(refused))
}

/// The second reader's record in the library's type.
pub fn in_library(record: Record) -> florinhado::Record {
    florinhado::Record {
        number: record.number,
        level: record.level,
        kind: kind(record.kind),
        name: record.name.0,
        place: record.place,
        size: record.size,
    }
}

/// The number that the library tells a kind by.
pub fn kind_number(kind: second::Kind) -> usize {
    match kind {
        second::Kind::Form => 1,
        second::Kind::List => 2,
        second::Kind::Cat => 3,
        second::Kind::Prop => 4,
        second::Kind::Local => 5,
        second::Kind::Filler => 6,
    }
}

fn kind(kind: second::Kind) -> Kind {
    match kind {
        second::Kind::Form => Kind::Form,
        second::Kind::List => Kind::List,
        second::Kind::Cat => Kind::Cat,
        second::Kind::Prop => Kind::Prop,
        second::Kind::Local => Kind::Local,
        second::Kind::Filler => Kind::Filler,
    }
}
