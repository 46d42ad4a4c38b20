//! iff_data.

use crate::borrowed::{numbers, refused, same};
use crate::numbers::STRUCTURE;
use crate::{Call, Outcome, Subject, Tally};
use florinhado::{calls, Refused};
use second::random::Random;
use std::ops::Range;

const NAME: &str = "iff_data";

pub const CALL: Call = Call { name: NAME, numbers: &[STRUCTURE, &[14, 15]], compare, run };

/// Some chunks of the file may be groups.
fn run(file: &[u8]) {
    let _ = florinhado::data(file, file.len() / 13);
}

fn compare(subject: &Subject, random: &mut Random, tally: &mut Tally) -> Outcome {
    let file = subject.file();
    for number in subject.asked.iter().copied() {
        let wanted = wanted(subject, number);
        let [mut place, mut from, mut to] = numbers(random);
        let answer = calls::iff_data(file, number, &mut place, &mut from, &mut to);
        tally.add(NAME, answer);
        let told = match &wanted {
            Ok(data) => [0, 0, data.start, data.end],
            Err(refused) => [refused.number, refused.place, 0, 0],
        };
        let what = format!("data of {number}: number, place, from, to");
        same(&what, [answer, place, from, to], told)?;
        // The part of the file itself, not only the same bytes.
        let ours = florinhado::data(file, number).map(<[u8]>::as_ptr_range);
        same(&format!("data of {number}"), ours, wanted.map(|data| file[data].as_ptr_range()))?;
    }
    Ok(())
}

/// Where `second::data` finds the data, without reading the file anew.
fn wanted(subject: &Subject, number: usize) -> Result<Range<usize>, Refused> {
    let record = subject.record(number).map_err(refused)?;
    if record.kind.is_group() {
        return Err(Refused { number: 15, place: 0 });
    }
    Ok(record.place + 8..record.place + 8 + record.size)
}
