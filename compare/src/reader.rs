//! listing_read, which reads a file to its end by the reader.

use crate::borrowed::same;
use crate::listings::read;
use crate::{Call, Outcome, Subject, Tally};
use second::random::Random;

const NAME: &str = "listing_read";

pub const CALL: Call = Call { name: NAME, numbers: &[&[0]], compare, run };

fn run(file: &[u8]) {
    read(file);
}

/// As many records as there are, and none of a refused file.
fn compare(subject: &Subject, _random: &mut Random, tally: &mut Tally) -> Outcome {
    let count = subject.records.as_ref().map_or(0, Vec::len);
    same("records", read(subject.file()), count)?;
    tally.add(NAME, 0);
    Ok(())
}
