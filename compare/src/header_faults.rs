//! Headers with every set of faults, own and shared, with a BODY and without:
//! every call on the picture must tell the first fault in the order 41, 42, 43, 24.

use crate::answers::Answers;
use crate::asked::Asked;
use crate::borrowed::same;
use crate::chunks::{chunk, group, Fields};
use crate::{dump, Outcome};
use florinhado::{File, Refused};
use second::random::Random;
use std::collections::BTreeMap;

const FAULTS: [u32; 4] = [41, 42, 43, 24];

const SIZES: [(u16, u16); 4] = [(3, 2), (0, 2), (3, 0), (0, 0)];
const PLANES: [u8; 6] = [0, 1, 8, 9, 24, 255];
const MASKINGS: [u8; 7] = [0, 1, 2, 3, 4, 5, 255];
const COMPRESSIONS: [u8; 5] = [0, 1, 2, 3, 255];

/// How many pictures had which faults in their headers, none among them.
pub struct HeaderFaults {
    counts: BTreeMap<Vec<u32>, u64>,
}

impl HeaderFaults {
    /// Makes every call on a picture with each header.
    pub fn compare(random: &mut Random) -> Result<HeaderFaults, String> {
        let mut counts = BTreeMap::new();
        for file in headers().flat_map(|header| files(random, &header)) {
            let faults = second::header_faults(&file, 0).map_err(|told| format!("{told:?}"))?;
            let compared = compare_calls(&mut Random::new(0), &file, faults.first());
            compared.map_err(|text| format!("faults {faults:?}: {text}\n{}", dump(&file)))?;
            *counts.entry(faults).or_default() += 1;
        }
        Ok(HeaderFaults { counts })
    }

    fn of(&self, faults: &[u32]) -> u64 {
        self.counts.get(faults).copied().unwrap_or(0)
    }

    /// The counts of all sets of faults.
    pub fn text(&self) -> String {
        let words: Vec<String> = sets().map(|set| format!("{set:?} {}", self.of(&set))).collect();
        format!("pictures by the faults of their headers: {}\n", words.join(", "))
    }

    /// The sets that came up a hundred times or less.
    pub fn rare(&self) -> Vec<String> {
        sets().filter(|set| self.of(set) <= 100).map(|set| format!("faults {set:?}")).collect()
    }
}

/// Every set of faults, also the empty one.
fn sets() -> impl Iterator<Item = Vec<u32>> {
    let chosen = |set: u32| (0..4).filter(|n| set >> n & 1 == 1).map(|n| FAULTS[n]).collect();
    (0..16).map(chosen)
}

/// Every BMHD with these fields.
fn headers() -> impl Iterator<Item = Vec<u8>> {
    let fields = SIZES.into_iter().flat_map(|size| PLANES.map(|planes| (size, planes)));
    let fields = fields.flat_map(|(size, planes)| MASKINGS.map(|masking| (size, planes, masking)));
    fields.flat_map(|((width, height), planes, masking)| {
        COMPRESSIONS.map(|compression| Fields { width, height, planes, masking, compression }.bmhd())
    })
}

/// Pictures with this header, their own or shared, with a BODY or without, half of them by hold-and-modify.
fn files(random: &mut Random, header: &[u8]) -> [Vec<u8>; 4] {
    let modes: u32 = random.pick(&[0, 0x800]);
    let header = &[header, &chunk(b"CAMG", &modes.to_be_bytes())].concat();
    let body = chunk(b"BODY", &random.bytes(40));
    let own = |body: &[u8]| group(b"FORM", b"ILBM", &[header, body].concat());
    let shared = |body: &[u8]| {
        let prop = group(b"PROP", b"ILBM", header);
        group(b"LIST", b"ILBM", &[prop, group(b"FORM", b"ILBM", body)].concat())
    };
    [own(&[]), own(&body), shared(&[]), shared(&body)]
}

/// Compares every call with the second reader's; with a fault they all refuse by its number.
fn compare_calls(random: &mut Random, file: &[u8], first: Option<&u32>) -> Outcome {
    let asked = Asked::new(random, file, 0);
    let ours = Answers::of_library(file, &asked);
    same("calls on the picture", &ours, &Answers::of_second(file, &asked))?;
    same("the opened file", &Answers::of_opened(&File::new(file), &asked), &ours)?;
    let Some(number) = first else { return Ok(()) };
    let refused = Refused { number: *number as usize, place: 0 };
    same("calls on the picture", ours, Answers::all_refused(refused, &asked))
}
