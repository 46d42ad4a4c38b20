//! Files that are not generated: the scope's examples of the structure, and
//! the samples with a byte changed.

use crate::chunks::group;

/// A file with the number and place that are known of it.
pub struct Example {
    pub name: &'static str,
    pub file: Vec<u8>,
    pub number: usize,
    pub place: usize,
}

/// The scope's examples that speak of the structure.
pub fn examples() -> Vec<Example> {
    let prop = group(b"PROP", b"ILBM", &[]);
    let odd = b"FORM\0\0\0\x0dILBMXXXX\0\0\0\x01?";
    let example = |name, file: &[u8], number, place| Example { name, file: file.to_vec(), number, place };
    vec![
        example("empty file", b"", 2, 0),
        example("FORM of size 4", b"FORM\0\0\0\x04ILBM", 0, 0),
        example("FOR1", b"FOR1\0\0\0\x04ILBM", 3, 0),
        example("FORM of size 4 in 11 bytes", b"FORM\0\0\0\x04ILB", 7, 0),
        example("FORM of size 5 and its pad", b"FORM\0\0\0\x05ILBM??", 4, 12),
        example("FORM of size 13 in 21 bytes", odd, 8, 0),
        example("FORM of size 13 in 22 bytes", &[&odd[..], b"?"].concat(), 8, 12),
        example("two PROPs of one type", &group(b"LIST", b"JJJJ", &prop.repeat(2)), 12, 24),
    ]
}

const SAMPLES: [&[u8]; 3] = [
    include_bytes!("../../samples/form.iff"),
    include_bytes!("../../samples/nested.iff"),
    include_bytes!("../../samples/second_prop.iff"),
];

/// Every sample cut at each place, and with each byte given each value.
pub fn variations() -> impl Iterator<Item = Vec<u8>> {
    SAMPLES.into_iter().flat_map(|sample| {
        let cut = (0..=sample.len()).map(|length| sample[..length].to_vec());
        let changed = (0..sample.len() * 256).map(|n| {
            let mut file = sample.to_vec();
            file[n / 256] = n as u8;
            file
        });
        cut.chain(changed)
    })
}
