//! Packing of one row by ByteRun1.

use crate::answer::Refused;

/// Number of bytes that a row may have at most.
pub const LONGEST_ROW: usize = 8_192;

/// Bytes that one code covers at most.
const LONGEST_RUN: usize = 128;

/// The packed row, for a buffer of `room` bytes: 31, then 32.
pub fn pack(row: &[u8], room: usize) -> Result<Vec<u8>, Refused> {
    if row.is_empty() || row.len() > LONGEST_ROW {
        return Err(Refused::plain(31));
    }
    let packed = packed(row);
    if packed.len() > room {
        return Err(Refused::plain(32));
    }
    Ok(packed)
}

/// The packed form of any row.
pub(crate) fn packed(row: &[u8]) -> Vec<u8> {
    let mut out = Vec::new();
    let mut rest = row;
    while !rest.is_empty() {
        let equal = equal_bytes(rest);
        let taken = if equal >= 3 {
            out.extend([(257 - equal) as u8, rest[0]]);
            equal
        } else {
            let count = literal_length(rest);
            out.push((count - 1) as u8);
            out.extend_from_slice(&rest[..count]);
            count
        };
        rest = &rest[taken..];
    }
    out
}

/// How many bytes at the start equal the first one, at most 128.
fn equal_bytes(bytes: &[u8]) -> usize {
    bytes.iter().take(LONGEST_RUN).take_while(|byte| **byte == bytes[0]).count()
}

/// How many bytes stand before the next three equal ones, at most 128.
fn literal_length(bytes: &[u8]) -> usize {
    let starts_run = |three: &[u8]| three[0] == three[1] && three[1] == three[2];
    let before = bytes.windows(3).take(LONGEST_RUN).position(starts_run);
    before.unwrap_or(bytes.len()).min(LONGEST_RUN)
}
