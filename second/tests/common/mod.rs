//! Builders of chunks by hand.
#![allow(dead_code)]

use second::Refused;

/// A chunk with its size and a zero pad byte where needed.
pub fn chunk(name: &str, data: &[u8]) -> Vec<u8> {
    let mut out = sized(name, data.len() as u32, data);
    if data.len() % 2 == 1 {
        out.push(0);
    }
    out
}

/// A chunk with any size in its header and no pad byte.
pub fn sized(name: &str, size: u32, data: &[u8]) -> Vec<u8> {
    let mut out = name.as_bytes().to_vec();
    out.extend(size.to_be_bytes());
    out.extend(data);
    out
}

/// A group of this type with these members.
pub fn group(name: &str, kind: &str, members: &[Vec<u8>]) -> Vec<u8> {
    let mut data = kind.as_bytes().to_vec();
    members.iter().for_each(|member| data.extend(member));
    chunk(name, &data)
}

pub fn form(members: &[Vec<u8>]) -> Vec<u8> {
    group("FORM", "ILBM", members)
}

/// A BMHD with only these fields other than 0.
pub fn header(width: u16, height: u16, planes: u8, masking: u8, compression: u8) -> Vec<u8> {
    let mut data = vec![0; 20];
    data[0..2].copy_from_slice(&width.to_be_bytes());
    data[2..4].copy_from_slice(&height.to_be_bytes());
    data[8..11].copy_from_slice(&[planes, masking, compression]);
    chunk("BMHD", &data)
}

/// A core wrapped into `times` groups of the same kind.
pub fn nested(name: &str, times: usize, core: Vec<u8>) -> Vec<u8> {
    (0..times).fold(core, |inner, _| group(name, "ABCD", &[inner]))
}

pub fn refused<T>(number: u32, place: usize) -> Result<T, Refused> {
    Err(Refused { number, place })
}
