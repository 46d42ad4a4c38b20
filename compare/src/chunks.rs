//! Chunks as bytes.

use second::Layout;

/// A chunk's name and size.
pub fn header(name: &[u8; 4], size: usize) -> [u8; 8] {
    let size = (size as u32).to_be_bytes();
    std::array::from_fn(|n| if n < 4 { name[n] } else { size[n - 4] })
}

/// A local chunk with its pad byte.
pub fn chunk(name: &[u8; 4], data: &[u8]) -> Vec<u8> {
    [&header(name, data.len())[..], data, &[0][..data.len() % 2]].concat()
}

/// A group with these bytes as its members.
pub fn group(name: &[u8; 4], kind: &[u8; 4], members: &[u8]) -> Vec<u8> {
    [&header(name, 4 + members.len())[..], kind, members].concat()
}

/// The file of one picture whose BMHD stands first, with a CAMG behind it and no byte after its end.
pub fn with_modes(file: &[u8], modes: u32) -> Vec<u8> {
    const AFTER_BMHD: usize = 40;
    let end = second::check(file).map_or(0, |accepted| accepted.end);
    let (before, after) = (&file[12..AFTER_BMHD], &file[AFTER_BMHD..end]);
    group(b"FORM", b"ILBM", &[before, &chunk(b"CAMG", &modes.to_be_bytes()), after].concat())
}

/// The fields of a BMHD that say how its BODY is read.
#[derive(Clone, Copy)]
pub struct Fields {
    pub width: u16,
    pub height: u16,
    pub planes: u8,
    pub masking: u8,
    pub compression: u8,
}

impl Fields {
    /// Those of a scan line, for the second reader.
    pub fn layout(&self) -> Layout {
        let Fields { width, planes, masking, compression, .. } = *self;
        Layout { width, planes, masking, compression }
    }

    /// A BMHD with these fields and 0 for the others.
    pub fn bmhd(&self) -> Vec<u8> {
        self.bmhd_with([0; 20])
    }

    /// A BMHD with these fields, written over these bytes.
    pub fn bmhd_with(&self, mut data: [u8; 20]) -> Vec<u8> {
        data[0..2].copy_from_slice(&self.width.to_be_bytes());
        data[2..4].copy_from_slice(&self.height.to_be_bytes());
        data[8..11].copy_from_slice(&[self.planes, self.masking, self.compression]);
        chunk(b"BMHD", &data)
    }
}
