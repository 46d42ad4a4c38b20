//! Names of chunks and types.

/// A four-byte name, compared exactly.
#[derive(Clone, Copy, Debug, PartialEq, Eq, Hash, PartialOrd, Ord)]
pub struct Name(pub [u8; 4]);

impl Name {
    // Groups.
    pub const FORM: Name = Name(*b"FORM");
    pub const LIST: Name = Name(*b"LIST");
    pub const CAT: Name = Name(*b"CAT ");
    pub const PROP: Name = Name(*b"PROP");

    // Other reserved names.
    pub const FILLER: Name = Name(*b"    ");
    pub const JJJJ: Name = Name(*b"JJJJ");

    // Pictures.
    pub const ILBM: Name = Name(*b"ILBM");
    pub const BMHD: Name = Name(*b"BMHD");
    pub const CMAP: Name = Name(*b"CMAP");
    pub const GRAB: Name = Name(*b"GRAB");
    pub const DEST: Name = Name(*b"DEST");
    pub const SPRT: Name = Name(*b"SPRT");
    pub const CAMG: Name = Name(*b"CAMG");
    pub const BODY: Name = Name(*b"BODY");

    /// The four bytes at `place`, which must lie inside `file`.
    pub fn at(file: &[u8], place: usize) -> Name {
        Name([file[place], file[place + 1], file[place + 2], file[place + 3]])
    }

    /// Only bytes from hex 20 to 7E, and no space before a non-space.
    pub fn is_well_formed(self) -> bool {
        let printable = self.0.iter().all(|byte| (0x20..=0x7e).contains(byte));
        let space_first = self.0.windows(2).any(|pair| pair[0] == b' ' && pair[1] != b' ');
        printable && !space_first
    }

    /// FOR1 to FOR9, LIS1 to LIS9 or CAT1 to CAT9.
    pub fn is_version(self) -> bool {
        let stem = &self.0[..3];
        let stem_is_group = stem == b"FOR" || stem == b"LIS" || stem == b"CAT";
        stem_is_group && (b'1'..=b'9').contains(&self.0[3])
    }

    /// FORM, LIST, PROP or "CAT ".
    pub fn is_group(self) -> bool {
        [Name::FORM, Name::LIST, Name::CAT, Name::PROP].contains(&self)
    }

    /// May stand as the type of a FORM or PROP.
    pub fn is_form_type(self) -> bool {
        let letters = |byte: &u8| matches!(byte, b'A'..=b'Z' | b'0'..=b'9' | b' ');
        self.is_well_formed()
            && self.0.iter().all(letters)
            && self != Name::FILLER
            && !self.is_group()
            && self != Name::JJJJ
            && !self.is_version()
    }

    /// The 27 version names.
    pub fn versions() -> Vec<Name> {
        let stems = [b"FOR", b"LIS", b"CAT"];
        let named = |stem: &[u8; 3], digit: u8| Name([stem[0], stem[1], stem[2], digit]);
        stems.iter().flat_map(|stem| (b'1'..=b'9').map(move |digit| named(stem, digit))).collect()
    }
}
