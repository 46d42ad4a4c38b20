//! Numbers and buffers for a call to write to.

use crate::Outcome;
use second::random::Random;
use second::Lent;
use std::fmt::Debug;

/// Fails with both values if they differ.
pub fn same<T: PartialEq + Debug>(what: &str, ours: T, wanted: T) -> Outcome {
    if ours == wanted {
        return Ok(());
    }
    Err(format!("{what}: the library gives {ours:?}, wanted is {wanted:?}"))
}

/// Bytes on either side of a buffer that belong to nobody.
const MARGIN: usize = 16;

/// A buffer among other bytes, all with any values.
pub struct Buffer {
    bytes: Vec<u8>,
    before: Vec<u8>,
}

impl Buffer {
    pub fn new(random: &mut Random, length: usize) -> Buffer {
        let bytes = random.bytes(length + 2 * MARGIN);
        Buffer { before: bytes.clone(), bytes }
    }

    /// A buffer of these bytes, for a call that must not change it.
    pub fn holding(random: &mut Random, bytes: &[u8]) -> Buffer {
        let mut buffer = Buffer::new(random, bytes.len());
        buffer.slice().copy_from_slice(bytes);
        buffer
    }

    pub fn slice(&mut self) -> &mut [u8] {
        let end = self.bytes.len() - MARGIN;
        &mut self.bytes[MARGIN..end]
    }

    /// Fails unless the buffer begins with the result and no other byte is
    /// changed.
    pub fn compare(mut self, result: &[u8]) -> Outcome {
        self.before[MARGIN..MARGIN + result.len()].copy_from_slice(result);
        let Some(n) = (0..self.bytes.len()).find(|n| self.bytes[*n] != self.before[*n]) else {
            return Ok(());
        };
        let place = n as isize - MARGIN as isize;
        same(&format!("buffer at {place}"), self.bytes[n], self.before[n])
    }
}

/// Buffers for colour numbers and for their shape.
pub struct Buffers {
    pub colours: Buffer,
    pub shape: Buffer,
}

impl Buffers {
    pub fn new(random: &mut Random, lent: Lent) -> Buffers {
        Buffers { colours: Buffer::new(random, lent.colours), shape: Buffer::new(random, lent.shape) }
    }

    /// Fails unless both begin with these, or are as they were where nothing is wanted, and no other
    /// byte is changed.
    pub fn compare(self, wanted: Option<(&[u8], &[u8])>) -> Outcome {
        let (colours, shape) = wanted.unwrap_or((&[], &[]));
        self.colours.compare(colours).map_err(|text| format!("colours, {text}"))?;
        self.shape.compare(shape).map_err(|text| format!("shape, {text}"))
    }
}

/// Elements on either side of a column that belong to nobody.
const ELEMENTS: usize = 3;

/// A column of a table among other elements, all with the same value.
pub struct Column<T> {
    elements: Vec<T>,
    before: T,
}

impl<T: Copy + PartialEq> Column<T> {
    pub fn new(before: T, length: usize) -> Column<T> {
        Column { elements: vec![before; length + 2 * ELEMENTS], before }
    }

    pub fn slice(&mut self) -> &mut [T] {
        let end = self.elements.len() - ELEMENTS;
        &mut self.elements[ELEMENTS..end]
    }

    /// Fails unless the column begins with so many wanted elements and no other one is changed.
    pub fn compare(&self, what: &str, count: usize, wanted: impl Fn(usize) -> T) -> Outcome {
        let wanted = |n: usize| n.checked_sub(ELEMENTS).filter(|n| *n < count).map_or(self.before, &wanted);
        match (0..self.elements.len()).find(|n| self.elements[*n] != wanted(*n)) {
            Some(n) => Err(format!("{what} differ at {}", n as isize - ELEMENTS as isize)),
            None => Ok(()),
        }
    }
}

/// The second reader's refusal in the library's type.
pub fn refused(refused: second::Refused) -> florinhado::Refused {
    florinhado::Refused { number: refused.number as usize, place: refused.place }
}

/// Number, place and what else a call tells, which is 0 beside a refusal.
pub fn told<T>(wanted: &Result<T, florinhado::Refused>, value: impl Fn(&T) -> usize) -> [usize; 3] {
    match wanted {
        Ok(wanted) => [0, 0, value(wanted)],
        Err(refused) => [refused.number, refused.place, 0],
    }
}

/// Numbers for a call to write to, with any values in them.
pub fn numbers<const COUNT: usize>(random: &mut Random) -> [usize; COUNT] {
    std::array::from_fn(|_| random.word() as usize)
}
