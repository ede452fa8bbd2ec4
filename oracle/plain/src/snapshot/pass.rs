//! One way through the fields: writing the numbers that a book holds, or putting there those that
//! are read.

use super::{Refusal, Step};

pub trait Pass {
    /// One field: the number held goes in, the number that then stands in the field comes out.
    fn number(&mut self, tag: u8, held: u64) -> Result<u64, Refusal>;

    /// Notes whether what was read can stand in a book.
    fn require(&mut self, holds: bool);

    /// A number of 64 bits.
    fn wide(&mut self, tag: u8, place: &mut u64) -> Step {
        *place = self.number(tag, *place)?;
        Ok(())
    }

    /// A number of 32 bits.
    fn half(&mut self, tag: u8, place: &mut u64) -> Step {
        self.wide(tag, place)?;
        self.require(*place <= u32::MAX.into());
        Ok(())
    }

    /// A signed number, in two's complement.
    fn amount(&mut self, tag: u8, place: &mut i64) -> Step {
        *place = self.number(tag, *place as u64)? as i64;
        Ok(())
    }

    /// 0 or 1.
    fn flag(&mut self, tag: u8, place: &mut bool) -> Step {
        let number = self.number(tag, (*place).into())?;
        self.require(number <= 1);
        *place = number == 1;
        Ok(())
    }

    /// The number of rows that follow.
    fn rows<T: Clone + Default>(&mut self, tag: u8, rows: &mut Vec<T>, most: usize) -> Step {
        let number = self.number(tag, rows.len() as u64)?;
        if number > most as u64 {
            return Err(Refusal::TooMany);
        }
        rows.resize(number as usize, T::default());
        Ok(())
    }
}

#[derive(Default)]
pub struct Writer {
    pub bytes: Vec<u8>,
}

impl Pass for Writer {
    fn number(&mut self, tag: u8, held: u64) -> Result<u64, Refusal> {
        self.bytes.extend([tag, 0, 8]);
        self.bytes.extend(held.to_be_bytes());
        Ok(held)
    }

    fn require(&mut self, _holds: bool) {}
}

pub struct Reader<'a> {
    bytes: &'a [u8],
    at: usize,
    fits: bool,
}

impl<'a> Reader<'a> {
    pub fn of(bytes: &'a [u8]) -> Reader<'a> {
        Reader { bytes, at: 0, fits: true }
    }

    /// Whether all that was read can stand in a book; bytes after the last field are malformed.
    pub fn ended(self) -> Result<bool, Refusal> {
        if self.at == self.bytes.len() {
            Ok(self.fits)
        } else {
            Err(Refusal::Malformed(self.at))
        }
    }
}

impl Pass for Reader<'_> {
    fn number(&mut self, tag: u8, _held: u64) -> Result<u64, Refusal> {
        match self.bytes[self.at..] {
            [found, 0, 8, a, b, c, d, e, f, g, h, ..] if found == tag => {
                self.at += 11;
                Ok(u64::from_be_bytes([a, b, c, d, e, f, g, h]))
            }
            _ => Err(Refusal::Malformed(self.at)),
        }
    }

    fn require(&mut self, holds: bool) {
        self.fits &= holds;
    }
}
