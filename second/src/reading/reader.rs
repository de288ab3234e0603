//! Bytes taken record by record.

use crate::certificate::Kind;
use crate::report::Report;

/// Bytes of a mark.
pub const MARK: usize = 2;

/// Bytes, and the offset of the next record.
pub struct Reader<'a> {
    bytes: &'a [u8],
    offset: usize,
}

impl<'a> Reader<'a> {
    pub fn of(bytes: &'a [u8]) -> Reader<'a> {
        Reader::at(bytes, 0)
    }

    /// From the record at this offset on, which is not beyond the end.
    pub fn at(bytes: &'a [u8], offset: usize) -> Reader<'a> {
        Reader { bytes, offset }
    }

    /// Takes `size` bytes for the record that starts at `start`.
    pub fn take(&mut self, start: usize, size: usize) -> Result<&'a [u8], Report> {
        let left = &self.bytes[self.offset..];
        if left.len() < size {
            return Err(Report::at(1, start));
        }
        self.offset += size;
        Ok(&left[..size])
    }

    /// Takes a record: mark present, mark right, record whole. `size` counts the bytes after the mark.
    pub fn record(&mut self, mark: &[u8; 2], size: usize) -> Result<Record<'a>, Report> {
        let offset = self.offset;
        if self.take(offset, MARK)? != mark {
            return Err(Report::at(2, offset));
        }
        let fields = self.take(offset, size)?;
        Ok(Record { offset, fields })
    }

    /// Takes the first record, whose mark tells the kind.
    pub fn record_of_kind(&mut self, size: usize) -> Result<(Record<'a>, Kind), Report> {
        let offset = self.offset;
        let mark = self.take(offset, MARK)?;
        let kind = Kind::ALL.into_iter().find(|kind| kind.mark() == mark);
        let kind = kind.ok_or(Report::at(2, offset))?;
        let fields = self.take(offset, size)?;
        Ok((Record { offset, fields }, kind))
    }

    /// All bytes have been taken.
    pub fn must_end(&self) -> Result<(), Report> {
        if self.offset < self.bytes.len() {
            return Err(Report::at(2, self.offset));
        }
        Ok(())
    }
}

/// A record that is present: the offset of its mark, and the bytes after the mark.
pub struct Record<'a> {
    pub offset: usize,
    fields: &'a [u8],
}

impl Record<'_> {
    pub fn byte(&self, at: usize) -> u8 {
        self.fields[at]
    }

    pub fn wide(&self, at: usize) -> u16 {
        wide(self.fields, at)
    }

    /// Refusal `number` at this record unless its line holds.
    pub fn must(&self, number: u32, line_holds: bool) -> Result<(), Report> {
        if line_holds {
            Ok(())
        } else {
            Err(Report::at(number, self.offset))
        }
    }
}

/// A two-byte number, high byte first.
pub fn wide(bytes: &[u8], at: usize) -> u16 {
    u16::from_be_bytes([bytes[at], bytes[at + 1]])
}
