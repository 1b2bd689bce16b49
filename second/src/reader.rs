//! Reading a paper field by field. A field is the mark or one number; it must be whole before it is judged.

use crate::refusal::*;

#[derive(Clone, Copy)]
pub struct Field {
    pub value: u32,
    pub start: u32,
}

impl Field {
    /// The value, if it lies in low..=high; else refusal 4 at the field's start.
    pub fn within(self, low: u32, high: u32) -> Result<u32, Refusal> {
        demand(low <= self.value && self.value <= high, BEYOND_LIMIT, self.start)?;
        Ok(self.value)
    }

    /// The value as an index of one of `count` things; else it names nothing.
    pub fn naming(self, count: usize) -> Result<usize, Refusal> {
        demand((self.value as usize) < count, BEYOND_LIMIT, self.start)?;
        Ok(self.value as usize)
    }
}

pub struct Reader<'a> {
    paper: &'a [u8],
    position: usize,
}

impl<'a> Reader<'a> {
    pub fn new(paper: &'a [u8]) -> Reader<'a> {
        Reader { paper, position: 0 }
    }

    pub fn position(&self) -> u32 {
        self.position as u32
    }

    /// The next number of `width` bytes, little end first.
    pub fn number(&mut self, width: usize) -> Result<Field, Refusal> {
        let start = self.position;
        let rest = &self.paper[start..];
        demand(rest.len() >= width, ENDS_INSIDE, start as u32)?;
        let value = rest[..width]
            .iter()
            .rev()
            .fold(0, |high, &byte| high << 8 | u32::from(byte));
        self.position = start + width;
        Ok(Field {
            value,
            start: start as u32,
        })
    }

    /// The mark and the version that every paper begins with.
    pub fn head(&mut self, mark: [u8; 3]) -> Result<(), Refusal> {
        let found = self.number(3)?;
        demand(found.value == mark_number(mark), WRONG_MARK, found.start)?;
        let version = self.number(2)?;
        demand(version.value == 1, WRONG_VERSION, version.start)
    }

    /// Nothing may follow the paper.
    pub fn end(&self) -> Result<(), Refusal> {
        demand(self.position == self.paper.len(), LEFT_OVER, self.position())
    }
}

/// A mark read as one number of three bytes, so that it is one field like any other.
pub fn mark_number(mark: [u8; 3]) -> u32 {
    u32::from_le_bytes([mark[0], mark[1], mark[2], 0])
}

/// A field to be written: its value and its width in bytes.
#[derive(Clone, Copy, Debug)]
pub struct Written {
    pub value: u32,
    pub width: usize,
}

pub fn written(value: u32, width: usize) -> Written {
    Written { value, width }
}

pub fn bytes_of(fields: &[Written]) -> Vec<u8> {
    let each = |field: &Written| field.value.to_le_bytes()[..field.width].to_vec();
    fields.iter().flat_map(each).collect()
}
