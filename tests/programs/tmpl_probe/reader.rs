//! Cases as they stand in a file: numbers, each of which ends with a newline, and bytes after the number of them.
use std::str;

/// What is left of the file.
#[derive(Clone, Copy)]
pub(crate) struct Reader<'a> {
    rest: &'a [u8],
}

impl<'a> Reader<'a> {
    /// Before the first byte.
    pub(crate) fn new(bytes: &'a [u8]) -> Reader<'a> {
        Reader { rest: bytes }
    }

    /// The next number, if one stands there.
    pub(crate) fn number(&mut self) -> Option<u64> {
        let end = self.rest.iter().position(|byte| *byte == b'\n')?;
        let (digits, rest) = self.rest.split_at_checked(end)?;
        let (_, rest) = rest.split_first()?;
        self.rest = rest;
        str::from_utf8(digits).ok()?.parse::<u64>().ok()
    }

    /// The next bytes, if they stand there.
    pub(crate) fn bytes(&mut self) -> Option<&'a [u8]> {
        let count = self.number()?;
        let (bytes, rest) = self.rest.split_at_checked(count as usize)?;
        self.rest = rest;
        Some(bytes)
    }

    /// The next bytes as a text, if they are one.
    pub(crate) fn text(&mut self) -> Option<&'a str> {
        str::from_utf8(self.bytes()?).ok()
    }
}
