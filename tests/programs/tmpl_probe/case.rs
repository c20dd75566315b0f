//! A case: a command over files and sinks, run once for each number of a row of them.
use crate::files::File;
use crate::reader::Reader;
use crate::sink::Limits;
use std::alloc::{AllocError, Global};

/// What the number of a run sets.
#[derive(Clone, Copy, PartialEq, Eq)]
pub(crate) enum Varied {
    /// At which put the output fails.
    Output,
    /// At which put the errors fail.
    Errors,
    /// Which read fails.
    Reads,
    /// How many bytes there are of the first file.
    Front,
}

/// The numbers with which a case is run: this many, from the first on in steps.
#[derive(Clone, Copy)]
pub(crate) struct Numbers {
    pub(crate) varied: Varied,
    pub(crate) first: u64,
    pub(crate) step: u64,
    pub(crate) count: u64,
}

/// A command, and what it is run over.
#[derive(Drop)]
pub(crate) struct Case<'a> {
    pub(crate) words: Vec<String>,
    pub(crate) files: Vec<File<'a>>,
    /// The output that is wanted. A beginning of it is not put out again.
    pub(crate) wanted: &'a [u8],
    pub(crate) out: Limits,
    pub(crate) err: Limits,
    pub(crate) numbers: Numbers,
}

impl<'a> Case<'a> {
    /// The next case, if one stands there; none where memory is refused.
    pub(crate) fn read(alloc: Global, reader: &mut Reader<'a>) -> Option<Case<'a>> {
        Some(Case {
            words: words(alloc, reader)?,
            files: files(alloc, reader)?,
            wanted: reader.bytes()?,
            out: limits(reader)?,
            err: limits(reader)?,
            numbers: numbers_in(reader)?,
        })
    }
}

fn words(alloc: Global, reader: &mut Reader<'_>) -> Option<Vec<String>> {
    let mut words = Vec::new(alloc);
    for _ in 0..reader.number()? {
        words
            .push(String::from_str(alloc, reader.text()?).ok()?)
            .ok()?;
    }
    Some(words)
}

/// Files, each after its name; none where memory is refused.
fn files<'a>(alloc: Global, reader: &mut Reader<'a>) -> Option<Vec<File<'a>>> {
    let mut files = Vec::new(alloc);
    for _ in 0..reader.number()? {
        files.push(next_file(reader)?).ok()?;
    }
    Some(files)
}

/// The next file, after its name.
pub(crate) fn next_file<'a>(reader: &mut Reader<'a>) -> Option<File<'a>> {
    let name = reader.text()?;
    let bytes = reader.bytes()?;
    Some(File { name, bytes })
}

fn limits(reader: &mut Reader<'_>) -> Option<Limits> {
    Some(Limits {
        room: reader.number()? as usize,
        most: reader.number()? as usize,
        fails_at: reader.number()?,
        once: reader.number()? > 0,
    })
}

fn numbers_in(reader: &mut Reader<'_>) -> Option<Numbers> {
    Some(Numbers {
        varied: varied_by(reader.text()?)?,
        first: reader.number()?,
        step: reader.number()?,
        count: reader.number()?,
    })
}

fn varied_by(word: &str) -> Option<Varied> {
    match word {
        "output" => Some(Varied::Output),
        "errors" => Some(Varied::Errors),
        "reads" => Some(Varied::Reads),
        "front" => Some(Varied::Front),
        _ => None,
    }
}
