//! A source over files in memory, of which a read fails where it is told to.

use std::alloc::Global;
use tmpl_tool::{Source, SourceFault};

/// A file of a name.
#[derive(Clone, Copy)]
pub(crate) struct File<'a> {
    pub(crate) name: &'a str,
    pub(crate) bytes: &'a [u8],
}

/// Files, of which the first of a name is read. It tells what they hold.
#[derive(Drop)]
pub(crate) struct LentFiles<'a> {
    files: &'a [File<'a>],
    fails_at: u64,
    reads: u64,
    failures: u64,
}

impl<'a> LentFiles<'a> {
    /// Before the first read. The read of this number, from 1, fails; none of number 0.
    pub(crate) fn new(files: &'a [File<'a>], fails_at: u64) -> LentFiles<'a> {
        LentFiles {
            files,
            fails_at,
            reads: 0,
            failures: 0,
        }
    }

    /// How many reads there were.
    pub(crate) fn reads(&self) -> u64 {
        self.reads
    }

    /// Whether a read failed.
    pub(crate) fn has_failed(&self) -> bool {
        self.failures > 0
    }
}

/// The bytes of the first file of this name, if there is one.
fn find<'a>(files: &[File<'a>], name: &str) -> Option<&'a [u8]> {
    match files {
        [] => None,
        [file, rest @ ..] => {
            if file.name == name {
                Some(file.bytes)
            } else {
                find(rest, name)
            }
        }
    }
}

impl Source for LentFiles<'_> {
    ghost use Rattle.std.specs.Prelude.{None};

    ghost contents = { λ _. None };

    ghost failures = { λ s. s.failures };

    fn read(&mut self, alloc: Global, name: &str) -> Result<Vec<u8>, SourceFault> {
        self.reads = self.reads.saturating_add(1);
        if self.reads == self.fails_at {
            self.failures += 1;
            return Err(SourceFault::Failed);
        }
        match find(self.files, name) {
            Some(bytes) => match bytes.to_vec(alloc) {
                Ok(bytes) => Ok(bytes),
                Err(_) => Err(SourceFault::OutOfMemory),
            },
            None => Err(SourceFault::NotFound),
        }
    }
}
