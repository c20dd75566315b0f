//! The file system as a source. Of its files nothing is told.

use std::alloc::Global;
use std::fs;
use std::io::ErrorKind;
use std::rt::Files;
use tmpl_tool::{Source, SourceFault};

/// The file system of a runtime.
#[derive(Drop)]
pub(crate) struct Disk<'a, R> {
    rt: &'a R,
    failures: u64,
}

impl<'a, R: Files + AllocGlobal> Disk<'a, R> {
    pub(crate) fn new(rt: &'a R) -> Disk<'a, R> {
        Disk { rt, failures: 0 }
    }
}

impl<'a, R: Files + AllocGlobal> Source for Disk<'a, R> {
    ghost use Rattle.std.specs.Prelude.{None};

    ghost contents = { λ _. None };

    ghost failures = { λ s. s.failures };

    fn read(&mut self, _alloc: Global, name: &str) -> Result<Vec<u8>, SourceFault> {
        match fs::read(self.rt, name) {
            Ok(bytes) => Ok(bytes),
            Err(error) => match error.kind() {
                ErrorKind::OutOfMemory => Err(SourceFault::OutOfMemory),
                _ => {
                    self.failures += 1;
                    Err(SourceFault::Failed)
                }
            },
        }
    }
}
