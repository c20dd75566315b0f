//! A sink that takes as much as it is told to, and then fails.

use std::io::Write;
use tmpl_engine::{Sink, SinkFault};

/// What a sink takes.
#[derive(Clone, Copy)]
pub(crate) struct Limits {
    /// The bytes that one put takes at most.
    pub(crate) most: usize,
    /// The bytes that it takes in all until a put fails.
    pub(crate) left: usize,
    /// Whether one put alone fails, and those after it would be taken. Else all after it fail.
    pub(crate) once: bool,
}

impl Limits {
    /// As many bytes as there are.
    pub(crate) const NONE: Limits = Limits {
        most: usize::MAX,
        left: usize::MAX,
        once: false,
    };
}

/// A writer as a sink. Of its bytes nothing is told.
#[derive(Drop)]
pub(crate) struct LimitedSink<W: Drop> {
    writer: W,
    limits: Limits,
    failures: u64,
    /// The puts after the first that failed.
    after: u64,
}

impl<W: Write + Drop> LimitedSink<W> {
    /// A sink over the writer, with no failure yet.
    pub(crate) fn new(writer: W, limits: Limits) -> LimitedSink<W> {
        LimitedSink {
            writer,
            limits,
            failures: 0,
            after: 0,
        }
    }

    /// How many puts there were after the first that failed.
    pub(crate) fn after(&self) -> u64 {
        self.after
    }

    /// Writes as many of the bytes as the limits let through.
    fn take(&mut self, bytes: &[u8]) -> Result<usize, SinkFault> {
        let count = bytes.len().min(self.limits.most).min(self.limits.left);
        if count == 0 {
            if self.limits.once {
                self.limits.left = usize::MAX;
            }
            return Err(SinkFault);
        }
        match self.writer.write(&bytes[..count]) {
            Ok(0) | Err(_) => Err(SinkFault),
            Ok(taken) => {
                self.limits.left -= taken;
                Ok(taken)
            }
        }
    }
}

impl<W: Write + Drop> Sink for LimitedSink<W> {
    ghost use Rattle.std.specs.Prelude.{None};

    ghost so_far = { λ s. record { bytes = None; failures = s.failures } };

    fn put(&mut self, bytes: &[u8]) -> Result<usize, SinkFault> {
        if self.failures > 0 {
            self.after = self.after.saturating_add(1);
        }
        let taken = self.take(bytes);
        if taken.is_err() {
            self.failures += 1;
        }
        taken
    }
}
