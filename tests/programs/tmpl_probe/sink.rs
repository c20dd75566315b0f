//! A sink that keeps its bytes in a lent slice, takes little a put, and fails where it is told to.

use tmpl_engine::{Sink, SinkFault};

/// What a sink takes, and when it fails.
#[derive(Clone, Copy)]
pub(crate) struct Limits {
    /// The bytes that it takes in all, if it has room for them.
    pub(crate) room: usize,
    /// The bytes that one put takes at most.
    pub(crate) most: usize,
    /// The number of the put, from 1, that fails; none of number 0.
    pub(crate) fails_at: u64,
    /// Whether that put alone fails, and those after it would be taken. Else they fail too.
    pub(crate) once: bool,
}

/// A sink over a lent slice. It takes no memory, and tells what it has taken.
#[derive(Drop)]
pub(crate) struct LentSink<'a> {
    kept: &'a mut [u8],
    taken: usize,
    limits: Limits,
    puts: u64,
    failures: u64,
    /// The puts after the first that failed.
    after: u64,
}

impl<'a> LentSink<'a> {
    /// A sink that has taken nothing.
    pub(crate) fn new(kept: &'a mut [u8], limits: Limits) -> LentSink<'a> {
        LentSink {
            kept,
            taken: 0,
            limits,
            puts: 0,
            failures: 0,
            after: 0,
        }
    }

    /// What it has taken.
    pub(crate) fn as_slice(&self) -> &[u8] {
        &self.kept[..self.taken]
    }

    /// How many puts there were.
    pub(crate) fn puts(&self) -> u64 {
        self.puts
    }

    /// How many puts there were after the first that failed.
    pub(crate) fn after(&self) -> u64 {
        self.after
    }

    /// Whether a put failed.
    pub(crate) fn has_failed(&self) -> bool {
        self.failures > 0
    }

    /// Whether this put is one that is to fail.
    fn is_to_fail(&self) -> bool {
        let fails_at = self.limits.fails_at;
        fails_at > 0 && (self.puts == fails_at || self.puts > fails_at && !self.limits.once)
    }

    /// How many bytes it takes now of a put of this many.
    fn count(&self, given: usize) -> usize {
        if self.is_to_fail() {
            return 0;
        }
        let room = self.limits.room.saturating_sub(self.taken);
        let kept = self.kept.len() - self.taken;
        given.min(self.limits.most).min(room).min(kept)
    }
}

impl Sink for LentSink<'_> {
    ghost use Rattle.std.specs.Prelude.{None};

    ghost so_far = { λ s. record { bytes = None; failures = s.failures } };

    fn put(&mut self, bytes: &[u8]) -> Result<usize, SinkFault> {
        self.puts = self.puts.saturating_add(1);
        if self.failures > 0 {
            self.after = self.after.saturating_add(1);
        }
        let count = self.count(bytes.len());
        if count == 0 {
            self.failures += 1;
            return Err(SinkFault);
        }
        let whole = &mut self.kept[..];
        whole[self.taken..self.taken + count].copy_from_slice(&bytes[..count]);
        self.taken += count;
        Ok(count)
    }
}
