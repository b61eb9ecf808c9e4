//! A writer into memory that accepts a few bytes at a time and then fails.

use std::io::{self, Cursor, ErrorKind, Write};

/// The capacity of a writer in bytes.
pub(crate) const ROOM: usize = 256;

/// A writer that counts its calls. It accepts at most `step` bytes in each call and `limit` bytes
/// in all, and then fails.
#[derive(Drop)]
pub(crate) struct Limited {
    written: Cursor<[u8; ROOM]>,
    step: usize,
    limit: usize,
    /// The error of a write that fails, or `None` if it accepts no bytes.
    failure: Option<ErrorKind>,
    /// The number of calls of `write`.
    pub(crate) writes: usize,
    /// The number of calls of `flush`.
    pub(crate) flushes: usize,
    /// The number of bytes that had been accepted at the last call of `flush`.
    pub(crate) flushed: usize,
    pub(crate) can_flush: bool,
}

impl Limited {
    pub(crate) fn new(step: usize, limit: usize, failure: Option<ErrorKind>) -> Limited {
        let written = Cursor::new([0; ROOM]);
        Limited {
            written,
            step,
            limit,
            failure,
            writes: 0,
            flushes: 0,
            flushed: 0,
            can_flush: true,
        }
    }

    /// Returns a writer that accepts any number of bytes in each call, up to its capacity.
    pub(crate) fn open() -> Limited {
        Limited::new(ROOM, ROOM, None)
    }

    /// Returns the bytes that were accepted.
    pub(crate) fn taken(&self) -> &[u8] {
        let end = self.written.position() as usize;
        self.written
            .get_ref()
            .as_slice()
            .get(..end)
            .unwrap_or_default()
    }
}

impl Write for Limited {
    fn write(&mut self, buf: &[u8]) -> io::Result<usize> {
        self.writes += 1;
        let count = buf
            .len()
            .min(self.step)
            .min(self.limit - self.taken().len());
        match self.failure {
            Some(kind) if count == 0 => Err(io::Error::from(kind)),
            _ => self.written.write(&buf[..count]),
        }
    }

    fn flush(&mut self) -> io::Result<()> {
        self.flushes += 1;
        self.flushed = self.taken().len();
        if self.can_flush {
            Ok(())
        } else {
            Err(io::Error::from(ErrorKind::Other))
        }
    }
}
