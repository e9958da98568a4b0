//! The bytes of a stream with their offset, and what a reader found in them:
//! what the readers of both formats have alike.

use std::io::{self, BufRead, Read, Write};

/// What a reader found next.
#[derive(Debug, PartialEq, Eq)]
pub enum Next<T> {
    /// A whole record whose mark is at this offset.
    Record(u64, T),
    /// The stream is bad at the mark of this offset; nothing follows.
    Bad(u64),
    /// The input ended before a mark.
    End,
}

/// Hands the records that `next` finds to `step` one by one, which writes the
/// record's line and says whether to go on; a bad record is written as `BAD`
/// and the mark's offset, and ends it.
pub fn each<T, W: Write>(
    mut next: impl FnMut() -> io::Result<Next<T>>,
    output: &mut W,
    mut step: impl FnMut(T, &mut W) -> io::Result<bool>,
) -> io::Result<()> {
    loop {
        match next()? {
            Next::Record(_, record) => {
                if !step(record, output)? {
                    return Ok(());
                }
            }
            Next::Bad(offset) => return writeln!(output, "BAD {offset}"),
            Next::End => return Ok(()),
        }
    }
}

/// The bytes not yet read and the offset of the first of them.
pub struct Source<R> {
    input: R,
    offset: u64,
}

impl<R: BufRead> Source<R> {
    pub fn new(input: R) -> Self {
        Source { input, offset: 0 }
    }

    /// Reads one record: `read` gets the mark, its offset and the bytes after
    /// it, and gives None where the record is bad. A mark of one byte is a cut
    /// record.
    pub fn record<T>(
        &mut self,
        read: impl FnOnce(&mut Self, [u8; 2], u64) -> io::Result<Option<T>>,
    ) -> io::Result<Next<T>> {
        let at = self.offset;
        let mut mark = Vec::new();
        self.input.by_ref().take(2).read_to_end(&mut mark)?;
        if mark.is_empty() {
            return Ok(Next::End);
        }
        self.offset += mark.len() as u64;
        let record = match <[u8; 2]>::try_from(mark) {
            Ok(mark) => read(self, mark, at)?,
            Err(_) => None,
        };
        Ok(match record {
            Some(record) => Next::Record(at, record),
            None => Next::Bad(at),
        })
    }

    /// The next `N` bytes, or None if the record is cut.
    pub fn fields<const N: usize>(&mut self) -> io::Result<Option<[u8; N]>> {
        let mut bytes = [0; N];
        Ok(self.fill(&mut bytes)?.then_some(bytes))
    }

    /// The next `length` bytes, or None if the record is cut.
    pub fn block(&mut self, length: usize) -> io::Result<Option<Vec<u8>>> {
        let mut bytes = vec![0; length];
        Ok(self.fill(&mut bytes)?.then_some(bytes))
    }

    fn fill(&mut self, bytes: &mut [u8]) -> io::Result<bool> {
        self.offset += bytes.len() as u64;
        match self.input.read_exact(bytes) {
            Ok(()) => Ok(true),
            Err(error) if error.kind() == io::ErrorKind::UnexpectedEof => Ok(false),
            Err(error) => Err(error),
        }
    }
}
