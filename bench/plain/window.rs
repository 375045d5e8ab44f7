//! A file, read by parts into a buffer.

use std::fs::File;
use std::io;
use std::os::unix::fs::FileExt;

/// A buffer and the part of the file that it holds.
pub struct Window<'a> {
    file: &'a File,
    buffer: Vec<u8>,
    /// Where the part begins in the file.
    start: usize,
    /// How many bytes the part has.
    len: usize,
}

impl<'a> Window<'a> {
    pub fn new(file: &'a File, capacity: usize) -> Window<'a> {
        Window {
            file,
            buffer: vec![0; capacity],
            start: 0,
            len: 0,
        }
    }

    /// The bytes from a place on, none at `end` or behind it: at least `least`, or all where there are fewer. The
    /// file is read where the buffer doesn't have them.
    pub fn bytes(&mut self, at: usize, least: usize, end: usize) -> io::Result<&[u8]> {
        let wanted = least.min(end - at);
        if at < self.start || at + wanted > self.start + self.len {
            self.fill(at, wanted, end)?;
        }
        let len = self.len.min(end - self.start);
        Ok(&self.buffer[at - self.start..len])
    }

    /// Reads the part that begins at a place, as much as there is room for. Where `wanted` bytes have no room, it makes
    /// some.
    fn fill(&mut self, at: usize, wanted: usize, end: usize) -> io::Result<()> {
        if self.buffer.len() < wanted {
            self.buffer.resize(wanted.next_power_of_two(), 0);
        }
        self.start = at;
        self.len = self.buffer.len().min(end - at);
        let part = &mut self.buffer[..self.len];
        self.file.read_exact_at(part, at as u64)
    }
}
