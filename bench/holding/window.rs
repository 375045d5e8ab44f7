//! A file, held in memory as a whole: instead of `bench/plain/window.rs` it makes the plain program hold the file as `hdesk` does.
//!
//! Build:  cp -r bench/plain held && cp bench/holding/window.rs held && rustc --edition 2021 -O held/main.rs -o holding
//! Run:    ./holding FILE [ID..] [WORKERS]

use std::fs::File;
use std::io;
use std::os::unix::fs::FileExt;
use std::sync::OnceLock;
use std::thread;

/// How many threads read the file.
const READERS: usize = 8;

/// How many bytes a thread reads at once.
const RUN: usize = 1 << 18;

static HELD: OnceLock<Vec<u8>> = OnceLock::new();

/// The bytes of a file. Nobody writes the memory before they are read into it.
fn read_all(file: &File) -> Vec<u8> {
    let len = file.metadata().unwrap().len() as usize;
    let mut bytes = Vec::with_capacity(len);
    let first = bytes.as_mut_ptr() as usize;
    thread::scope(|scope| {
        for reader in 0..READERS {
            let start = len * reader / READERS;
            let end = len * (reader + 1) / READERS;
            scope.spawn(move || {
                for at in (start..end).step_by(RUN) {
                    let count = RUN.min(end - at);
                    // SAFETY: the list has room for these bytes, and no other thread reaches them.
                    let run =
                        unsafe { std::slice::from_raw_parts_mut((first + at) as *mut u8, count) };
                    file.read_exact_at(run, at as u64).unwrap();
                }
            });
        }
    });
    // SAFETY: the threads have read all of them.
    unsafe { bytes.set_len(len) };
    bytes
}

/// The bytes of the file.
pub struct Window<'a> {
    held: &'a [u8],
}

impl<'a> Window<'a> {
    pub fn new(file: &'a File, _: usize) -> Window<'a> {
        Window {
            held: HELD.get_or_init(|| read_all(file)),
        }
    }

    /// The bytes from a place on, none at `end` or behind it.
    pub fn bytes(&mut self, at: usize, _: usize, end: usize) -> io::Result<&[u8]> {
        Ok(&self.held[at..end])
    }
}
