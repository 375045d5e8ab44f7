//! Writes the dump of a size that has the most object arrays: those without elements alone, with identifiers of four
//! bytes, and a root on the first.
//!
//! Build:  rustc --edition 2021 -O bench/empty_arrays.rs -o empty_arrays
//! Run:    ./empty_arrays FILE BYTES
//!
//! The file has as many arrays as fit into BYTES bytes. It prints on standard error how many bytes and objects it has.

use std::env;
use std::fs::File;
use std::io::{self, BufWriter, Write};

/// The header: the format's name, an identifier size of 4, time 0.
const HEADER: &[u8; 31] = b"JAVA PROFILE 1.0.2\0\0\0\0\x04\0\0\0\0\0\0\0\0";

/// The bytes of a record before its body.
const RECORD_HEAD_LEN: u64 = 9;

/// The bytes of a ROOT UNKNOWN, and of an OBJECT ARRAY DUMP without elements.
const ROOT_LEN: u64 = 5;
const ARRAY_LEN: u64 = 17;

/// The most arrays of a segment: about a mebibyte, as the JDK writes them.
const SEGMENT_ARRAYS: u64 = 61_680;

/// A HEAP DUMP SEGMENT's head.
fn write_head(out: &mut impl Write, body_len: u64) -> io::Result<()> {
    out.write_all(&[0x1c, 0, 0, 0, 0])?;
    out.write_all(&(body_len as u32).to_be_bytes())
}

/// An array without elements.
fn write_array(out: &mut impl Write, id: u32) -> io::Result<()> {
    out.write_all(&[0x22])?;
    out.write_all(&id.to_be_bytes())?;
    out.write_all(&[0; 12])
}

fn write_dump(out: &mut impl Write, most: u64) -> io::Result<(u64, u64)> {
    out.write_all(HEADER)?;
    write_head(out, ROOT_LEN)?;
    out.write_all(&[0xff, 0, 0, 0, 1])?;
    let mut bytes = HEADER.len() as u64 + RECORD_HEAD_LEN + ROOT_LEN;
    let mut objects = 0;
    loop {
        let fit = most.saturating_sub(bytes + RECORD_HEAD_LEN) / ARRAY_LEN;
        let count = fit.min(SEGMENT_ARRAYS);
        if count == 0 {
            return Ok((bytes, objects));
        }
        write_head(out, count * ARRAY_LEN)?;
        for k in 0..count {
            write_array(out, (objects + k + 1) as u32)?;
        }
        bytes += RECORD_HEAD_LEN + count * ARRAY_LEN;
        objects += count;
    }
}

fn main() -> io::Result<()> {
    let words: Vec<String> = env::args().skip(1).collect();
    let [path, most] = words.as_slice() else {
        eprintln!("usage: empty_arrays FILE BYTES");
        std::process::exit(64);
    };
    let most = most.parse().expect("BYTES is a number");
    let mut out = BufWriter::with_capacity(1 << 20, File::create(path)?);
    let (bytes, objects) = write_dump(&mut out, most)?;
    out.flush()?;
    eprintln!("bytes {bytes} objects {objects}");
    Ok(())
}
