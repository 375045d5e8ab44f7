//! Writes a heap dump anew with the bodies of all its segments joined into one, as `jhsdb jmap --binaryheap` writes
//! dumps: in a single HEAP DUMP record, and without HEAP DUMP END. It is for measuring what opens a dump whose segments
//! can't be shared out among several workers, beside the same dump with many.
//!
//! Build:  rustc --edition 2021 -O tools/one_segment.rs -o one_segment
//! Run:    ./one_segment FILE NEW
//!
//! The one record stands where the first segment stood, with the time of that. All other records stay as they are, in
//! their order, so that those between two segments come behind the one record. Standard error gets how many segments
//! were joined.
//!
//! It believes that the file is right, and ends with a panic where it isn't, or where the bodies have 4 GiB or more.

use std::env;
use std::fs::{self, File};
use std::io::{self, BufWriter, Write};
use std::process::ExitCode;

const HEADER_LEN: usize = 31;
const RECORD_HEAD_LEN: usize = 9;
const HEAP_DUMP: u8 = 0x0c;
const HEAP_DUMP_SEGMENT: u8 = 0x1c;
const HEAP_DUMP_END: u8 = 0x2c;

/// A record with its head.
struct Record<'a> {
    bytes: &'a [u8],
}

impl<'a> Record<'a> {
    fn is_segment(&self) -> bool {
        [HEAP_DUMP, HEAP_DUMP_SEGMENT].contains(&self.bytes[0])
    }

    fn is_end(&self) -> bool {
        self.bytes[0] == HEAP_DUMP_END
    }

    /// The time of the record, as it is written.
    fn time(&self) -> &'a [u8] {
        &self.bytes[1..5]
    }

    fn body(&self) -> &'a [u8] {
        &self.bytes[RECORD_HEAD_LEN..]
    }
}

/// The records of a dump, in their order.
fn read_records(dump: &[u8]) -> Vec<Record<'_>> {
    let (mut records, mut rest) = (Vec::new(), &dump[HEADER_LEN..]);
    while !rest.is_empty() {
        let body_len = u32::from_be_bytes(rest[5..RECORD_HEAD_LEN].try_into().unwrap());
        let (bytes, behind) = rest.split_at(RECORD_HEAD_LEN + body_len as usize);
        records.push(Record { bytes });
        rest = behind;
    }
    records
}

/// Writes the bodies of the segments as one record.
fn write_segments(out: &mut impl Write, segments: &[&Record]) -> io::Result<()> {
    let len: usize = segments.iter().map(|segment| segment.body().len()).sum();
    let len = u32::try_from(len).expect("the bodies have less than 4 GiB");
    out.write_all(&[HEAP_DUMP])?;
    out.write_all(segments[0].time())?;
    out.write_all(&len.to_be_bytes())?;
    for segment in segments {
        out.write_all(segment.body())?;
    }
    Ok(())
}

/// Writes a dump with one segment, and answers how many it stands for.
fn write_dump(out: &mut impl Write, dump: &[u8]) -> io::Result<usize> {
    let records = read_records(dump);
    let segments: Vec<&Record> = records.iter().filter(|r| r.is_segment()).collect();
    let mut is_written = false;
    out.write_all(&dump[..HEADER_LEN])?;
    for record in records.iter().filter(|record| !record.is_end()) {
        if !record.is_segment() {
            out.write_all(record.bytes)?;
        } else if !is_written {
            write_segments(out, &segments)?;
            is_written = true;
        }
    }
    Ok(segments.len())
}

fn join_segments(path: &str, new_path: &str) -> io::Result<()> {
    let dump = fs::read(path)?;
    let mut out = BufWriter::with_capacity(1 << 20, File::create(new_path)?);
    let segments = write_dump(&mut out, &dump)?;
    out.flush()?;
    eprintln!("segments {segments}");
    Ok(())
}

fn main() -> ExitCode {
    let words: Vec<String> = env::args().skip(1).collect();
    let [path, new_path] = words.as_slice() else {
        eprintln!("usage: one_segment FILE NEW");
        return ExitCode::from(64);
    };
    match join_segments(path, new_path) {
        Ok(()) => ExitCode::SUCCESS,
        Err(error) => {
            eprintln!("one_segment: {path} to {new_path}: {error}");
            ExitCode::FAILURE
        }
    }
}
