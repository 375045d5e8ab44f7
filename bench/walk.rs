//! Reads a whole dump into memory and goes over its records and sub-records once, as a measure to compare with: what no
//! program that holds the file and looks at each object can be faster than, on one thread.
//!
//! Build:  rustc --edition 2021 -O bench/walk.rs -o walk
//! Run:    ./walk PATH
//!
//! The bytes go into one `Vec` of exactly the file's length. Of each record and sub-record its head is read, which tells
//! where the next one begins. The values of instances and the elements of arrays are passed over. It prints how many
//! there are of each. It believes that the file is right, and panics where it isn't.

use std::env;
use std::fs::File;
use std::io::{self, Read};
use std::process::ExitCode;

const HEADER_LEN: usize = 31;
const RECORD_HEAD_LEN: usize = 9;

/// How many of each there are.
#[derive(Default)]
struct Counts {
    records: u64,
    roots: u64,
    classes: u64,
    instances: u64,
    arrays: u64,
    primitive_arrays: u64,
}

fn u16_at(bytes: &[u8], at: usize) -> usize {
    usize::from(u16::from_be_bytes(bytes[at..at + 2].try_into().unwrap()))
}

fn u32_at(bytes: &[u8], at: usize) -> usize {
    u32::from_be_bytes(bytes[at..at + 4].try_into().unwrap()) as usize
}

/// How many bytes a value has, by its type.
fn value_len<const ID: usize>(kind: u8) -> usize {
    match kind {
        2 => ID,
        4 | 8 => 1,
        5 | 9 => 2,
        6 | 10 => 4,
        7 | 11 => 8,
        _ => panic!("no type of a value: {kind}"),
    }
}

/// The length of the CLASS DUMP at the beginning of the bytes.
fn class_len<const ID: usize>(bytes: &[u8]) -> usize {
    let mut at = 9 + 7 * ID;
    let constants = u16_at(bytes, at);
    at += 2;
    for _ in 0..constants {
        at += 3 + value_len::<ID>(bytes[at + 2]);
    }
    let statics = u16_at(bytes, at);
    at += 2;
    for _ in 0..statics {
        at += ID + 1 + value_len::<ID>(bytes[at + ID]);
    }
    at + 2 + u16_at(bytes, at) * (ID + 1)
}

/// Counts the sub-record at the beginning of the bytes, and gives its length.
#[inline(always)]
fn count_sub<const ID: usize>(bytes: &[u8], counts: &mut Counts) -> usize {
    match bytes[0] {
        0x21 => {
            counts.instances += 1;
            9 + 2 * ID + u32_at(bytes, 5 + 2 * ID)
        }
        0x22 => {
            counts.arrays += 1;
            9 + 2 * ID + u32_at(bytes, 5 + ID) * ID
        }
        0x23 => {
            counts.primitive_arrays += 1;
            10 + ID + u32_at(bytes, 5 + ID) * value_len::<ID>(bytes[9 + ID])
        }
        0x20 => {
            counts.classes += 1;
            class_len::<ID>(bytes)
        }
        tag => {
            counts.roots += 1;
            match tag {
                0xff | 0x05 | 0x07 => 1 + ID,
                0x01 => 1 + 2 * ID,
                0x04 | 0x06 => 5 + ID,
                0x02 | 0x03 | 0x08 => 9 + ID,
                _ => panic!("no tag of a sub-record: {tag:#x}"),
            }
        }
    }
}

/// Counts the sub-records of a segment.
fn count_segment<const ID: usize>(mut bytes: &[u8], counts: &mut Counts) {
    while !bytes.is_empty() {
        let len = count_sub::<ID>(bytes, counts);
        bytes = &bytes[len..];
    }
}

/// Counts the records of a file, and the sub-records of its segments.
fn count_all<const ID: usize>(file: &[u8]) -> Counts {
    let mut counts = Counts::default();
    let mut at = HEADER_LEN;
    while at < file.len() {
        let body = at + RECORD_HEAD_LEN;
        let end = body + u32_at(file, at + 5);
        counts.records += 1;
        if matches!(file[at], 0x0c | 0x1c) {
            count_segment::<ID>(&file[body..end], &mut counts);
        }
        at = end;
    }
    counts
}

fn read_and_count(path: &str) -> io::Result<Counts> {
    let mut file = File::open(path)?;
    let mut bytes = vec![0; file.metadata()?.len() as usize];
    file.read_exact(&mut bytes)?;
    Ok(match u32_at(&bytes, 19) {
        4 => count_all::<4>(&bytes),
        8 => count_all::<8>(&bytes),
        len => panic!("IDs of {len} bytes"),
    })
}

fn main() -> ExitCode {
    let Some(path) = env::args().nth(1) else {
        eprintln!("usage: walk PATH");
        return ExitCode::from(64);
    };
    match read_and_count(&path) {
        Ok(counts) => {
            println!("records {} roots {}", counts.records, counts.roots);
            println!("classes {} instances {}", counts.classes, counts.instances);
            println!("arrays {} {}", counts.arrays, counts.primitive_arrays);
            ExitCode::SUCCESS
        }
        Err(error) => {
            eprintln!("walk: {path}: {error}");
            ExitCode::FAILURE
        }
    }
}
