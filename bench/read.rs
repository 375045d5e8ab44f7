//! Reads a whole file into memory, as a measure to compare with: what nothing that reads the file can be faster than.
//!
//! Build:  rustc --edition 2021 -O bench/read.rs -o read
//! Run:    ./read PATH
//!
//! The bytes go into one `Vec` of exactly the file's length. Then every 4,096th byte is added up, and the sum printed,
//! so that the reading can't be left out.

use std::env;
use std::fs::File;
use std::io::{self, Read};
use std::process::ExitCode;

fn read_and_sum(path: &str) -> io::Result<u64> {
    let mut file = File::open(path)?;
    let mut bytes = vec![0; file.metadata()?.len() as usize];
    file.read_exact(&mut bytes)?;
    Ok(bytes.iter().step_by(4_096).map(|b| u64::from(*b)).sum())
}

fn main() -> ExitCode {
    let Some(path) = env::args().nth(1) else {
        eprintln!("usage: read PATH");
        return ExitCode::from(64);
    };
    match read_and_sum(&path) {
        Ok(sum) => {
            println!("sum {sum}");
            ExitCode::SUCCESS
        }
        Err(error) => {
            eprintln!("read: {path}: {error}");
            ExitCode::FAILURE
        }
    }
}
