//! Opens a heap dump and computes the strengths of its objects, in plain Rust, as a measure to compare `hdesk stat`
//! with. It has no proofs and no contracts. It computes what `hdesk stat` computes, as fast and in as little memory
//! as was found.
//!
//! Build:  rustc --edition 2021 -O bench/plain/main.rs -o plain
//! Run:    ./plain FILE [ID..] [WORKERS]
//!
//! The file is read by parts, and never held as a whole. Its passes are: the records; a walk over all segments for
//! objects, roots and classes; the layouts of classes; a walk over all segments for references; strengths, with their
//! totals; counts.
//!
//! What it keeps of an object is a bit at its ID, a row of 8 bytes, its references to other objects but that to its
//! class at 4 bytes each, and if it is reached 8 bytes in the order of the search, with the source of its support.
//! Nulls and IDs that no object has are counted and not kept.
//!
//! WORKERS is how many threads walk over the segments at once, and search, each among the objects of a part; one
//! without it. What is printed on standard output doesn't depend on it.
//!
//! It believes that the file is right, and ends with a panic where it isn't. It prints the lines of `hdesk stat FILE`,
//! and then for each ID, which begins with `0x`, a line: the ID and its strength. Standard error gets when each pass
//! ended, in seconds.

mod class_dump;
mod classes;
mod counts;
mod graph;
mod ids;
mod memory;
mod numbers;
mod objects;
mod pages;
mod records;
mod rows;
mod shares;
mod strengths;
mod values;
mod walk;
mod window;

use std::env;
use std::hint::black_box;
use std::io;
use std::time::Instant;

use crate::counts::{print_counts, print_totals};
use crate::graph::open;
use crate::strengths::reach;
use crate::values::NAMES;

/// The words before the number of workers, and this number. Without it the last word is an ID, or there is none.
fn split_workers(words: &[String]) -> (&[String], usize) {
    match words.split_last() {
        Some((last, before)) if !last.starts_with("0x") => (before, last.parse().unwrap()),
        _ => (words, 1),
    }
}

fn main() -> io::Result<()> {
    let words: Vec<String> = env::args().collect();
    let (asked, workers) = split_workers(&words[2..]);
    assert_ne!(workers, 0);
    let began = Instant::now();
    let passed = |what: &str| eprintln!("{what} {:.3}", began.elapsed().as_secs_f64());
    let graph = open(&words[1], workers, passed)?;
    let reached = black_box(reach(&graph, workers));
    passed("strengths");
    print_counts(&graph);
    print_totals(&graph, &reached);
    passed("counts");
    for word in asked {
        let id = u64::from_str_radix(&word[2..], 16).unwrap();
        let object = graph.numbers.get(id).unwrap();
        println!("{word} {}", NAMES[reached.rank(object) as usize]);
    }
    Ok(())
}
