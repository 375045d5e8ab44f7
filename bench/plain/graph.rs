//! A dump as it is kept, and how it is opened.

use crate::classes::{Repeats, read_layouts};
use crate::numbers::Numbers;
use crate::objects::find_objects;
use crate::records::{read_id_len, read_records};
use crate::rows::{Rows, fill_rows};
use crate::shares::share_out;
use std::fs::File;
use std::io;

/// A file is shorter than this, so that places in it and numbers of objects leave a bit.
const LEN_LIMIT: usize = 1 << 31;

/// What is kept of a class: its recorded bytes, and the number of its class object.
#[derive(Clone, Copy)]
pub struct ClassRow {
    pub bytes: u32,
    pub object: u32,
}

/// A dump as it is kept.
pub struct Graph {
    pub numbers: Numbers,
    pub rows: Rows,
    pub classes: Vec<ClassRow>,
    pub roots: Vec<u64>,
    pub repeats: Repeats,
}

/// Opens a dump, and tells when each pass has ended.
pub fn open(path: &str, workers: usize, passed: impl Fn(&str)) -> io::Result<Graph> {
    let file = File::open(path)?;
    let file_len = file.metadata()?.len() as usize;
    assert!(file_len < LEN_LIMIT);
    match read_id_len(&file, file_len)? {
        4 => read::<4>(&file, file_len, workers, passed),
        8 => read::<8>(&file, file_len, workers, passed),
        id_len => panic!("IDs of {id_len} bytes"),
    }
}

fn read<const ID: usize>(
    file: &File,
    file_len: usize,
    workers: usize,
    passed: impl Fn(&str),
) -> io::Result<Graph> {
    let records = read_records::<ID>(file, file_len)?;
    passed("records");
    let shares = share_out(&records.segments, workers);
    let objects = find_objects::<ID>(file, file_len, &shares, workers)?;
    passed("objects");
    let (layouts, mut repeats) = read_layouts(ID, &records, &objects.classes);
    repeats.objects = objects.repeated;
    passed("classes");
    let fillers = if objects.repeated == 0 { workers } else { 1 };
    let known = (&objects.numbers, &layouts);
    let rows = fill_rows::<ID>(file, file_len, &shares, known, fillers)?;
    passed("rows");
    let class_rows = layouts.ids.ids.iter().zip(&layouts.layouts);
    let classes = class_rows.map(|(id, layout)| ClassRow {
        bytes: layout.bytes,
        object: objects.numbers.get(*id).unwrap(),
    });
    Ok(Graph {
        classes: classes.collect(),
        numbers: objects.numbers,
        rows,
        roots: objects.roots,
        repeats,
    })
}
