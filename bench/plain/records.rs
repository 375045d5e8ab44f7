//! The records of a file: texts, loaded classes, and where the segments lie.

use crate::values::{FINAL, PHANTOM, SOFT, WEAK, number, read_id};
use crate::window::Window;
use std::fs::File;
use std::io;
use std::ops::Range;

const HEADER_LEN: usize = 31;
const RECORD_HEAD_LEN: usize = 9;

/// How much of the file is read at once here. Most of what comes behind is a segment's body, which is passed over.
const PART_LEN: usize = 1 << 14;

/// What a text is, as far as strengths depend on it. The names of classes may be written with dots.
#[derive(Clone, Copy, PartialEq)]
pub enum Name {
    Other,
    /// The field that holds a referent.
    Referent,
    /// The class that declares this field.
    Reference,
    /// A class that gives a referent a rank.
    Giver(u8),
}

impl Name {
    fn of(text: &[u8]) -> Name {
        let slashed = |byte: &u8| if *byte == b'.' { b'/' } else { *byte };
        let is_class = |name: &str| text.iter().map(slashed).eq(name.bytes());
        let givers = [
            ("java/lang/ref/SoftReference", SOFT),
            ("java/lang/ref/WeakReference", WEAK),
            ("java/lang/ref/FinalReference", FINAL),
            ("java/lang/ref/PhantomReference", PHANTOM),
        ];
        if text == b"referent" {
            Name::Referent
        } else if is_class("java/lang/ref/Reference") {
            Name::Reference
        } else {
            let giver = givers.iter().find(|(name, _)| is_class(name));
            giver.map_or(Name::Other, |(_, rank)| Name::Giver(*rank))
        }
    }
}

/// A text's ID, and what it is.
pub struct Text {
    pub id: u64,
    pub name: Name,
}

/// The ID of a loaded class, and that of its name.
pub struct Load {
    pub class: u64,
    pub name: u64,
}

/// What the records of a file say.
#[derive(Default)]
pub struct Records {
    pub texts: Vec<Text>,
    pub loads: Vec<Load>,
    pub segments: Vec<Range<usize>>,
}

/// How many bytes the IDs of a file have, which is one of the numbers in its header.
pub fn read_id_len(file: &File, file_len: usize) -> io::Result<usize> {
    let mut window = Window::new(file, HEADER_LEN);
    let header = window.bytes(0, HEADER_LEN, file_len)?;
    Ok(number(&header[19..]))
}

impl Records {
    /// Adds a text, of which these are the bytes of its record.
    fn add_text<const ID: usize>(&mut self, bytes: &[u8]) {
        self.texts.push(Text {
            id: read_id::<ID>(bytes),
            name: Name::of(&bytes[ID..]),
        });
    }

    /// Adds a loaded class.
    fn add_load<const ID: usize>(&mut self, bytes: &[u8]) {
        self.loads.push(Load {
            class: read_id::<ID>(&bytes[4..]),
            name: read_id::<ID>(&bytes[8 + ID..]),
        });
    }
}

/// Reads the records, and of the texts and the loaded classes their bodies too.
pub fn read_records<const ID: usize>(file: &File, file_len: usize) -> io::Result<Records> {
    let mut window = Window::new(file, PART_LEN);
    let (mut records, mut at) = (Records::default(), HEADER_LEN);
    while at < file_len {
        let head = window.bytes(at, RECORD_HEAD_LEN, file_len)?;
        let (tag, body, len) = (head[0], at + RECORD_HEAD_LEN, number(&head[5..]));
        at = body + len;
        let is_read = matches!(tag, 0x01 | 0x02 | 0x0c | 0x1c);
        assert!(!is_read || at <= file_len);
        match tag {
            0x01 => records.add_text::<ID>(&window.bytes(body, len, file_len)?[..len]),
            0x02 => records.add_load::<ID>(&window.bytes(body, len, file_len)?[..len]),
            0x0c | 0x1c => records.segments.push(body..at),
            _ => {}
        }
    }
    Ok(records)
}
