//! A walk over the sub-records of a segment, which tells a visitor of each.

use crate::class_dump::ClassDump;
use crate::values::{number, read_id, value_len};
use crate::window::Window;
use std::io;
use std::ops::Range;

/// What is done with each sub-record of a walk.
pub trait Visitor {
    /// Whether the visitor is given the values of instances and the elements of object arrays.
    const LOOKS_INSIDE: bool;

    fn root(&mut self, id: u64);
    fn class(&mut self, dump: ClassDump);
    /// An instance of `len` bytes, with these bytes where the visitor looks inside.
    fn instance(&mut self, id: u64, class: u64, len: u32, values: &[u8]);
    /// An object array. Its elements come next, in any number of pieces, and then its end.
    fn array(&mut self, id: u64, class: u64, count: u32);
    fn elements(&mut self, _bytes: &[u8]) {}
    fn end_array(&mut self) {}
    /// A primitive array, with the bytes of its elements.
    fn primitives(&mut self, id: u64, len: u32);
}

/// The sub-record at the beginning of the bytes, which is neither a class nor an array of objects: tells of it, and
/// gives its length. Gives nothing where the bytes end before what has to be read.
#[inline(always)]
fn visit_plain<const ID: usize, V: Visitor>(bytes: &[u8], visitor: &mut V) -> Option<usize> {
    let id = read_id::<ID>(bytes.get(1..1 + ID)?);
    let root_len = match bytes[0] {
        0x21 => {
            let head = bytes.get(..9 + 2 * ID)?;
            let len = number(&head[5 + 2 * ID..]);
            let values = if V::LOOKS_INSIDE {
                bytes.get(head.len()..head.len() + len)?
            } else {
                &[]
            };
            visitor.instance(id, read_id::<ID>(&head[5 + ID..]), len as u32, values);
            return Some(head.len() + len);
        }
        0x23 => {
            let head = bytes.get(..10 + ID)?;
            let len = number(&head[5 + ID..]) * value_len(head[9 + ID], ID);
            visitor.primitives(id, len as u32);
            return Some(head.len() + len);
        }
        0xff | 0x05 | 0x07 => 1 + ID,
        0x01 => 1 + 2 * ID,
        0x04 | 0x06 => 5 + ID,
        0x02 | 0x03 | 0x08 => 9 + ID,
        tag => panic!("no tag of a sub-record: {tag:#x}"),
    };
    visitor.root(id);
    Some(root_len)
}

/// A walk, with the elements that are left of the object array that it is in.
struct Walk<'a, const ID: usize, V> {
    visitor: &'a mut V,
    elements_left: usize,
}

impl<const ID: usize, V: Visitor> Walk<'_, ID, V> {
    /// The next elements, as many as are whole. Gives their length.
    fn visit_elements(&mut self, bytes: &[u8]) -> Option<usize> {
        let count = self.elements_left.min(bytes.len() / ID);
        if count == 0 {
            return None;
        }
        self.visitor.elements(&bytes[..count * ID]);
        self.elements_left -= count;
        if self.elements_left == 0 {
            self.visitor.end_array();
        }
        Some(count * ID)
    }

    /// The head of an object array, or all of it where the visitor doesn't look inside.
    fn visit_array(&mut self, bytes: &[u8]) -> Option<usize> {
        let head = bytes.get(..9 + 2 * ID)?;
        let count = number(&head[5 + ID..]);
        let class = read_id::<ID>(&head[9 + ID..]);
        let id = read_id::<ID>(&head[1..]);
        self.visitor.array(id, class, count as u32);
        if !V::LOOKS_INSIDE {
            return Some(head.len() + count * ID);
        }
        self.elements_left = count;
        if count == 0 {
            self.visitor.end_array();
        }
        Some(head.len())
    }

    #[inline(always)]
    fn visit_one(&mut self, bytes: &[u8]) -> Option<usize> {
        if self.elements_left > 0 {
            return self.visit_elements(bytes);
        }
        match bytes[0] {
            0x20 => {
                let (dump, len) = ClassDump::read::<ID>(bytes)?;
                self.visitor.class(dump);
                Some(len)
            }
            0x22 => self.visit_array(bytes),
            _ => visit_plain::<ID, V>(bytes, self.visitor),
        }
    }

    /// What lies in the bytes, as far as it lies in them. Gives how many bytes that is; it can be more than there
    /// are, where the last is passed over.
    fn visit_part(&mut self, bytes: &[u8]) -> usize {
        let mut used = 0;
        while used < bytes.len() {
            match self.visit_one(&bytes[used..]) {
                Some(len) => used += len,
                None => break,
            }
        }
        used
    }
}

/// Goes over the sub-records of a segment, each once.
pub fn walk<const ID: usize, V: Visitor>(
    window: &mut Window,
    segment: &Range<usize>,
    visitor: &mut V,
) -> io::Result<()> {
    let mut walk: Walk<ID, V> = Walk {
        visitor,
        elements_left: 0,
    };
    let (mut at, mut least) = (segment.start, 1);
    while at < segment.end {
        let part = window.bytes(at, least, segment.end)?;
        let used = walk.visit_part(part);
        if used == 0 {
            assert!(part.len() < segment.end - at, "a sub-record is cut off");
            least = 2 * part.len();
        } else {
            least = 1;
            at += used;
        }
    }
    assert_eq!(at, segment.end);
    assert_eq!(walk.elements_left, 0);
    Ok(())
}
