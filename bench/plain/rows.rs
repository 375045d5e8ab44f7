//! The second walk over the segments: what each object is, and which objects it refers to.

use crate::class_dump::ClassDump;
use crate::classes::{Layout, Layouts};
use crate::memory::{shared, zeros_u32, zeros_u64};
use crate::numbers::Numbers;
use crate::objects::PART_LEN;
use crate::shares::run_workers;
use crate::values::read_id;
use crate::walk::{Visitor, walk};
use crate::window::Window;
use std::fs::File;
use std::io;
use std::ops::Range;
use std::sync::atomic::{AtomicU64, Ordering::Relaxed};

/// Marks the last target of an object.
pub const LAST: u32 = 1 << 31;

/// Where the targets of an object begin that has none. All places of targets are below this and none is 0.
const NOWHERE: u32 = (1 << START_BITS) - 1;
const START_BITS: u32 = 29;

/// Marks what an instance is: the number of its class, not recorded bytes.
const INSTANCE: u32 = 1 << 31;

/// What an object is: in the lower half where its targets begin, and the rank that its referent gives, which is the
/// first target then; in the upper half its recorded bytes, or the number of its class.
#[derive(Clone, Copy)]
pub struct Row(pub u64);

impl Row {
    fn new(start: u32, rank: u8, kind: u32) -> Row {
        Row(u64::from(start | u32::from(rank) << START_BITS) | u64::from(kind) << 32)
    }

    /// The place of the first target, if there is one.
    #[inline(always)]
    pub fn start(self) -> Option<u32> {
        let start = self.0 as u32 & NOWHERE;
        (start != NOWHERE).then_some(start)
    }

    /// The rank that the first target is given, or 0 where it isn't a referent.
    #[inline(always)]
    pub fn referent_rank(self) -> u8 {
        (self.0 as u32 >> START_BITS) as u8
    }

    /// The number of an instance's class, where the layout is known, or else the recorded bytes.
    #[inline(always)]
    pub fn kind(self) -> Result<u32, u32> {
        let kind = (self.0 >> 32) as u32;
        if kind & INSTANCE != 0 {
            Ok(kind & !INSTANCE)
        } else {
            Err(kind)
        }
    }
}

/// What is counted on the second walk.
#[derive(Default)]
pub struct Tally {
    pub edges: u64,
    pub unresolved: u64,
    pub opaque: u64,
    /// The recorded bytes of all objects.
    pub bytes: u64,
}

impl Tally {
    fn add(&mut self, other: &Tally) {
        self.edges += other.edges;
        self.unresolved += other.unresolved;
        self.opaque += other.opaque;
        self.bytes += other.bytes;
    }
}

/// The rows of objects by their numbers, and the flat list of targets.
pub struct Rows {
    pub rows: Vec<u64>,
    pub targets: Vec<u32>,
    pub tally: Tally,
}

/// What fills rows has to know.
struct Known<'a> {
    numbers: &'a Numbers,
    layouts: &'a Layouts,
    rows: &'a [AtomicU64],
}

/// Fills the rows of a share, and its part of the list of targets.
struct Filler<'a, const ID: usize> {
    known: &'a Known<'a>,
    targets: &'a mut [u32],
    /// The place of the first of these targets.
    base: u32,
    /// Where the targets of the object begin that is being read, and where the next goes.
    first: usize,
    next: usize,
    /// The array that is being read, if it isn't a repeated one.
    array: Option<(u32, u32)>,
    tally: Tally,
}

impl<const ID: usize> Filler<'_, ID> {
    /// The number of an object, if none with its ID came before.
    #[inline(always)]
    fn begin(&mut self, id: u64) -> Option<u32> {
        let number = self.known.numbers.get(id).unwrap();
        let is_new = self.known.rows[number as usize].load(Relaxed) == 0;
        is_new.then_some(number)
    }

    /// Adds a target, if the ID is an object's.
    #[inline(always)]
    fn push(&mut self, id: u64) {
        if id == 0 {
            return;
        }
        match self.known.numbers.get(id) {
            Some(number) => {
                self.targets[self.next] = number;
                self.next += 1;
            }
            None => self.tally.unresolved += 1,
        }
    }

    /// Ends an object's targets, and makes its row.
    #[inline(always)]
    fn end(&mut self, number: u32, referent_rank: u8, kind: u32) {
        let mut start = NOWHERE;
        if self.next > self.first {
            start = self.base + self.first as u32;
            self.targets[self.next - 1] |= LAST;
            self.tally.edges += (self.next - self.first) as u64;
            self.first = self.next;
        }
        let row = Row::new(start, referent_rank, kind);
        self.known.rows[number as usize].store(row.0, Relaxed);
    }

    /// Adds the targets of an instance, the referent before the others. Gives the rank of the referent.
    #[inline(always)]
    fn push_values(&mut self, layout: &Layout, values: &[u8]) -> u8 {
        let mut referent_rank = 0;
        if let Some((at, rank)) = layout.referent {
            self.push(read_id::<ID>(&values[at as usize..]));
            if self.next > self.first {
                referent_rank = rank;
            }
        }
        for at in &layout.references {
            self.push(read_id::<ID>(&values[*at as usize..]));
        }
        referent_rank
    }
}

impl<const ID: usize> Visitor for Filler<'_, ID> {
    const LOOKS_INSIDE: bool = true;

    fn root(&mut self, _id: u64) {}

    fn class(&mut self, dump: ClassDump) {
        let Some(number) = self.begin(dump.class.id) else {
            return;
        };
        for id in dump.references {
            self.push(id);
        }
        self.tally.bytes += u64::from(dump.static_bytes);
        self.end(number, 0, dump.static_bytes);
    }

    #[inline(always)]
    fn instance(&mut self, id: u64, class: u64, len: u32, values: &[u8]) {
        let known = self.known;
        let class_number = known.layouts.number(class);
        let layout = class_number.map(|class| &known.layouts.layouts[class as usize]);
        assert!(layout.is_none_or(|layout| layout.bytes == len));
        let Some(number) = self.begin(id) else {
            return;
        };
        self.tally.bytes += u64::from(len);
        match (class_number, layout) {
            (Some(class_number), Some(layout)) => {
                let referent_rank = self.push_values(layout, values);
                self.tally.edges += 1;
                self.end(number, referent_rank, INSTANCE | class_number);
            }
            _ => {
                self.tally.opaque += 1;
                self.push(class);
                self.end(number, 0, len);
            }
        }
    }

    fn array(&mut self, id: u64, class: u64, count: u32) {
        let len = count * ID as u32;
        self.array = self.begin(id).map(|number| (number, len));
        if self.array.is_some() {
            self.tally.bytes += u64::from(len);
            self.push(class);
        }
    }

    fn elements(&mut self, bytes: &[u8]) {
        if self.array.is_some() {
            for element in bytes.chunks_exact(ID) {
                self.push(read_id::<ID>(element));
            }
        }
    }

    fn end_array(&mut self) {
        if let Some((number, len)) = self.array {
            self.end(number, 0, len);
        }
    }

    #[inline(always)]
    fn primitives(&mut self, id: u64, len: u32) {
        if let Some(number) = self.begin(id) {
            self.tally.bytes += u64::from(len);
            self.end(number, 0, len);
        }
    }
}

/// A worker of the second walk.
struct Worker<'a> {
    window: Window<'a>,
    tally: Tally,
    failed: io::Result<()>,
}

impl Worker<'_> {
    fn fill_share<const ID: usize>(&mut self, known: &Known, share: Share) {
        let mut filler: Filler<ID> = Filler {
            known,
            targets: share.targets,
            base: share.base,
            first: 0,
            next: 0,
            array: None,
            tally: Tally::default(),
        };
        for segment in share.segments {
            if self.failed.is_ok() {
                self.failed = walk::<ID, _>(&mut self.window, segment, &mut filler);
            }
        }
        self.tally.add(&filler.tally);
    }
}

/// A share of the segments, and the part of the list of targets that is theirs.
struct Share<'a> {
    segments: &'a [Range<usize>],
    targets: &'a mut [u32],
    base: u32,
}

/// Splits the list of targets: a share gets as many as IDs have room in its bytes. What no target is written to takes
/// no memory.
fn split_targets<'a, const ID: usize>(
    mut targets: &'a mut [u32],
    shares: &[&'a [Range<usize>]],
) -> Vec<Share<'a>> {
    let (mut parts, mut before) = (Vec::new(), 0);
    for segments in shares {
        let start = segments[0].start / ID;
        let end = segments[segments.len() - 1].end / ID;
        let (part, rest) = targets.split_at_mut(end - before);
        parts.push(Share {
            segments,
            targets: &mut part[start - before..],
            base: start as u32,
        });
        (targets, before) = (rest, end);
    }
    parts
}

/// Walks over the shares of the segments for the second time. Where IDs are repeated a single worker does it, in file
/// order.
pub fn fill_rows<const ID: usize>(
    file: &File,
    file_len: usize,
    shares: &[&[Range<usize>]],
    (numbers, layouts): (&Numbers, &Layouts),
    workers: usize,
) -> io::Result<Rows> {
    let mut rows = zeros_u64(numbers.count);
    let mut targets = zeros_u32(file_len / ID + 1);
    let known = Known {
        numbers,
        layouts,
        rows: shared(&mut rows),
    };
    let begin = || Worker {
        window: Window::new(file, PART_LEN),
        tally: Tally::default(),
        failed: Ok(()),
    };
    let tasks = split_targets::<ID>(&mut targets, shares);
    let ended = run_workers(tasks, workers, begin, |worker: &mut Worker, share| {
        worker.fill_share::<ID>(&known, share);
    });
    let mut tally = Tally::default();
    for worker in ended {
        worker.failed?;
        tally.add(&worker.tally);
    }
    Ok(Rows {
        rows,
        targets,
        tally,
    })
}
