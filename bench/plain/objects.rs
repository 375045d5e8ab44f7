//! The first walk over the segments: IDs of objects, roots and classes.

use crate::class_dump::{Class, ClassDump};
use crate::numbers::Numbers;
use crate::pages::Pages;
use crate::shares::run_workers;
use crate::walk::{Visitor, walk};
use crate::window::Window;
use std::fs::File;
use std::io;
use std::mem::take;
use std::ops::Range;

/// How much of the file a worker reads at once.
pub const PART_LEN: usize = 1 << 18;

/// What a worker has met, and of the share that it is in what has to stay in file order.
struct Met {
    pages: Pages,
    objects: u64,
    roots: Vec<u64>,
    classes: Vec<Class>,
}

impl Met {
    #[inline(always)]
    fn meet(&mut self, id: u64) {
        assert_ne!(id, 0);
        self.objects += 1;
        self.pages.insert(id);
    }
}

impl Visitor for Met {
    const LOOKS_INSIDE: bool = false;

    fn root(&mut self, id: u64) {
        self.roots.push(id);
    }

    fn class(&mut self, dump: ClassDump) {
        self.meet(dump.class.id);
        self.classes.push(dump.class);
    }

    #[inline(always)]
    fn instance(&mut self, id: u64, _class: u64, _len: u32, _values: &[u8]) {
        self.meet(id);
    }

    fn array(&mut self, id: u64, _class: u64, _count: u32) {
        self.meet(id);
    }

    #[inline(always)]
    fn primitives(&mut self, id: u64, _len: u32) {
        self.meet(id);
    }
}

/// A share that was walked over: its number, and its roots and classes.
type Walked = (usize, Vec<u64>, Vec<Class>);

/// A worker of the first walk.
struct Worker<'a> {
    window: Window<'a>,
    met: Met,
    walked: Vec<Walked>,
    failed: io::Result<()>,
}

impl Worker<'_> {
    fn walk_share<const ID: usize>(&mut self, number: usize, share: &[Range<usize>]) {
        for segment in share {
            if self.failed.is_ok() {
                self.failed = walk::<ID, Met>(&mut self.window, segment, &mut self.met);
            }
        }
        let (roots, classes) = (take(&mut self.met.roots), take(&mut self.met.classes));
        self.walked.push((number, roots, classes));
    }
}

/// All that the first walk finds: the numbers of objects, and the roots and classes in file order.
pub struct Objects {
    pub numbers: Numbers,
    pub repeated: u64,
    pub roots: Vec<u64>,
    pub classes: Vec<Class>,
}

/// Walks over the shares of the segments for the first time. The bits of IDs may take an eighth of the file's length.
pub fn find_objects<const ID: usize>(
    file: &File,
    file_len: usize,
    shares: &[&[Range<usize>]],
    workers: usize,
) -> io::Result<Objects> {
    let begin = || Worker {
        window: Window::new(file, PART_LEN),
        met: Met {
            pages: Pages::new(file_len / 8 / workers + (1 << 20)),
            objects: 0,
            roots: Vec::new(),
            classes: Vec::new(),
        },
        walked: Vec::new(),
        failed: Ok(()),
    };
    let tasks = shares.iter().enumerate().collect();
    let ended = run_workers(tasks, workers, begin, |worker: &mut Worker, (i, share)| {
        worker.walk_share::<ID>(i, share);
    });
    gather(ended)
}

/// What all workers have found, in file order.
fn gather(ended: Vec<Worker>) -> io::Result<Objects> {
    let (mut pages, mut walked, mut met) = (Vec::new(), Vec::new(), 0);
    for worker in ended {
        worker.failed?;
        met += worker.met.objects;
        pages.push(worker.met.pages);
        walked.extend(worker.walked);
    }
    walked.sort_by_key(|(number, _, _)| *number);
    let numbers = Numbers::new(pages);
    let (mut roots, mut classes) = (Vec::new(), Vec::new());
    for (_, more_roots, more_classes) in walked {
        roots.extend(more_roots);
        classes.extend(more_classes);
    }
    Ok(Objects {
        repeated: met - numbers.count as u64,
        numbers,
        roots,
        classes,
    })
}
