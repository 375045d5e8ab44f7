//! The strengths of objects: Dijkstra's widest path from the roots, with a bucket of offers for each rank. Within a
//! rank the search is depth first, since most objects lie near those that refer to them.
//!
//! Each worker has a part of the objects, by their numbers, and reaches these alone; where objects are few there are
//! fewer parts. What its objects refer to in another part it hands over. Workers search in rounds: a round ends for a
//! worker when it has passed the rank on from `ROUND` objects, or has none left. Then each part gets what was handed
//! over to it. So no two workers write the same memory. Which supports are found, and in which order, depends on the
//! number of workers; no strength does.
//!
//! What is reached stands in the order in which its part reached it, each object with the source of its support. So
//! all objects of a rank stand in sequence there, and only a bit for each object is looked up and written here and
//! there.

use crate::graph::Graph;
use crate::memory::{room_u64, zeros_u64};
use crate::rows::{LAST, Row};
use crate::values::{FINAL, PHANTOM, STRONG, UNREACHABLE};
use std::mem::take;
use std::ops::Range;
use std::thread;

/// From how many objects a worker passes a rank on in one round, and how many a part has at least. Where one part has
/// all objects there is one round.
const ROUND: usize = 1 << 18;

/// The source of a support that is a root.
const ROOT: u32 = u32::MAX;

/// An object, and the source of its support.
#[derive(Clone, Copy)]
struct Find {
    object: u32,
    source: u32,
}

/// Offers by the rank that they give.
type Offers = [Vec<Find>; 6];

/// A bit for each of some objects.
struct Bits(Vec<u64>);

impl Bits {
    fn new(count: usize) -> Bits {
        Bits(zeros_u64(count / 64 + 1))
    }

    fn has(&self, i: u32) -> bool {
        self.0[i as usize / 64] >> (i % 64) & 1 == 1
    }

    /// Sets a bit, and tells whether it wasn't set.
    #[inline(always)]
    fn add(&mut self, i: u32) -> bool {
        let word = &mut self.0[i as usize / 64];
        let before = *word;
        *word = before | 1 << (i % 64);
        *word != before
    }
}

/// A part of the objects: `len` of them from the first on. All that is kept of them is written by one worker.
struct Part {
    first: u32,
    len: u32,
    is_reached: Bits,
    /// The objects reached, in order: the number in the lower half, in the upper half the source of the support. A
    /// support's place is that of the source's first target that is the object.
    order: Vec<u64>,
    /// What has still to pass the rank on.
    stack: Vec<u32>,
    /// Which objects of other parts were handed over, and those of this round.
    is_handed: Bits,
    handed: Vec<Find>,
    offers: Offers,
    /// Whether each class was looked at.
    has_class: Vec<bool>,
    /// The recorded bytes of the objects that were gone over in this rank.
    bytes: u64,
}

impl Part {
    /// The part of these objects, with no bits for others where there are none.
    fn new(graph: &Graph, objects: Range<usize>) -> Part {
        let count = graph.numbers.count;
        let others = if objects.len() == count { 0 } else { count };
        Part {
            first: objects.start as u32,
            len: objects.len() as u32,
            is_reached: Bits::new(objects.len()),
            order: room_u64(objects.len()),
            stack: Vec::new(),
            is_handed: Bits::new(others),
            handed: Vec::new(),
            offers: Offers::default(),
            has_class: vec![false; graph.classes.len()],
            bytes: 0,
        }
    }

    /// Reaches an object of this part, unless it is reached already, or hands one of another part over, once.
    #[inline(always)]
    fn reach(&mut self, object: u32, source: u32) {
        let place = object.wrapping_sub(self.first);
        if place < self.len {
            if self.is_reached.add(place) {
                self.order.push(u64::from(object) | u64::from(source) << 32);
                self.stack.push(object);
            }
        } else if self.is_handed.add(object) {
            self.handed.push(Find { object, source });
        }
    }

    /// Notes an offer of a lesser rank, unless the object is known to be reached.
    fn offer(&mut self, rank: u8, object: u32, source: u32) {
        let place = object.wrapping_sub(self.first);
        let is_known = if place < self.len {
            self.is_reached.has(place)
        } else {
            self.is_handed.has(object)
        };
        if !is_known {
            self.offers[rank as usize].push(Find { object, source });
        }
    }

    /// Adds the recorded bytes of an object. If it is an instance, its class is reached.
    #[inline(always)]
    fn relax_class(&mut self, graph: &Graph, rank: u8, source: u32, row: Row) {
        match row.kind() {
            Err(bytes) => self.bytes += u64::from(bytes),
            Ok(number) => {
                let class = graph.classes[number as usize];
                self.bytes += u64::from(class.bytes);
                if rank >= FINAL && !self.has_class[number as usize] {
                    self.has_class[number as usize] = true;
                    self.reach(class.object, source);
                }
            }
        }
    }

    /// Passes on the rank of an object to its targets. What its referent gets of a lesser rank is offered.
    #[inline(always)]
    fn relax_targets(&mut self, graph: &Graph, rank: u8, source: u32, row: Row) {
        let Some(start) = row.start() else {
            return;
        };
        let targets = &graph.rows.targets;
        let mut place = start as usize;
        let mut target = targets[place];
        let given = row.referent_rank();
        if given != 0 && given < rank {
            self.offer(given, target & !LAST, source);
            if target & LAST != 0 {
                return;
            }
            place += 1;
            target = targets[place];
        }
        loop {
            self.reach(target & !LAST, source);
            if target & LAST != 0 {
                return;
            }
            place += 1;
            target = targets[place];
        }
    }

    /// Passes on the rank of at most `most` objects.
    fn relax(&mut self, graph: &Graph, rank: u8, most: usize) {
        for _ in 0..most {
            let Some(source) = self.stack.pop() else {
                return;
            };
            let row = Row(graph.rows.rows[source as usize]);
            self.relax_class(graph, rank, source, row);
            if rank >= FINAL {
                self.relax_targets(graph, rank, source, row);
            }
        }
    }
}

/// What is reached of a part: the order, and which part of it has each rank.
struct Order {
    order: Vec<u64>,
    ranks: [Range<usize>; 6],
}

/// What is reached, and of each rank how many objects, with their recorded bytes.
pub struct Reached {
    orders: Vec<Order>,
    pub ranks: [(usize, u64); 6],
}

impl Reached {
    /// The rank of an object.
    pub fn rank(&self, object: u32) -> u8 {
        for Order { order, ranks } in &self.orders {
            if let Some(at) = order.iter().position(|find| *find as u32 == object) {
                let has_it = |rank: &u8| ranks[*rank as usize].contains(&at);
                return (PHANTOM..=STRONG).find(has_it).unwrap();
            }
        }
        UNREACHABLE
    }
}

/// The search: the parts of all objects, at most one for each worker.
struct Search<'a> {
    graph: &'a Graph,
    parts: Vec<Part>,
    /// How many objects each part but the last has.
    part_len: usize,
}

impl Search<'_> {
    fn new(graph: &Graph, workers: usize) -> Search<'_> {
        let count = graph.numbers.count;
        let part_len = count.div_ceil(workers).max(ROUND);
        let starts = (0..count).step_by(part_len);
        let parts = starts.map(|start| Part::new(graph, start..count.min(start + part_len)));
        Search {
            graph,
            parts: parts.collect(),
            part_len,
        }
    }

    /// Reaches these objects, each by its part.
    fn hand_out(&mut self, finds: Vec<Find>) {
        for Find { object, source } in finds {
            self.parts[object as usize / self.part_len].reach(object, source);
        }
    }

    /// Reaches all objects of a rank that those which wait lead to.
    fn relax_rank(&mut self, rank: u8) {
        while self.parts.iter().any(|part| !part.stack.is_empty()) {
            let graph = self.graph;
            if let [part] = self.parts.as_mut_slice() {
                part.relax(graph, rank, usize::MAX);
                continue;
            }
            thread::scope(|scope| {
                for part in &mut self.parts {
                    scope.spawn(move || part.relax(graph, rank, ROUND));
                }
            });
            let handed: Vec<_> = self
                .parts
                .iter_mut()
                .map(|part| take(&mut part.handed))
                .collect();
            handed.into_iter().for_each(|finds| self.hand_out(finds));
        }
    }

    /// Reaches all objects, by falling ranks, beginning with what the roots hold.
    fn run(mut self) -> Reached {
        let numbers = &self.graph.numbers;
        let held = self.graph.roots.iter().filter_map(|id| numbers.get(*id));
        let held = held
            .map(|object| Find {
                object,
                source: ROOT,
            })
            .collect();
        self.hand_out(held);
        let mut ranks = [(0, 0); 6];
        let mut ends: Vec<[Range<usize>; 6]> = vec![Default::default(); self.parts.len()];
        let mut begins = vec![0; self.parts.len()];
        for rank in (PHANTOM..=STRONG).rev() {
            let at = rank as usize;
            let offers: Vec<_> = self
                .parts
                .iter_mut()
                .map(|part| take(&mut part.offers[at]))
                .collect();
            offers.into_iter().for_each(|finds| self.hand_out(finds));
            self.relax_rank(rank);
            for (i, part) in self.parts.iter_mut().enumerate() {
                let end = part.order.len();
                ends[i][at] = begins[i]..end;
                ranks[at].0 += end - begins[i];
                ranks[at].1 += take(&mut part.bytes);
                begins[i] = end;
            }
        }
        let orders = self.parts.into_iter().zip(ends);
        let orders = orders.map(|(part, ranks)| Order {
            order: part.order,
            ranks,
        });
        Reached {
            orders: orders.collect(),
            ranks,
        }
    }
}

/// What is reached of a dump with no edit, with its strengths.
pub fn reach(graph: &Graph, workers: usize) -> Reached {
    Search::new(graph, workers).run()
}
