//! The lines of counts and totals, as `hdesk stat` prints them.

use crate::classes::Repeats;
use crate::graph::Graph;
use crate::strengths::Reached;
use crate::values::{NAMES, PHANTOM, STRONG, UNREACHABLE};

/// The lines of counts.
pub fn print_counts(graph: &Graph) {
    let Repeats {
        objects,
        texts,
        loads,
    } = graph.repeats;
    let tally = &graph.rows.tally;
    println!("objects {}", graph.numbers.count);
    println!("roots {}", graph.roots.len());
    println!("edges {}", tally.edges);
    println!("unresolved {}", tally.unresolved);
    println!("repeated {objects} {texts} {loads}");
    println!("opaque {}", tally.opaque);
}

/// The lines of totals, a strength each.
pub fn print_totals(graph: &Graph, reached: &Reached) {
    let mut left = (graph.numbers.count, graph.rows.tally.bytes);
    for rank in (PHANTOM..=STRONG).rev() {
        let (count, bytes) = reached.ranks[rank as usize];
        println!("{} {count} {bytes}", NAMES[rank as usize]);
        left = (left.0 - count, left.1 - bytes);
    }
    println!("{} {} {}", NAMES[UNREACHABLE as usize], left.0, left.1);
}
