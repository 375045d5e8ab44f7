//! Shares of the segments, and the workers that take one after another.

use std::ops::Range;
use std::sync::Mutex;
use std::thread;

/// How many shares there are for each worker, so that none has to wait long for the last.
const SHARES_PER_WORKER: usize = 4;

/// How many of the segments, from the first on, are in the first of `shares` shares: those whose middle lies within its
/// part of all their bytes. A last share takes all.
fn share_len(segments: &[Range<usize>], shares: usize) -> usize {
    let bytes: usize = segments.iter().map(Range::len).sum();
    let mut before = 0;
    let is_in_part = |segment: &&Range<usize>| {
        let twice_middle = 2 * before + segment.len();
        before += segment.len();
        twice_middle * shares <= 2 * bytes
    };
    segments.iter().take_while(is_in_part).count()
}

/// Shares the segments out in file order, by their bytes. No share is empty.
pub fn share_out(mut segments: &[Range<usize>], workers: usize) -> Vec<&[Range<usize>]> {
    let mut shares = Vec::new();
    for left in (1..=workers * SHARES_PER_WORKER).rev() {
        let (share, rest) = segments.split_at(share_len(segments, left));
        if !share.is_empty() {
            shares.push(share);
        }
        segments = rest;
    }
    shares
}

/// Lets `workers` workers take the tasks, in their order. Each begins with what `begin` gives and keeps it. Gives what
/// they have kept at the end.
pub fn run_workers<T: Send, W: Send>(
    tasks: Vec<T>,
    workers: usize,
    begin: impl Fn() -> W + Sync,
    run: impl Fn(&mut W, T) + Sync,
) -> Vec<W> {
    let tasks = Mutex::new(tasks.into_iter());
    let work = || {
        let mut kept = begin();
        loop {
            let task = tasks.lock().unwrap().next();
            match task {
                Some(task) => run(&mut kept, task),
                None => return kept,
            }
        }
    };
    thread::scope(|scope| {
        let started: Vec<_> = (0..workers).map(|_| scope.spawn(work)).collect();
        let ended = started.into_iter().map(|worker| worker.join().unwrap());
        ended.collect()
    })
}
