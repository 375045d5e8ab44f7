//! Large lists of zeros, in large pages where the system has them.

use std::sync::atomic::AtomicU64;

/// The advice that a range of memory be kept in large pages.
const HUGE_PAGES: i32 = 14;
const PAGE_LEN: usize = 4096;

unsafe extern "C" {
    fn madvise(start: *mut u8, len: usize, advice: i32) -> i32;
}

/// Asks for large pages for the memory of a list. Nothing depends on whether they are given.
fn ask_for_huge_pages<T>(list: &mut [T]) {
    let range = list.as_mut_ptr_range();
    let start = (range.start as usize).next_multiple_of(PAGE_LEN);
    let end = range.end as usize / PAGE_LEN * PAGE_LEN;
    if cfg!(target_os = "linux") && start < end {
        // SAFETY: the pages lie within the list, and this advice leaves what they hold.
        unsafe { madvise(start as *mut u8, end - start, HUGE_PAGES) };
    }
}

/// A list of `count` zeros. Its memory is taken where it is first written.
pub fn zeros_u32(count: usize) -> Vec<u32> {
    let mut list = vec![0; count];
    ask_for_huge_pages(&mut list);
    list
}

/// The same of longer numbers.
pub fn zeros_u64(count: usize) -> Vec<u64> {
    let mut list = vec![0; count];
    ask_for_huge_pages(&mut list);
    list
}

/// An empty list with room for `count`. Its memory is taken where it is first written.
pub fn room_u64(count: usize) -> Vec<u64> {
    let mut list = Vec::with_capacity(count);
    ask_for_huge_pages(list.spare_capacity_mut());
    list
}

/// A list as one that several threads may write at once.
pub fn shared(list: &mut [u64]) -> &[AtomicU64] {
    const { assert!(align_of::<AtomicU64>() == align_of::<u64>()) };
    let list: *mut [u64] = list;
    // SAFETY: both have the same size and alignment, and the list is borrowed for as long as the result.
    unsafe { &*(list as *const [AtomicU64]) }
}
