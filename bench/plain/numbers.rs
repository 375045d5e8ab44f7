//! The numbers of objects, by their IDs: how many bits of IDs are set before the ID's own.

use crate::ids::Ids;
use crate::memory::zeros_u64;
use crate::pages::{Pages, WORD_BITS, address};

/// How many pages there may be between the first and the last for each that has objects.
const MOST_SPREAD: usize = 16;

/// Where the words of a page begin. Of those without objects it is the page of zeros, or it isn't known.
enum Directory {
    Flat { first: u64, pages: Vec<u32> },
    Hashed(Ids),
}

/// The numbers of objects. They rise with the IDs, where these are multiples of 8.
pub struct Numbers {
    pub count: usize,
    page_bits: u32,
    directory: Directory,
    /// Of each word the bits in its lower half, and in its upper half how many are set before it. The first page is
    /// that of zeros.
    words: Vec<u64>,
}

impl Directory {
    /// The directory of pages that follow the page of zeros, by their rising keys.
    fn new(keys: &[u64]) -> Directory {
        let first = keys.first().map_or(0, |key| *key);
        let span = keys.last().map_or(0, |key| (key - first) as usize + 1);
        if span <= MOST_SPREAD * keys.len() {
            let mut pages = vec![0; span];
            for (i, key) in keys.iter().enumerate() {
                pages[(key - first) as usize] = i as u32 + 1;
            }
            return Directory::Flat { first, pages };
        }
        let mut ids = Ids::with_room(keys.len());
        for key in keys {
            ids.insert(*key);
        }
        Directory::Hashed(ids)
    }

    #[inline(always)]
    fn page(&self, key: u64) -> Option<u32> {
        match self {
            Directory::Flat { first, pages } => {
                pages.get(key.wrapping_sub(*first) as usize).copied()
            }
            Directory::Hashed(ids) => ids.get(key).map(|page| page + 1),
        }
    }
}

impl Numbers {
    /// The numbers of the IDs that several workers have met.
    pub fn new(mut parts: Vec<Pages>) -> Numbers {
        if parts.iter().any(|part| part.page_bits == WORD_BITS) {
            parts.iter_mut().for_each(Pages::make_small);
        }
        let page_words = parts[0].page_words();
        let mut found = Vec::new();
        for part in &parts {
            found.extend(part.keys.iter().copied().zip(part.words.chunks(page_words)));
        }
        found.sort_by_key(|(key, _)| *key);
        let mut keys: Vec<u64> = found.iter().map(|(key, _)| *key).collect();
        keys.dedup();
        let mut words = zeros_u64((keys.len() + 1) * page_words);
        let mut page = 0;
        for (key, part) in found {
            page += usize::from(page == 0 || keys[page - 1] != key);
            for (word, bits) in words[page * page_words..].iter_mut().zip(part) {
                *word |= u64::from(*bits);
            }
        }
        Numbers {
            count: count_before(&mut words),
            page_bits: parts[0].page_bits,
            directory: Directory::new(&keys),
            words,
        }
    }

    #[inline(always)]
    pub fn get(&self, id: u64) -> Option<u32> {
        let address = address(id);
        let page = self.directory.page(address >> self.page_bits)?;
        let shift = self.page_bits - WORD_BITS;
        let place = (address >> WORD_BITS) as usize & ((1 << shift) - 1);
        let word = self.words[((page as usize) << shift) + place];
        let bit = 1 << (address % 32);
        let before = (word as u32 & (bit - 1)).count_ones();
        (word as u32 & bit != 0).then_some((word >> 32) as u32 + before)
    }
}

/// Notes in each word how many bits are set before it, and gives how many are set in all.
fn count_before(words: &mut [u64]) -> usize {
    let mut before = 0;
    for word in words {
        let bits = u64::from((*word as u32).count_ones());
        *word |= before << 32;
        before += bits;
    }
    before as usize
}
