//! IDs as bits: pages of possible IDs, and a bit for each that is an object's.

use std::collections::HashMap;

/// A word has this many bits for IDs, as a power of 2.
pub const WORD_BITS: u32 = 5;

/// How many possible IDs a page has, as a power of 2, and how many where few of them are objects'.
const LARGE_PAGE_BITS: u32 = 16;

/// The IDs in an order in which those that are multiples of 8 stand side by side, and so do those that are one more,
/// and so on.
#[inline(always)]
pub fn address(id: u64) -> u64 {
    id.rotate_right(3)
}

/// The IDs that a worker has met.
pub struct Pages {
    pub page_bits: u32,
    /// The numbers of the pages that have IDs, as they were met. All have equally many words.
    pub keys: Vec<u64>,
    pub words: Vec<u32>,
    starts: HashMap<u64, usize>,
    /// The page of the last ID, and where its words begin.
    last: (u64, usize),
    /// How many words there may be before the pages are made small.
    word_limit: usize,
}

impl Pages {
    /// No IDs yet. So many bytes are too much for them, as long as smaller pages can help.
    pub fn new(byte_limit: usize) -> Pages {
        Pages {
            page_bits: LARGE_PAGE_BITS,
            keys: Vec::new(),
            words: Vec::new(),
            starts: HashMap::new(),
            last: (u64::MAX, 0),
            word_limit: byte_limit / 8,
        }
    }

    pub fn page_words(&self) -> usize {
        1 << (self.page_bits - WORD_BITS)
    }

    #[inline(always)]
    pub fn insert(&mut self, id: u64) {
        let address = address(id);
        if address >> self.page_bits != self.last.0 {
            self.turn_to(address);
        }
        self.set(address);
    }

    /// Sets the bit of an address in the page turned to.
    #[inline(always)]
    fn set(&mut self, address: u64) {
        let word = (address >> WORD_BITS) as usize & (self.page_words() - 1);
        self.words[self.last.1 + word] |= 1 << (address % 32);
    }

    /// Turns to the page of an address, which can be new.
    fn turn_to(&mut self, address: u64) {
        let mut key = address >> self.page_bits;
        let is_full = self.words.len() > self.word_limit && self.page_bits > WORD_BITS;
        if is_full && !self.starts.contains_key(&key) {
            self.make_small();
            key = address >> self.page_bits;
        }
        let end = self.words.len();
        let start = *self.starts.entry(key).or_insert(end);
        if start == end {
            self.keys.push(key);
            self.words.resize(end + self.page_words(), 0);
        }
        self.last = (key, start);
    }

    /// Makes the pages as small as a word. Then only those words are left that have an ID.
    pub fn make_small(&mut self) {
        if self.page_bits == WORD_BITS {
            return;
        }
        let mut small = Pages::new(0);
        small.page_bits = WORD_BITS;
        for (key, words) in self.keys.iter().zip(self.words.chunks(self.page_words())) {
            let first = key << (self.page_bits - WORD_BITS);
            for (i, word) in words.iter().enumerate().filter(|(_, word)| **word != 0) {
                small.turn_to((first + i as u64) << WORD_BITS);
                small.words[small.last.1] = *word;
            }
        }
        *self = small;
    }
}
