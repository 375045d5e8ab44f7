//! A hash table of IDs and their numbers, for IDs that are few.

const EMPTY: u32 = u32::MAX;

/// IDs in the order of their numbers, with a hash table of the numbers.
pub struct Ids {
    pub ids: Vec<u64>,
    table: Vec<u32>,
}

impl Ids {
    pub fn with_room(count: usize) -> Ids {
        let cells = (2 * count + 2).next_power_of_two();
        Ids {
            ids: Vec::with_capacity(count),
            table: vec![EMPTY; cells],
        }
    }

    /// Where the ID stands in the table, or the empty cell where it would.
    #[inline]
    fn cell(&self, id: u64) -> usize {
        let mask = self.table.len() - 1;
        let hash = id.wrapping_mul(0x9e37_79b9_7f4a_7c15);
        let mut at = (hash >> 32) as usize & mask;
        while self.table[at] != EMPTY && self.ids[self.table[at] as usize] != id {
            at = (at + 1) & mask;
        }
        at
    }

    /// Whether the ID is new.
    pub fn insert(&mut self, id: u64) -> bool {
        let cell = self.cell(id);
        let is_new = self.table[cell] == EMPTY;
        if is_new {
            self.table[cell] = self.ids.len() as u32;
            self.ids.push(id);
        }
        is_new
    }

    #[inline]
    pub fn get(&self, id: u64) -> Option<u32> {
        let found = self.table[self.cell(id)];
        (found != EMPTY).then_some(found)
    }
}

/// The first of the items of each ID, with the numbers of the IDs.
pub fn first_of_each<'a, T>(
    items: impl Iterator<Item = &'a T> + Clone,
    id: impl Fn(&T) -> u64,
) -> (Ids, Vec<&'a T>) {
    let (mut ids, mut firsts) = (Ids::with_room(items.clone().count()), Vec::new());
    for item in items {
        if ids.insert(id(item)) {
            firsts.push(item);
        }
    }
    (ids, firsts)
}
