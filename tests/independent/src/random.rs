//! A small random source, the same everywhere for one seed.

#[derive(Clone, Debug)]
pub struct Random {
    state: u64,
}

impl Random {
    pub fn new(seed: u64) -> Random {
        Random { state: seed }
    }

    /// The next 64 bits (splitmix).
    pub fn bits(&mut self) -> u64 {
        self.state = self.state.wrapping_add(0x9e37_79b9_7f4a_7c15);
        let mut mixed = self.state;
        mixed = (mixed ^ (mixed >> 30)).wrapping_mul(0xbf58_476d_1ce4_e5b9);
        mixed = (mixed ^ (mixed >> 27)).wrapping_mul(0x94d0_49bb_1331_11eb);
        mixed ^ (mixed >> 31)
    }

    /// A number below the limit, which is not 0.
    pub fn below(&mut self, limit: u64) -> u64 {
        self.bits() % limit
    }

    pub fn byte(&mut self) -> u8 {
        self.bits() as u8
    }

    pub fn one_in(&mut self, chances: u64) -> bool {
        self.below(chances) == 0
    }

    pub fn percent(&mut self, percent: u64) -> bool {
        self.below(100) < percent
    }

    /// One of the row, if it is not empty.
    pub fn choose<T: Copy>(&mut self, row: &[T]) -> Option<T> {
        if row.is_empty() {
            return None;
        }
        Some(row[self.below(row.len() as u64) as usize])
    }

    /// One of a row that is not empty, each as likely as its weight says.
    pub fn weighted<T: Copy>(&mut self, row: &[(u64, T)]) -> T {
        let total: u64 = row.iter().map(|(weight, _)| weight).sum();
        let mut place = self.below(total);
        for &(weight, item) in row {
            if place < weight {
                return item;
            }
            place -= weight;
        }
        row[row.len() - 1].1
    }
}
