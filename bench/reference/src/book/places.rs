//! The places of an entry and of a pattern, both at once.

/// The places still due at one node.
#[derive(Clone, Copy, Default)]
pub struct Due {
    pub node: u32,
    entry: u32,
    pattern: u32,
}

/// Goes through the places that are written in an entry or in a pattern.
pub struct Places<'a> {
    pub due: Due,
    /// The nodes around that one of which some places are still due.
    around: &'a mut [Due; 32],
    depth: usize,
}

/// A place, and whether the entry and the pattern have a term there.
pub struct Place {
    pub bit: u32,
    pub entry: bool,
    pub pattern: bool,
}

impl<'a> Places<'a> {
    /// Begins with the root, as the lowest place of a node 0 above it; the entry
    /// 255 has no term there.
    #[inline(always)]
    pub fn new(entry: bool, around: &'a mut [Due; 32]) -> Self {
        let due = Due {
            node: 0,
            entry: entry as u32,
            pattern: 1,
        };
        Places {
            due,
            around,
            depth: 0,
        }
    }

    /// The next place, or none if all are passed.
    #[inline(always)]
    pub fn next(&mut self) -> Option<Place> {
        if self.due.entry | self.due.pattern == 0 {
            self.depth = self.depth.checked_sub(1)?;
            self.due = self.around[self.depth & 31];
        }
        let any = self.due.entry | self.due.pattern;
        let bit = any & any.wrapping_neg();
        let place = Place {
            bit,
            entry: self.due.entry & bit != 0,
            pattern: self.due.pattern & bit != 0,
        };
        self.due.entry &= !bit;
        self.due.pattern &= !bit;
        Some(place)
    }

    /// Goes into the node at the place last given.
    #[inline(always)]
    pub fn enter(&mut self, node: usize, entry: u8, pattern: u8) {
        if self.due.entry | self.due.pattern != 0 {
            self.around[self.depth & 31] = self.due;
            self.depth += 1;
        }
        self.due = Due {
            node: node as u32,
            entry: entry as u32,
            pattern: pattern as u32,
        };
    }
}
