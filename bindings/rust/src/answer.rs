//! What accepted calls answer.
use crate::TABLE_LENGTH;
use std::ops::Range;

/// What the check of an accepted term says.
#[derive(Clone, Copy, Debug, PartialEq, Eq)]
#[non_exhaustive]
pub struct Checked {
    /// The number of words; names are not counted.
    pub words: usize,
    /// The deepest level; the root is level 1.
    pub deepest: usize,
    /// Whether the term is complete: it has no name, no 255, and no short map, which lacks a bit of its
    /// word's place map.
    pub complete: bool,
    /// The offset of the first name, 255 or short map, and of a complete term its length. Both count the
    /// kind byte.
    pub gap: usize,
}

/// How much [`list`](crate::list) or [`list_book`](crate::list_book) wrote.
#[derive(Clone, Copy, Debug, PartialEq, Eq)]
#[must_use = "only the first bytes of the lent slice, as many as are said, are the listing"]
#[non_exhaustive]
pub struct Listed {
    /// The number of entries.
    pub entries: usize,
    /// The number of bytes that they take.
    pub bytes: usize,
}

/// Where the part that each name covers stands in the situation.
#[derive(Clone, Debug, PartialEq, Eq)]
pub struct Spans {
    pub(crate) table: [u16; TABLE_LENGTH],
}

impl Spans {
    /// The range of the situation's bytes that a name covers, or nothing where the name does not
    /// stand in the pattern.
    #[must_use]
    pub fn get(&self, name: u8) -> Option<Range<usize>> {
        let at = 2 * usize::from(name);
        let offset = usize::from(*self.table.get(at)?);
        let length = usize::from(self.table[at + 1]);
        (length > 0).then_some(offset..offset + length)
    }

    /// The names of the pattern, in ascending order, each with its range.
    pub fn iter(&self) -> impl Iterator<Item = (u8, Range<usize>)> + '_ {
        (0..=63).filter_map(|name| Some((name, self.get(name)?)))
    }

    /// The table as match filled it: the offset of name n at 2n, its length at 2n + 1.
    #[must_use]
    pub fn table(&self) -> &[u16; TABLE_LENGTH] {
        &self.table
    }
}

/// Takes a listing apart: the entries in the bytes that [`list`](crate::list) or
/// [`list_book`](crate::list_book) wrote, `&out[..listed.bytes]`. Bytes behind them would be taken for more
/// entries.
///
/// ```
/// let listing = [0, 5, 0, 0, 0, 1, 2, 0, 0, 0, 3, 1, 0, 4, 0];
/// let lengths: Vec<usize> = pheasantry::entries(&listing).map(<[u8]>::len).collect();
/// assert_eq!(lengths, [3, 5, 7]);
/// ```
pub fn entries(listing: &[u8]) -> impl Iterator<Item = &[u8]> {
    let mut rest = listing;
    std::iter::from_fn(move || {
        if rest.is_empty() {
            return None;
        }
        let (entry, behind) = rest.split_at(entry_length(rest));
        rest = behind;
        Some(entry)
    })
}

// Where the whole pattern at the front of some bytes ends: a kind byte, then one term, in which a word
// is followed by its written map and by as many terms as that has ones. It is never beyond the bytes.
fn entry_length(bytes: &[u8]) -> usize {
    let mut at = 1;
    let mut due = 1;
    while due > 0 && at < bytes.len() {
        due -= 1;
        if bytes[at] < 128 {
            due += bytes.get(at + 1).map_or(0, |map| map.count_ones());
            at += 1;
        }
        at += 1;
    }
    at.min(bytes.len())
}
