//! The same listing in the plainest way: a loop over the patterns, in it one
//! over the entries, each of which is bytes and is written by itself.

use super::pattern::Kinds;
use super::PATTERN;
use crate::vocabulary::ONES;
use crate::{accepted, Refusal, Reply};

/// The first name; words are below.
const NAME: u8 = 128;

/// The most bytes of all entries.
const LISTING: usize = 32_768;

/// An entry is too long, or all of them are.
struct TooLong;

/// How many bytes the term at the front takes.
fn size(bytes: &[u8]) -> usize {
    let (mut at, mut due) = (0, 1);
    while due > 0 {
        due -= 1;
        if bytes[at] < NAME {
            due += ONES[bytes[at + 1] as usize] as usize;
            at += 1;
        }
        at += 1;
    }
    at
}

/// Whether an entry and a pattern, each of which some situation fits, share
/// one. Both are taken from their words on, and what is passed of them is taken
/// off.
fn share(entry: &mut &[u8], pattern: &mut &[u8]) -> bool {
    let (e, p) = (*entry, *pattern);
    if e[0] >= NAME || p[0] >= NAME {
        *entry = &e[size(e)..];
        *pattern = &p[size(p)..];
        return true;
    }
    if e[0] != p[0] {
        return false;
    }
    (*entry, *pattern) = (&e[2..], &p[2..]);
    let mut left = e[1] | p[1];
    while left != 0 {
        let bit = left & left.wrapping_neg();
        if e[1] & p[1] & bit != 0 {
            if !share(entry, pattern) {
                return false;
            }
        } else if e[1] & bit != 0 {
            *entry = &entry[size(entry)..];
        } else {
            *pattern = &pattern[size(pattern)..];
        }
        left &= !bit;
    }
    true
}

/// An entry that is replaced by its leftovers against a pattern.
struct Cut<'a> {
    kinds: &'a Kinds,
    entry: &'a [u8],
    pattern: &'a [u8],
    /// What both allow, as far as they are passed, below the places of the entry.
    both: Vec<u8>,
    listing: &'a mut Vec<u8>,
}

impl Cut<'_> {
    /// Lists the other words of a kind, with what stands before and behind.
    fn list(&mut self, word: u8) -> Result<(), TooLong> {
        let mut others = self.kinds.others(word);
        while others != 0 {
            if self.both.len() + 2 + self.entry.len() > PATTERN {
                return Err(TooLong);
            }
            self.listing.extend_from_slice(&self.both);
            self.listing.extend([others.trailing_zeros() as u8, 0]);
            self.listing.extend_from_slice(self.entry);
            if self.listing.len() > LISTING {
                return Err(TooLong);
            }
            others &= others - 1;
        }
        Ok(())
    }

    /// A place that is written in the entry, in the pattern, or in both.
    fn place(&mut self, open: bool, gap: bool) -> Result<(), TooLong> {
        if gap || self.pattern[0] >= NAME {
            self.pattern = &self.pattern[!gap as usize..];
            if !open {
                let (term, behind) = self.entry.split_at(size(self.entry));
                self.both.extend_from_slice(term);
                self.entry = behind;
            }
            return Ok(());
        }
        let (word, other) = (self.pattern[0], self.pattern[1]);
        self.pattern = &self.pattern[2..];
        let mut mine = 0;
        if open {
            self.list(word)?;
        } else {
            mine = self.entry[1];
            self.entry = &self.entry[2..];
        }
        let map = self.both.len() + 1;
        self.both.extend([word, 0]);
        let (mut left, mut kept) = (mine | other, 0);
        while left != 0 {
            let bit = left & left.wrapping_neg();
            left &= !bit;
            self.both[map] = kept | bit | mine & left;
            let before = self.both.len();
            self.place(mine & bit == 0, other & bit == 0)?;
            if self.both.len() > before {
                kept |= bit;
            }
        }
        self.both[map] = kept;
        Ok(())
    }
}

/// Puts what is left of the entries into a new listing.
fn strike(kinds: &Kinds, mut entries: &[u8], pattern: &[u8]) -> Result<Vec<u8>, TooLong> {
    let mut listing = Vec::with_capacity(2 * entries.len());
    while let [kind, rest @ ..] = entries {
        let (mut entry, behind) = entries.split_at(1 + size(rest));
        entries = behind;
        if share(&mut &entry[1..], &mut &pattern[1..]) {
            let open = entry[1] >= NAME;
            entry = if open { &[] } else { &entry[1..] };
            let mut cut = Cut {
                kinds,
                entry,
                pattern: &pattern[1..],
                both: vec![*kind],
                listing: &mut listing,
            };
            cut.place(open, false)?;
        } else {
            listing.extend_from_slice(entry);
        }
        if listing.len() > LISTING {
            return Err(TooLong);
        }
    }
    Ok(listing)
}

/// Lists the leftovers of a book that is in order.
pub fn list_read(kinds: &Kinds, book: &[u8], out: &mut [u8]) -> Result<Reply, Refusal> {
    let mut listing = Vec::new();
    if kinds.has(book[1]) {
        listing.extend([book[1], 255]);
    }
    let mut rest = &book[1..];
    for number in 0..book[0] {
        let (pattern, behind) = rest.split_at(1 + size(&rest[1..]));
        rest = behind;
        // One that no situation fits changes nothing.
        if !kinds.fits(pattern) {
            continue;
        }
        listing = strike(kinds, &listing, pattern).map_err(|_| [26, 5, number as u64])?;
    }
    let Some(out) = out.get_mut(..listing.len()) else {
        return Err([20, 3, listing.len() as u64]);
    };
    out.copy_from_slice(&listing);
    let (mut entries, mut rest) = (0, &listing[..]);
    while !rest.is_empty() {
        rest = &rest[1 + size(&rest[1..])..];
        entries += 1;
    }
    Ok(accepted(entries, listing.len() as u64))
}
