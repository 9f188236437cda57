//! Which situations does a pattern of a waiting step leave over?
//!
//! Safe functions over the archive `libpheasantry.a`, whose functions are proved: each reply is the one
//! that the rules define, for every input. What stands in this crate is not proved, but tested.
//! `docs/FORMAT.md` of the repository has the rules: how vocabularies, terms, listings and books are written
//! in bytes, and why a call is refused.
//!
//! The bench example: over the words wait(button, queue) 0, up 1, down 2, free 3, full 4 and done 5, the
//! pattern wait(up, free) leaves over done, wait(down, _) and wait(up, full).
//!
//! ```
//! use pheasantry::Vocabulary;
//!
//! let vocabulary = Vocabulary::new(&[3, 6, 0, 3, 1, 2, 1, 0, 1, 0, 2, 0, 2, 0, 0, 0])?;
//! let wait_up_free = [0, 0, 3, 1, 0, 3, 0];
//! let leftovers = vocabulary.leftovers(&wait_up_free)?;
//! assert_eq!(leftovers, [vec![0, 5, 0], vec![0, 0, 1, 2, 0], vec![0, 0, 3, 1, 0, 4, 0]]);
//! # Ok::<(), pheasantry::Refusal>(())
//! ```
//!
//! A step with several patterns has a book, for which [`book_leftovers`] gives what no pattern of it fits.
//!
//! A [`Vocabulary`] is checked once, and its methods are not refused for it. The functions of the crate
//! are the archive's calls as they are: they take a vocabulary's bytes, in order or not.
//!
//! A name is a `u8` everywhere: its number 0 to 63, not the byte 128 to 191 that stands for it in a
//! pattern.
//!
//! # The archive
//!
//! `make`, run at the repository's root, proves the library and writes the archive into
//! `target/staticlib`, where this crate looks for it. Another folder, such as the one that `make
//! install` put it into, is named in the environment variable `PHEASANTRY_ARCHIVE_DIR` when the crate is
//! built. The archive is for x86-64 Linux. A call takes at most 16 KiB of stack, and one over a book 160
//! KiB.
#![deny(missing_docs)]
#![warn(clippy::missing_errors_doc, clippy::must_use_candidate)]

mod answer;
mod archive;
mod calls;
mod refusal;
mod vocabulary;

pub use answer::{entries, Checked, Listed, Spans};
pub use calls::{
    book_leftovers, check_term, check_vocabulary, fill, leftovers, list, list_book, match_into,
    match_pattern, part,
};
pub use refusal::{Input, Reason, Refusal};
pub use vocabulary::Vocabulary;

/// The length of a table of match: an offset and a length for each of 64 names.
pub const TABLE_LENGTH: usize = 128;

/// The most bytes that [`list_book`] writes.
pub const BOOK_LISTING_LENGTH: usize = 32_768;
