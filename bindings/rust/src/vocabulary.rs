//! A vocabulary that is checked once.
use crate::{calls, Checked, Listed, Refusal, Spans};

/// A vocabulary that was checked.
///
/// Its methods are the functions of the crate without their first argument. They are not refused for the
/// vocabulary: 1 to 5 come from [`Vocabulary::new`] alone.
///
/// The archive checks the vocabulary again at each call, since its calls take bytes and keep nothing. The
/// type spares its user a refusal, not the time.
///
/// ```
/// use pheasantry::{Reason, Vocabulary};
///
/// let vocabulary = Vocabulary::new(&[1, 3, 0, 0, 0, 0, 0, 3, 0, 0])?;
/// let pair_n0_n0 = [0, 2, 3, 0x80, 0x80];
/// let spans = vocabulary.match_pattern(&pair_n0_n0, &[0, 2, 3, 0, 0, 0, 0])?.unwrap();
/// assert_eq!(spans.get(0), Some(3..5));
/// assert_eq!(vocabulary.leftovers(&pair_n0_n0).unwrap_err().reason(), Reason::Repeated);
///
/// let refusal = Vocabulary::new(&[1, 1, 0]).unwrap_err();
/// assert_eq!((refusal.number(), refusal.place()), (3, 3));
/// # Ok::<(), pheasantry::Refusal>(())
/// ```
#[derive(Clone, Copy, Debug, PartialEq, Eq, Hash)]
pub struct Vocabulary<'a> {
    bytes: &'a [u8],
}

impl<'a> Vocabulary<'a> {
    /// Checks the bytes of a vocabulary, and keeps them borrowed.
    ///
    /// # Errors
    ///
    /// Refused with 1 to 5.
    pub fn new(bytes: &'a [u8]) -> Result<Vocabulary<'a>, Refusal> {
        calls::check_vocabulary(bytes).map(|()| Vocabulary { bytes })
    }

    /// The vocabulary's bytes.
    #[must_use]
    pub fn as_bytes(&self) -> &'a [u8] {
        self.bytes
    }

    /// Checks a term, a pattern or a situation.
    ///
    /// # Errors
    ///
    /// Refused with 7 to 15. The term is [`Input::Pattern`](crate::Input::Pattern).
    pub fn check_term(&self, term: &[u8]) -> Result<Checked, Refusal> {
        calls::check_term(self.bytes, term)
    }

    /// Matches a pattern with a complete situation. Yes gives the part that each name covers, no
    /// nothing.
    ///
    /// # Errors
    ///
    /// Refused with 7 to 15 for the pattern and 7 to 17 for the situation.
    pub fn match_pattern(
        &self,
        pattern: &[u8],
        situation: &[u8],
    ) -> Result<Option<Spans>, Refusal> {
        calls::match_pattern(self.bytes, pattern, situation)
    }

    /// Matches a pattern with a complete situation, into a lent table: see
    /// [`match_into`](crate::match_into).
    ///
    /// # Errors
    ///
    /// Refused as [`match_pattern`](Self::match_pattern), and with 19 where the table has not
    /// [`TABLE_LENGTH`](crate::TABLE_LENGTH) numbers. A refusal leaves the table as it was.
    pub fn match_into(
        &self,
        pattern: &[u8],
        situation: &[u8],
        table: &mut [u16],
    ) -> Result<bool, Refusal> {
        calls::match_into(self.bytes, pattern, situation, table)
    }

    /// The part of the situation that a name of the pattern covers, empty where there is none: see
    /// [`part`](crate::part).
    #[must_use]
    pub fn part<'s>(&self, pattern: &[u8], situation: &'s [u8], name: u8) -> &'s [u8] {
        calls::part(self.bytes, pattern, situation, name)
    }

    /// Writes the leftovers of a pattern into `out`: see [`list`](crate::list).
    ///
    /// # Errors
    ///
    /// Refused with 7 to 15 and 18 for the pattern, and 20 where `out` is too short; the place is then
    /// the length that is needed. A refusal leaves `out` as it was.
    pub fn list(&self, pattern: &[u8], out: &mut [u8]) -> Result<Listed, Refusal> {
        calls::list(self.bytes, pattern, out)
    }

    /// The leftovers of a pattern, each a whole pattern with its kind byte: see
    /// [`leftovers`](crate::leftovers).
    ///
    /// # Errors
    ///
    /// Refused with 7 to 15 and 18, for the pattern.
    pub fn leftovers(&self, pattern: &[u8]) -> Result<Vec<Vec<u8>>, Refusal> {
        calls::leftovers(self.bytes, pattern)
    }

    /// Writes a pattern into `out` with each of its names replaced: see [`fill`](crate::fill).
    ///
    /// # Errors
    ///
    /// Refused with 7 to 15 for the pattern, 21 to 23 for the filling file, and 20 where `out` is too
    /// short; the place is then the length that is needed. A refusal leaves `out` as it was.
    pub fn fill(&self, pattern: &[u8], filling: &[u8], out: &mut [u8]) -> Result<usize, Refusal> {
        calls::fill(self.bytes, pattern, filling, out)
    }

    /// Writes the leftovers of a whole book into `out`: see [`list_book`](crate::list_book).
    ///
    /// # Errors
    ///
    /// Refused with 7 to 15, 18 and 24 to 26 for the book, and 20 where `out` is too short; the place is then
    /// the length that is needed, at most [`BOOK_LISTING_LENGTH`](crate::BOOK_LISTING_LENGTH). A refusal
    /// leaves `out` as it was.
    pub fn list_book(&self, book: &[u8], out: &mut [u8]) -> Result<Listed, Refusal> {
        calls::list_book(self.bytes, book, out)
    }

    /// The leftovers of a whole book, each a whole pattern with its kind byte, in an order that is not
    /// promised: see [`book_leftovers`](crate::book_leftovers).
    ///
    /// # Errors
    ///
    /// Refused with 7 to 15, 18 and 24 to 26, for the book.
    pub fn book_leftovers(&self, book: &[u8]) -> Result<Vec<Vec<u8>>, Refusal> {
        calls::book_leftovers(self.bytes, book)
    }
}

impl<'a> TryFrom<&'a [u8]> for Vocabulary<'a> {
    type Error = Refusal;

    fn try_from(bytes: &'a [u8]) -> Result<Vocabulary<'a>, Refusal> {
        Vocabulary::new(bytes)
    }
}
