//! The archive's calls over a vocabulary's bytes.
use crate::archive::{self, Reply};
use crate::{entries, Checked, Listed, Reason, Refusal, Spans, BOOK_LISTING_LENGTH, TABLE_LENGTH};

// The values of a reply, 0 where there is none. They are below 2⁶⁴, and a `usize` has 64 bits where the archive
// runs.
fn values(reply: Reply) -> Result<[usize; 4], Refusal> {
    match reply {
        [0, values @ ..] => Ok(values.map(|value| value as usize)),
        [number, input, place, ..] => Err(Refusal::of(number, input, place as usize)),
    }
}

/// Checks a vocabulary. A kind may have no complete situation.
///
/// ```
/// use pheasantry::{check_vocabulary, Reason};
///
/// assert_eq!(check_vocabulary(&[1, 2, 0, 0, 0, 1, 0]), Ok(()));
/// // The only word needs a situation of its own kind.
/// assert_eq!(check_vocabulary(&[1, 1, 0, 1, 0]), Ok(()));
/// let refusal = check_vocabulary(&[1, 1, 0, 1, 0, 0]).unwrap_err();
/// assert_eq!(refusal.reason(), Reason::RecordsContinue);
/// assert_eq!(refusal.to_string(), "refused 5 0 5: bytes follow the last record (vocabulary, byte 5)");
/// ```
///
/// # Errors
///
/// Refused with 1 to 5. 6 is no longer given (document 02, request iv).
pub fn check_vocabulary(vocabulary: &[u8]) -> Result<(), Refusal> {
    let mut reply = Reply::default();
    // SAFETY: the pointers and lengths are those of slices that live through the call.
    unsafe {
        archive::pheasantry_check_vocabulary(vocabulary.as_ptr(), vocabulary.len(), &mut reply);
    }
    values(reply).map(|_| ())
}

/// Checks a term, a pattern or a situation, under a vocabulary.
///
/// ```
/// let vocabulary = [3, 6, 0, 3, 1, 2, 1, 0, 1, 0, 2, 0, 2, 0, 0, 0];
/// let checked = pheasantry::check_term(&vocabulary, &[0, 0, 3, 1, 0, 3, 0])?;
/// assert_eq!((checked.words, checked.deepest), (3, 2));
/// assert!(checked.complete);
///
/// // wait(_, free) is not complete: its map, byte 2, lacks place 0.
/// let checked = pheasantry::check_term(&vocabulary, &[0, 0, 2, 3, 0])?;
/// assert_eq!((checked.complete, checked.gap), (false, 2));
/// # Ok::<(), pheasantry::Refusal>(())
/// ```
///
/// # Errors
///
/// Refused with 1 to 5 for the vocabulary and 7 to 15 for the term, which is [`Input::Pattern`].
///
/// [`Input::Pattern`]: crate::Input::Pattern
pub fn check_term(vocabulary: &[u8], term: &[u8]) -> Result<Checked, Refusal> {
    let mut reply = Reply::default();
    // SAFETY: the pointers and lengths are those of slices that live through the call.
    unsafe {
        archive::pheasantry_check_term(
            vocabulary.as_ptr(),
            vocabulary.len(),
            term.as_ptr(),
            term.len(),
            &mut reply,
        );
    }
    let [words, deepest, complete, gap] = values(reply)?;
    Ok(Checked {
        words,
        deepest,
        complete: complete == 1,
        gap,
    })
}

/// Matches a pattern with a complete situation. Yes gives the part that each name covers, no nothing.
///
/// ```
/// use pheasantry::match_pattern;
///
/// let vocabulary = [1, 3, 0, 0, 0, 0, 0, 3, 0, 0];
/// let pair_n0_n0 = [0, 2, 3, 0x80, 0x80];
/// let spans = match_pattern(&vocabulary, &pair_n0_n0, &[0, 2, 3, 0, 0, 0, 0])?.unwrap();
/// assert_eq!(spans.get(0), Some(3..5));
/// assert_eq!(spans.get(1), None);
/// assert_eq!(match_pattern(&vocabulary, &pair_n0_n0, &[0, 2, 3, 0, 0, 1, 0])?, None);
/// # Ok::<(), pheasantry::Refusal>(())
/// ```
///
/// # Errors
///
/// Refused with 1 to 5 for the vocabulary, 7 to 15 for the pattern and 7 to 17 for the situation.
pub fn match_pattern(
    vocabulary: &[u8],
    pattern: &[u8],
    situation: &[u8],
) -> Result<Option<Spans>, Refusal> {
    let mut table = [0; TABLE_LENGTH];
    let yes = match_into(vocabulary, pattern, situation, &mut table)?;
    Ok(yes.then_some(Spans { table }))
}

/// Matches a pattern with a complete situation. Yes fills the lent table, which has [`TABLE_LENGTH`]
/// numbers: the offset of name n at 2n, its length at 2n + 1, and 0 and 0 for a name that does not stand
/// in the pattern. No leaves the table as it was.
///
/// # Errors
///
/// Refused as [`match_pattern`], and with 19 where the table has another length. A refusal leaves the
/// table as it was.
pub fn match_into(
    vocabulary: &[u8],
    pattern: &[u8],
    situation: &[u8],
    table: &mut [u16],
) -> Result<bool, Refusal> {
    let mut reply = Reply::default();
    // SAFETY: the pointers and lengths are those of slices that live through the call, and the
    // table and the reply, which it writes, are borrowed for it alone.
    unsafe {
        archive::pheasantry_match(
            vocabulary.as_ptr(),
            vocabulary.len(),
            pattern.as_ptr(),
            pattern.len(),
            situation.as_ptr(),
            situation.len(),
            table.as_mut_ptr(),
            table.len(),
            &mut reply,
        );
    }
    values(reply).map(|[yes, ..]| yes == 1)
}

/// The part of the situation that a name of the pattern covers. It is empty where match would not say
/// yes, also where it would be refused, and where the name does not stand in the pattern. A covered part
/// has at least 2 bytes.
///
/// ```
/// let vocabulary = [3, 6, 0, 3, 1, 2, 1, 0, 1, 0, 2, 0, 2, 0, 0, 0];
/// let wait_n0_full = [0, 0, 3, 0x80, 4, 0];
/// let wait_up_full = [0, 0, 3, 1, 0, 4, 0];
/// assert_eq!(pheasantry::part(&vocabulary, &wait_n0_full, &wait_up_full, 0), [1, 0]);
/// assert!(pheasantry::part(&vocabulary, &wait_n0_full, &wait_up_full, 1).is_empty());
/// ```
#[must_use]
pub fn part<'s>(vocabulary: &[u8], pattern: &[u8], situation: &'s [u8], name: u8) -> &'s [u8] {
    let mut reply = Reply::default();
    // SAFETY: the pointers and lengths are those of slices that live through the call.
    unsafe {
        archive::pheasantry_part(
            vocabulary.as_ptr(),
            vocabulary.len(),
            pattern.as_ptr(),
            pattern.len(),
            situation.as_ptr(),
            situation.len(),
            u64::from(name),
            &mut reply,
        );
    }
    let [_, offset, length, ..] = reply.map(|number| number as usize);
    &situation[offset..offset + length]
}

/// Writes the leftovers of a pattern into `out`: whole patterns, each directly behind the one before
/// it, which [`entries`] takes apart. Bytes behind the last stay as they were. For every entry there is a
/// complete situation that fits it.
///
/// Where no complete situation fits the pattern, all of the kind are left over: there is one entry, the
/// kind byte and 255, or none if the kind has no complete situation.
///
/// ```
/// use pheasantry::{list, Reason};
///
/// let vocabulary = [3, 6, 0, 3, 1, 2, 1, 0, 1, 0, 2, 0, 2, 0, 0, 0];
/// let wait_up_free = [0, 0, 3, 1, 0, 3, 0];
/// let refusal = list(&vocabulary, &wait_up_free, &mut [0; 14]).unwrap_err();
/// assert_eq!((refusal.reason(), refusal.place()), (Reason::NoRoom, 15));
///
/// let mut out = [0; 15];
/// let listed = list(&vocabulary, &wait_up_free, &mut out)?;
/// assert_eq!((listed.entries, listed.bytes), (3, 15));
/// # Ok::<(), pheasantry::Refusal>(())
/// ```
///
/// # Errors
///
/// Refused with 1 to 5 for the vocabulary, 7 to 15 and 18 for the pattern, and 20 where `out` is too
/// short; the place is then the length that is needed. A refusal leaves `out` as it was.
pub fn list(vocabulary: &[u8], pattern: &[u8], out: &mut [u8]) -> Result<Listed, Refusal> {
    let mut reply = Reply::default();
    // SAFETY: the pointers and lengths are those of slices that live through the call, and out and
    // the reply, which it writes, are borrowed for it alone.
    unsafe {
        archive::pheasantry_list(
            vocabulary.as_ptr(),
            vocabulary.len(),
            pattern.as_ptr(),
            pattern.len(),
            out.as_mut_ptr(),
            out.len(),
            &mut reply,
        );
    }
    let [entries, bytes, ..] = values(reply)?;
    Ok(Listed { entries, bytes })
}

/// The leftovers of a pattern, each a whole pattern with its kind byte, in the order in which [`list`]
/// writes them.
///
/// It measures first and then allocates what is needed, so that it is never refused for want of room. A
/// listing can take some 400 million bytes; [`list`] with an empty `out` only measures.
///
/// # Errors
///
/// Refused with 1 to 5 for the vocabulary, and 7 to 15 and 18 for the pattern.
pub fn leftovers(vocabulary: &[u8], pattern: &[u8]) -> Result<Vec<Vec<u8>>, Refusal> {
    let needed = match list(vocabulary, pattern, &mut []) {
        Ok(_) => return Ok(Vec::new()),
        Err(refusal) if refusal.reason() == Reason::NoRoom => refusal.place(),
        Err(refusal) => return Err(refusal),
    };
    let mut out = vec![0; needed];
    let listed = list(vocabulary, pattern, &mut out)?;
    Ok(entries(&out[..listed.bytes]).map(<[u8]>::to_vec).collect())
}

/// Writes a pattern into `out`, with each of its names replaced by the term that a filling file has for
/// it, and says how many bytes that is. Open places stay open. Bytes behind the result stay as they
/// were.
///
/// A filling file is eight bytes of bit map, of which byte 0 holds names 0 to 7, the lowest bit first, and
/// then, for each standing bit in ascending order, one complete term without kind byte.
///
/// ```
/// use pheasantry::{fill, match_pattern};
///
/// let vocabulary = [3, 6, 0, 3, 1, 2, 1, 0, 1, 0, 2, 0, 2, 0, 0, 0];
/// let wait_n0_full = [0, 0, 3, 0x80, 4, 0];
/// let up_for_n0 = [1, 0, 0, 0, 0, 0, 0, 0, 1, 0];
/// let mut out = [0; 4096];
/// let length = fill(&vocabulary, &wait_n0_full, &up_for_n0, &mut out)?;
/// let wait_up_full = &out[..length];
/// assert_eq!(wait_up_full, [0, 0, 3, 1, 0, 4, 0]);
///
/// // The result is complete, so a match gives back what was filled in.
/// let spans = match_pattern(&vocabulary, &wait_n0_full, wait_up_full)?.unwrap();
/// assert_eq!(wait_up_full[spans.get(0).unwrap()], up_for_n0[8..]);
/// # Ok::<(), pheasantry::Refusal>(())
/// ```
///
/// # Errors
///
/// Refused with 1 to 5 for the vocabulary, 7 to 15 for the pattern, 21 to 23 for the filling file, and 20
/// where `out` is too short; the place is then the length that is needed. It is never above 4,096. A
/// refusal leaves `out` as it was.
pub fn fill(
    vocabulary: &[u8],
    pattern: &[u8],
    filling: &[u8],
    out: &mut [u8],
) -> Result<usize, Refusal> {
    let mut reply = Reply::default();
    // SAFETY: the pointers and lengths are those of slices that live through the call, and out and
    // the reply, which it writes, are borrowed for it alone.
    unsafe {
        archive::pheasantry_fill(
            vocabulary.as_ptr(),
            vocabulary.len(),
            pattern.as_ptr(),
            pattern.len(),
            filling.as_ptr(),
            filling.len(),
            out.as_mut_ptr(),
            out.len(),
            &mut reply,
        );
    }
    values(reply).map(|[length, ..]| length)
}

/// Writes the leftovers of a whole book into `out`: whole patterns without names, each directly behind the
/// one before it, which [`entries`] takes apart. Bytes behind the last stay as they were. Every complete
/// situation of the kind fits some pattern of the book or exactly one of these entries, never both, and for
/// every entry there is one that fits it. A pattern that no complete situation fits changes nothing; a book
/// of such patterns alone leaves one entry, the kind byte and 255, or none if the kind has no complete
/// situation.
///
/// A book is a count byte, 1 to 64, and then so many whole patterns in a row, all of one kind. Names are a
/// pattern's own: the same name in two patterns means nothing.
///
/// Which entries are left depends on the order of the patterns. The order of the entries is not promised: a
/// later version may write the same entries in another.
///
/// ```
/// use pheasantry::{list_book, Reason, BOOK_LISTING_LENGTH};
///
/// let vocabulary = [3, 6, 0, 3, 1, 2, 1, 0, 1, 0, 2, 0, 2, 0, 0, 0];
/// let wait_up_free_and_done = [2, 0, 0, 3, 1, 0, 3, 0, 0, 5, 0];
/// let refusal = list_book(&vocabulary, &wait_up_free_and_done, &mut [0; 11]).unwrap_err();
/// assert_eq!((refusal.reason(), refusal.place()), (Reason::NoRoom, 12));
///
/// // So many bytes are enough for every book.
/// let mut out = vec![0; BOOK_LISTING_LENGTH];
/// let listed = list_book(&vocabulary, &wait_up_free_and_done, &mut out)?;
/// assert_eq!((listed.entries, listed.bytes), (2, 12));
/// # Ok::<(), pheasantry::Refusal>(())
/// ```
///
/// # Errors
///
/// Refused with 1 to 5 for the vocabulary; then for the book with 24, for each of its patterns in turn with
/// 7 to 14, 18 and 25, and with 15 and 26; and with 20 where `out` is too short: the place is then the length
/// that is needed, at most [`BOOK_LISTING_LENGTH`]. A refusal leaves `out` as it was.
pub fn list_book(vocabulary: &[u8], book: &[u8], out: &mut [u8]) -> Result<Listed, Refusal> {
    let mut reply = Reply::default();
    // SAFETY: the pointers and lengths are those of slices that live through the call, and out and
    // the reply, which it writes, are borrowed for it alone.
    unsafe {
        archive::pheasantry_list_book(
            vocabulary.as_ptr(),
            vocabulary.len(),
            book.as_ptr(),
            book.len(),
            out.as_mut_ptr(),
            out.len(),
            &mut reply,
        );
    }
    let [entries, bytes, ..] = values(reply)?;
    Ok(Listed { entries, bytes })
}

/// The leftovers of a whole book, each a whole pattern with its kind byte and without names: the entries
/// that [`list_book`] writes, in an order that is not promised.
///
/// It allocates [`BOOK_LISTING_LENGTH`] bytes and then the entries, so that it is never refused for want of
/// room.
///
/// ```
/// let vocabulary = [3, 6, 0, 3, 1, 2, 1, 0, 1, 0, 2, 0, 2, 0, 0, 0];
/// let (wait_up_free, done) = ([0, 0, 3, 1, 0, 3, 0], [0, 5, 0]);
/// let book = [&[2][..], &wait_up_free, &done].concat();
///
/// let mut leftovers = pheasantry::book_leftovers(&vocabulary, &book)?;
/// leftovers.sort();
/// let (wait_down, wait_up_full) = (vec![0, 0, 1, 2, 0], vec![0, 0, 3, 1, 0, 4, 0]);
/// assert_eq!(leftovers, [wait_down, wait_up_full]);
/// # Ok::<(), pheasantry::Refusal>(())
/// ```
///
/// # Errors
///
/// Refused as [`list_book`], but never with 20.
pub fn book_leftovers(vocabulary: &[u8], book: &[u8]) -> Result<Vec<Vec<u8>>, Refusal> {
    let mut out = vec![0; BOOK_LISTING_LENGTH];
    let listed = list_book(vocabulary, book, &mut out)?;
    Ok(entries(&out[..listed.bytes]).map(<[u8]>::to_vec).collect())
}
