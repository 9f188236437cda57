//! Why a call is refused. `docs/FORMAT.md` has the same list.
use std::error::Error;
use std::fmt;

/// Which input was refused.
#[derive(Clone, Copy, Debug, PartialEq, Eq, Hash)]
#[non_exhaustive]
pub enum Input {
    /// Input 0.
    Vocabulary = 0,
    /// Input 1: a pattern, or the term of a term check.
    Pattern = 1,
    /// Input 2.
    Situation = 2,
    /// Input 3: the lent table or the lent bytes.
    Output = 3,
    /// Input 4: the filling file.
    Filling = 4,
    /// Input 5: the book.
    Book = 5,
}

impl Input {
    const ALL: [Input; 6] = [
        Input::Vocabulary,
        Input::Pattern,
        Input::Situation,
        Input::Output,
        Input::Filling,
        Input::Book,
    ];

    /// The input's number, 0 to 5.
    #[must_use]
    pub fn number(self) -> u8 {
        self as u8
    }
}

impl fmt::Display for Input {
    fn fmt(&self, f: &mut fmt::Formatter<'_>) -> fmt::Result {
        f.write_str(match self {
            Input::Vocabulary => "vocabulary",
            Input::Pattern => "pattern",
            Input::Situation => "situation",
            Input::Output => "lent output",
            Input::Filling => "filling file",
            Input::Book => "book",
        })
    }
}

/// Why a call was refused: a line of the refusal list. Its text says the same.
///
/// In a book, what is said of a term is meant of each pattern by itself, and places count from the book's
/// first byte.
#[derive(Clone, Copy, Debug, PartialEq, Eq, Hash)]
#[non_exhaustive]
pub enum Reason {
    /// 1: the vocabulary has fewer than 2 bytes, or not 1 to 16 kinds. The place is 0.
    Head = 1,
    /// 2: the vocabulary has not 1 to 96 words.
    WordCount = 2,
    /// 3: the vocabulary ends where a byte of a record is due.
    RecordEnds = 3,
    /// 4: a kind in a record is not below the number of kinds.
    RecordKind = 4,
    /// 5: bytes follow the last record.
    RecordsContinue = 5,
    /// 6: a kind has no complete situation. The place is the lowest such kind. 6 is no longer given (document
    /// 02, request iv): such a vocabulary is accepted.
    EmptyKind = 6,
    /// 7: the term has fewer than 2 or more than 4,096 bytes. The place is 0, in a book the pattern's first
    /// byte.
    Size = 7,
    /// 8: the term's first byte is not below the number of kinds.
    TermKind = 8,
    /// 9: the term ends where a byte is due.
    TermEnds = 9,
    /// 10: something stands where level 33 begins.
    TooDeep = 10,
    /// 11: the byte is no word, no name, nor 255 at the root.
    NoWordOrName = 11,
    /// 12: the word's result kind differs from the kind due there.
    WrongKind = 12,
    /// 13: the name stood earlier at a place of another kind.
    Clash = 13,
    /// 14: the written map has a bit that the word's place map lacks.
    StrayBit = 14,
    /// 15: bytes follow the term, in a book the last pattern.
    TermContinues = 15,
    /// 16: the situation is not complete. The place is its first name, 255 or short map.
    Incomplete = 16,
    /// 17: pattern and situation have different kinds. The place is 0.
    KindsDiffer = 17,
    /// 18: the name stands twice in a pattern to be listed. The place is its second occurrence.
    Repeated = 18,
    /// 19: the table has not 128 numbers. The place is 0.
    TableLength = 19,
    /// 20: the output is longer than the lent bytes. The place is its length.
    NoRoom = 20,
    /// 21: the bit map has fewer than 8 bytes or differs from the pattern's names. The place is 0, or the
    /// lowest name that differs.
    NamesDiffer = 21,
    /// 22: a filling is no complete term of its name's kind within 32 levels, or bytes follow.
    Filling = 22,
    /// 23: the result is longer than 4,096 bytes or deeper than 32 levels. The place is 0.
    ResultSize = 23,
    /// 24: the book's count is missing or not 1 to 64. The place is 0.
    PatternCount = 24,
    /// 25: the pattern's kind differs from that of the book's first. The place is its kind byte.
    OtherKind = 25,
    /// 26: the entries left behind a pattern have more than 32,768 bytes, or one of them more than 4,096. The
    /// place is the number of the first such pattern, from 0.
    ListingSize = 26,
}

impl Reason {
    const ALL: [Reason; 26] = [
        Reason::Head,
        Reason::WordCount,
        Reason::RecordEnds,
        Reason::RecordKind,
        Reason::RecordsContinue,
        Reason::EmptyKind,
        Reason::Size,
        Reason::TermKind,
        Reason::TermEnds,
        Reason::TooDeep,
        Reason::NoWordOrName,
        Reason::WrongKind,
        Reason::Clash,
        Reason::StrayBit,
        Reason::TermContinues,
        Reason::Incomplete,
        Reason::KindsDiffer,
        Reason::Repeated,
        Reason::TableLength,
        Reason::NoRoom,
        Reason::NamesDiffer,
        Reason::Filling,
        Reason::ResultSize,
        Reason::PatternCount,
        Reason::OtherKind,
        Reason::ListingSize,
    ];

    /// The line's number, 1 to 26.
    #[must_use]
    pub fn number(self) -> u8 {
        self as u8
    }
}

impl fmt::Display for Reason {
    fn fmt(&self, f: &mut fmt::Formatter<'_>) -> fmt::Result {
        f.write_str(match self {
            Reason::Head => "the vocabulary has fewer than 2 bytes, or not 1 to 16 kinds",
            Reason::WordCount => "the vocabulary has not 1 to 96 words",
            Reason::RecordEnds => "the vocabulary ends where a byte of a record is due",
            Reason::RecordKind => "a kind in a record is not below the number of kinds",
            Reason::RecordsContinue => "bytes follow the last record",
            Reason::EmptyKind => "a kind has no complete situation",
            Reason::Size => "the term has fewer than 2 or more than 4,096 bytes",
            Reason::TermKind => "the term's first byte is not below the number of kinds",
            Reason::TermEnds => "the term ends where a byte is due",
            Reason::TooDeep => "something stands where level 33 begins",
            Reason::NoWordOrName => "the byte is no word, no name, nor 255 at the root",
            Reason::WrongKind => "the word's result kind differs from the kind due there",
            Reason::Clash => "the name stood earlier at a place of another kind",
            Reason::StrayBit => "the written map has a bit that the word's place map lacks",
            Reason::TermContinues => "bytes follow the term",
            Reason::Incomplete => "the situation is not complete",
            Reason::KindsDiffer => "pattern and situation have different kinds",
            Reason::Repeated => "the name stands twice in a pattern to be listed",
            Reason::TableLength => "the table has not 128 numbers",
            Reason::NoRoom => "the output is longer than the lent bytes",
            Reason::NamesDiffer => {
                "the bit map has fewer than 8 bytes or differs from the pattern's names"
            }
            Reason::Filling => {
                "a filling is no complete term of its name's kind within 32 levels, or bytes follow"
            }
            Reason::ResultSize => "the result is longer than 4,096 bytes or deeper than 32 levels",
            Reason::PatternCount => "the book's count is missing or not 1 to 64",
            Reason::OtherKind => "the pattern's kind differs from that of the book's first",
            Reason::ListingSize => {
                "the entries left behind a pattern have more than 32,768 bytes, or one of them more than 4,096"
            }
        })
    }
}

/// A refusal: its number, the input and a place.
///
/// Its text has the three numbers, and says what they mean:
///
/// ```
/// use pheasantry::Vocabulary;
///
/// let refusal = Vocabulary::new(&[1, 97]).unwrap_err();
/// assert_eq!((refusal.number(), refusal.input().number(), refusal.place()), (2, 0, 1));
/// assert_eq!(refusal.to_string(), "refused 2 0 1: the vocabulary has not 1 to 96 words (vocabulary, byte 1)");
/// ```
#[derive(Clone, Copy, Debug, PartialEq, Eq, Hash)]
pub struct Refusal {
    reason: Reason,
    input: Input,
    place: usize,
}

impl Refusal {
    // The archive's numbers are those of the two lists, as its contracts say. Others mean that the archive is
    // of another version than this crate.
    pub(crate) fn of(number: u64, input: u64, place: usize) -> Refusal {
        let reason = Reason::ALL
            .into_iter()
            .find(|reason| u64::from(reason.number()) == number);
        let input = Input::ALL
            .into_iter()
            .find(|known| u64::from(known.number()) == input);
        match (reason, input) {
            (Some(reason), Some(input)) => Refusal {
                reason,
                input,
                place,
            },
            _ => panic!("libpheasantry.a is of another version than this crate: refusal {number}"),
        }
    }

    /// The line of the refusal list.
    #[must_use]
    pub fn reason(&self) -> Reason {
        self.reason
    }

    /// The line's number, 1 to 26, and never 6.
    #[must_use]
    pub fn number(&self) -> u8 {
        self.reason.number()
    }

    /// The input that was refused.
    #[must_use]
    pub fn input(&self) -> Input {
        self.input
    }

    /// The offset of the byte at fault or of the missing one. For
    /// [`Reason::NamesDiffer`] it is a name, or 0 where the bit map is short, for [`Reason::ListingSize`] a
    /// pattern's number, from 0, for [`Reason::NoRoom`] the length that is needed, and 0 for
    /// [`Reason::Head`], [`Reason::Size`], [`Reason::KindsDiffer`], [`Reason::TableLength`],
    /// [`Reason::ResultSize`] and [`Reason::PatternCount`], which are about no one byte.
    ///
    /// In a book offsets count from its first byte, and [`Reason::Size`] has that of the pattern's first.
    #[must_use]
    pub fn place(&self) -> usize {
        self.place
    }
}

impl fmt::Display for Refusal {
    fn fmt(&self, f: &mut fmt::Formatter<'_>) -> fmt::Result {
        let Refusal {
            reason,
            input,
            place,
        } = self;
        let (number, given) = (reason.number(), input.number());
        write!(f, "refused {number} {given} {place}: {reason}")?;
        match reason {
            Reason::EmptyKind => write!(f, " ({input}, kind {place})"),
            Reason::NoRoom => write!(f, " (it takes {place} bytes)"),
            Reason::NamesDiffer if *place == 0 => write!(f, " ({input}, short or name 0)"),
            Reason::NamesDiffer => write!(f, " ({input}, name {place})"),
            Reason::ListingSize => write!(f, " ({input}, pattern {place})"),
            Reason::Size if *input == Input::Book => write!(f, " ({input}, byte {place})"),
            Reason::Head
            | Reason::Size
            | Reason::KindsDiffer
            | Reason::ResultSize
            | Reason::PatternCount => write!(f, " ({input})"),
            Reason::TableLength => Ok(()),
            _ => write!(f, " ({input}, byte {place})"),
        }
    }
}

impl Error for Refusal {}
