//! A checked vocabulary answers as the functions over its bytes do.
use pheasantry::{Input, Reason, Vocabulary, TABLE_LENGTH};

const C: [u8; 10] = [1, 3, 0, 0, 0, 0, 0, 3, 0, 0];
const PAIR_A_A: [u8; 7] = [0, 2, 3, 0, 0, 0, 0];
const PAIR_A_B: [u8; 7] = [0, 2, 3, 0, 0, 1, 0];
const PAIR_N0_N0: [u8; 5] = [0, 2, 3, 0x80, 0x80];

// Patterns in order and not, and situations in order and not.
const TERMS: [&[u8]; 9] = [
    &PAIR_A_A,
    &PAIR_A_B,
    &PAIR_N0_N0,
    &[0, 0x80],
    &[0, 255],
    &[0, 2, 1, 0, 0],
    &[0, 2, 3],
    &[1, 0, 0],
    &[],
];

// Books of them, in order and not.
const BOOKS: [&[u8]; 6] = [
    &[2, 0, 2, 3, 0, 0, 1, 0, 0, 2, 2, 1, 0],
    &[1, 0, 255],
    &[1, 0, 2, 3, 0x80, 0x80],
    &[2, 0, 255],
    &[1, 0, 255, 0],
    &[],
];

// Filling files for some of the terms.
const FILES: [&[u8]; 4] = [
    &[1, 0, 0, 0, 0, 0, 0, 0, 0, 0],
    &[1, 0, 0, 0, 0, 0, 0, 0, 2, 1],
    &[0; 8],
    &[],
];

#[test]
fn methods_are_the_functions() {
    let vocabulary = Vocabulary::new(&C).unwrap();
    assert_eq!(vocabulary.as_bytes(), C);
    for p in TERMS {
        assert_eq!(vocabulary.check_term(p), pheasantry::check_term(&C, p));
        assert_eq!(vocabulary.leftovers(p), pheasantry::leftovers(&C, p));
        for length in [0, 17, 18, 100] {
            let (mut one, mut other) = (vec![9; length], vec![9; length]);
            assert_eq!(
                vocabulary.list(p, &mut one),
                pheasantry::list(&C, p, &mut other)
            );
            assert_eq!(one, other);
        }
        for file in FILES {
            for length in [0, 6, 7, 100] {
                let (mut one, mut other) = (vec![9; length], vec![9; length]);
                assert_eq!(
                    vocabulary.fill(p, file, &mut one),
                    pheasantry::fill(&C, p, file, &mut other)
                );
                assert_eq!(one, other);
            }
        }
        for s in TERMS {
            assert_eq!(
                vocabulary.match_pattern(p, s),
                pheasantry::match_pattern(&C, p, s)
            );
            for length in [TABLE_LENGTH, TABLE_LENGTH - 1] {
                let (mut one, mut other) = (vec![9; length], vec![9; length]);
                assert_eq!(
                    vocabulary.match_into(p, s, &mut one),
                    pheasantry::match_into(&C, p, s, &mut other)
                );
                assert_eq!(one, other);
            }
            for name in [0, 1, 63, 64, 255] {
                let (one, other) = (
                    vocabulary.part(p, s, name),
                    pheasantry::part(&C, p, s, name),
                );
                assert_eq!(one.as_ptr_range(), other.as_ptr_range());
            }
        }
    }
    for book in BOOKS {
        assert_eq!(
            vocabulary.book_leftovers(book),
            pheasantry::book_leftovers(&C, book)
        );
        for length in [0, 47, 48, 100] {
            let (mut one, mut other) = (vec![9; length], vec![9; length]);
            assert_eq!(
                vocabulary.list_book(book, &mut one),
                pheasantry::list_book(&C, book, &mut other)
            );
            assert_eq!(one, other);
        }
    }
}

#[test]
fn a_damaged_one_is_refused_at_once() {
    for (bytes, reason, place) in [
        (&[][..], Reason::Head, 0),
        (&[1, 97], Reason::WordCount, 1),
        (&C[..7], Reason::RecordEnds, 7),
        (&[1, 1, 1, 0], Reason::RecordKind, 2),
        (&[1, 1, 0, 0, 0], Reason::RecordsContinue, 4),
    ] {
        let refusal = Vocabulary::new(bytes).unwrap_err();
        assert_eq!(
            (refusal.reason(), refusal.input(), refusal.place()),
            (reason, Input::Vocabulary, place)
        );
        assert_eq!(Vocabulary::try_from(bytes), Err(refusal));
        // The functions over bytes say the same, whatever else is wrong.
        assert_eq!(pheasantry::check_vocabulary(bytes), Err(refusal));
        assert_eq!(pheasantry::check_term(bytes, &[]), Err(refusal));
        assert_eq!(pheasantry::match_pattern(bytes, &[], &[]), Err(refusal));
        assert_eq!(pheasantry::leftovers(bytes, &[]), Err(refusal));
        assert_eq!(pheasantry::fill(bytes, &[], &[], &mut []), Err(refusal));
        assert_eq!(pheasantry::book_leftovers(bytes, &[]), Err(refusal));
    }
}
