//! The leftovers of wait(up, free), and of a book, in words, and what is said of inputs that are refused.
//!
//!     make
//!     cd bindings/rust
//!     cargo run --offline --example leftovers
//!
//! prints
//!
//!     wait(up, free) leaves over
//!       done
//!       wait(down, _)
//!       wait(up, full)
//!     the book of wait(up, free) and done leaves over
//!       wait(down, _)
//!       wait(up, full)
//!     wait(n0, n0): refused 13 1 4: the name stood earlier at a place of another kind (pattern, byte 4)
//!     a pattern cut short: refused 9 1 5: the term ends where a byte is due (pattern, byte 5)
//!     a vocabulary cut short: refused 3 0 9: the vocabulary ends where a byte of a record is due (vocabulary, byte 9)
use pheasantry::{Refusal, Vocabulary};

/// Three kinds, step 0, button 1 and queue 2, and six words: wait(button, queue), up, down, free, full, done.
const BYTES: [u8; 16] = [3, 6, 0, 3, 1, 2, 1, 0, 1, 0, 2, 0, 2, 0, 0, 0];

/// The words' names, with their place maps.
const WORDS: [(&str, u8); 6] = [
    ("wait", 0b11),
    ("up", 0),
    ("down", 0),
    ("free", 0),
    ("full", 0),
    ("done", 0),
];

/// The term at the front of some bytes, in words, and the bytes behind it. An open place is written _.
fn in_words(bytes: &[u8]) -> (String, &[u8]) {
    match bytes {
        [255, rest @ ..] => ("_".to_string(), rest),
        [name @ 128..=191, rest @ ..] => (format!("n{}", name - 128), rest),
        [word, map, rest @ ..] => {
            let (name, places) = WORDS[usize::from(*word)];
            let mut behind = rest;
            let mut parts = Vec::new();
            for bit in (0..8).map(|place| 1 << place) {
                if map & bit != 0 {
                    let (part, rest) = in_words(behind);
                    parts.push(part);
                    behind = rest;
                } else if places & bit != 0 {
                    parts.push("_".to_string());
                }
            }
            if parts.is_empty() {
                (name.to_string(), behind)
            } else {
                (format!("{name}({})", parts.join(", ")), behind)
            }
        }
        _ => ("..".to_string(), &[]),
    }
}

/// A whole pattern in words: its kind byte is left out.
fn whole(pattern: &[u8]) -> String {
    in_words(&pattern[1..]).0
}

fn main() -> Result<(), Refusal> {
    let vocabulary = Vocabulary::new(&BYTES)?;

    let wait_up_free = [0, 0, 3, 1, 0, 3, 0];
    println!("{} leaves over", whole(&wait_up_free));
    for entry in vocabulary.leftovers(&wait_up_free)? {
        println!("  {}", whole(&entry));
    }

    // A book: the number of its patterns, and these. Its entries are sorted, since their order is not promised.
    let done = [0, 5, 0];
    let book = [&[2][..], &wait_up_free, &done].concat();
    let mut left = vocabulary.book_leftovers(&book)?;
    left.sort();
    let (one, other) = (whole(&wait_up_free), whole(&done));
    println!("the book of {one} and {other} leaves over");
    for entry in left {
        println!("  {}", whole(&entry));
    }

    // A name that stands for a button cannot stand for a queue as well.
    let one_name_for_both = [0, 0, 3, 0x80, 0x80];
    if let Err(refusal) = vocabulary.leftovers(&one_name_for_both) {
        println!("{}: {refusal}", whole(&one_name_for_both));
    }
    if let Err(refusal) = vocabulary.leftovers(&wait_up_free[..5]) {
        println!("a pattern cut short: {refusal}");
    }
    if let Err(refusal) = Vocabulary::new(&BYTES[..9]) {
        println!("a vocabulary cut short: {refusal}");
    }
    Ok(())
}
