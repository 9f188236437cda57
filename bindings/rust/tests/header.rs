//! The C header and this crate say the same: the version, the lengths, the refusals and the inputs.
use pheasantry::{
    check_term, check_vocabulary, fill, list, list_book, match_into, Reason, Refusal,
    BOOK_LISTING_LENGTH, TABLE_LENGTH,
};

const HEADER: &str = include_str!("../../../include/pheasantry.h");

// What a line of the header defines a macro as.
fn defined(name: &str) -> &'static str {
    HEADER
        .lines()
        .find_map(|line| {
            line.strip_prefix("#define ")?
                .strip_prefix(name)?
                .strip_prefix(' ')
        })
        .unwrap_or_else(|| panic!("{name} is not defined"))
}

// The lines of an enum: what stands in the comment above each name, the name behind a prefix, and its number.
fn enumerated(prefix: &str) -> Vec<(&'static str, &'static str, u8)> {
    let mut comment = "";
    let mut found = Vec::new();
    for line in HEADER.lines().map(str::trim) {
        if let Some(text) = line.strip_prefix("/* ") {
            comment = text.trim_end_matches(" */");
        } else if let Some((name, number)) = line.split_once(" = ") {
            if let Some(name) = name.strip_prefix(prefix) {
                found.push((comment, name, number.trim_end_matches(',').parse().unwrap()));
            }
        }
    }
    found
}

// A refusal of every number but 6, which is no longer given.
fn refusals() -> Vec<Refusal> {
    let c = [1, 3, 0, 0, 0, 0, 0, 3, 0, 0];
    let a = [3, 6, 0, 3, 1, 2, 1, 0, 1, 0, 2, 0, 2, 0, 0, 0];
    let b = [1, 2, 0, 0, 0, 1, 0];
    let deep = [[0].to_vec(), [1, 1].repeat(33)].concat();
    let deep_n0 = [&deep[..63], &[0x80]].concat();
    let more_for_n0 = [1, 0, 0, 0, 0, 0, 0, 0, 1, 1, 0, 0];
    let pair = [0, 2, 3, 0, 0, 0, 0];
    // Pairs on 7 levels, and a at every place of the eighth.
    let tree = (0..7).fold(vec![0, 0], |below, _| [&[2, 3], &*below, &below].concat());
    let book = [&[1, 0], &*tree].concat();
    let vocabularies: [&[u8]; 5] = [&[], &[1, 97], &[1, 1, 0], &[1, 1, 1, 0], &[1, 1, 0, 0, 0]];
    let terms: [(&[u8], &[u8]); 9] = [
        (&c, &[0]),
        (&c, &[1, 0, 0]),
        (&c, &[0, 2, 3]),
        (&b, &deep),
        (&c, &[0, 3]),
        (&a, &[1, 0, 0]),
        (&a, &[0, 0, 3, 0x80, 0x80]),
        (&c, &[0, 2, 4]),
        (&c, &[0, 0, 0, 0]),
    ];
    let mut refusals = Vec::new();
    refusals.extend(vocabularies.map(|v| check_vocabulary(v).unwrap_err()));
    refusals.extend(terms.map(|(v, t)| check_term(v, t).unwrap_err()));
    refusals.extend([
        match_into(&c, &[0, 255], &[0, 2, 1, 0, 0], &mut []).unwrap_err(),
        match_into(&a, &[0, 255], &[1, 1, 0], &mut []).unwrap_err(),
        list(&c, &[0, 2, 3, 0x80, 0x80], &mut []).unwrap_err(),
        match_into(&c, &[0, 255], &pair, &mut []).unwrap_err(),
        list(&c, &pair, &mut []).unwrap_err(),
        fill(&c, &pair, &[], &mut []).unwrap_err(),
        fill(&c, &pair, &[0; 9], &mut []).unwrap_err(),
        fill(&b, &deep_n0, &more_for_n0, &mut []).unwrap_err(),
        list_book(&c, &[], &mut []).unwrap_err(),
        list_book(&a, &[2, 0, 255, 1, 255], &mut []).unwrap_err(),
        list_book(&c, &book, &mut []).unwrap_err(),
    ]);
    refusals
}

// A name of the crate as C has it: NoWordOrName is NO_WORD_OR_NAME.
fn in_c(reason: Reason) -> String {
    let mut name = String::new();
    for letter in format!("{reason:?}").chars() {
        if letter.is_uppercase() && !name.is_empty() {
            name.push('_');
        }
        name.extend(letter.to_uppercase());
    }
    name
}

#[test]
fn one_version() {
    let version = env!("CARGO_PKG_VERSION");
    assert_eq!(defined("PHEASANTRY_VERSION"), format!("{version:?}"));
    let numbers =
        ["MAJOR", "MINOR", "PATCH"].map(|part| defined(&format!("PHEASANTRY_VERSION_{part}")));
    assert_eq!(numbers.join("."), version);
}

#[test]
fn the_same_lengths() {
    assert_eq!(defined("PHEASANTRY_TABLE_LENGTH"), TABLE_LENGTH.to_string());
    assert_eq!(
        defined("PHEASANTRY_BOOK_LISTING_LENGTH"),
        BOOK_LISTING_LENGTH.to_string()
    );
}

#[test]
fn the_same_refusals() {
    let in_header = enumerated("PHEASANTRY_REFUSED_");
    let mut reasons: Vec<Reason> = refusals().iter().map(Refusal::reason).collect();
    reasons.insert(5, Reason::EmptyKind);
    assert_eq!(in_header.len(), reasons.len());
    for ((comment, name, number), reason) in in_header.into_iter().zip(reasons) {
        assert_eq!((name, number), (&*in_c(reason), reason.number()));
        let says = comment.split(" (place").next().unwrap();
        assert_eq!(says, reason.to_string());
    }
}

#[test]
fn the_same_inputs() {
    use pheasantry::Input::{Book, Filling, Output, Pattern, Situation, Vocabulary};
    let in_header: Vec<(String, u8)> = enumerated("PHEASANTRY_INPUT_")
        .into_iter()
        .map(|(_, name, number)| (name.to_lowercase(), number))
        .collect();
    let here = [Vocabulary, Pattern, Situation, Output, Filling, Book]
        .map(|input| (format!("{input:?}").to_lowercase(), input.number()));
    assert_eq!(in_header, here);
}
