//! Fill: the readings of its sentences, and the boundary of each refusal.

use reference::Reply;

const A: &str = "03 06 00 03 01 02 01 00 01 00 02 00 02 00 00 00";
const B: &str = "01 02 00 00 00 01 00";
const C: &str = "01 03 00 00 00 00 00 03 00 00";
/// C with a word of one place.
const D: &str = "01 04 00 00 00 00 00 03 00 00 00 01 00";

const NONE: &str = "00 00 00 00 00 00 00 00";
const N0: &str = "01 00 00 00 00 00 00 00";
const N0_N1: &str = "03 00 00 00 00 00 00 00";

fn bytes(hex: &str) -> Vec<u8> {
    let digits: Vec<u8> = hex
        .bytes()
        .filter(|b| !b.is_ascii_whitespace())
        .map(|b| (b as char).to_digit(16).unwrap() as u8)
        .collect();
    digits
        .chunks(2)
        .map(|pair| pair[0] << 4 | pair[1])
        .collect()
}

/// The first three numbers of a reply, whose others are 0.
fn three(reply: Reply) -> [u64; 3] {
    let [number, input, place, 0, 0] = reply else {
        panic!("{reply:?}");
    };
    [number, input, place]
}

fn fill(v: &[u8], p: &[u8], f: &[u8], out: &mut [u8]) -> [u64; 3] {
    three(reference::fill(v, p, f, out))
}

/// Fills with a space exactly as long, shorter ones and longer ones, and gives
/// the result.
fn filled(v: &str, p: &str, f: &str) -> Vec<u8> {
    let (v, p, f) = (bytes(v), bytes(p), bytes(f));
    let mut space = vec![0xee; 5000];
    let reply = fill(&v, &p, &f, &mut space);
    assert_eq!((reply[0], reply[2]), (0, 0), "{reply:?}");
    let length = reply[1] as usize;
    assert!(space[length..].iter().all(|&byte| byte == 0xee));
    space.truncate(length);
    for more in [0, 1, 2, 15, 16, 17] {
        let mut other = vec![0xdd; length + more];
        assert_eq!(fill(&v, &p, &f, &mut other), reply);
        assert_eq!(other[..length], space);
        assert!(other[length..].iter().all(|&byte| byte == 0xdd));
    }
    for less in [1, 2, length] {
        let mut other = vec![0xdd; length - less];
        assert_eq!(fill(&v, &p, &f, &mut other), [20, 3, length as u64]);
        assert!(other.iter().all(|&byte| byte == 0xdd));
    }
    space
}

/// The refusal, the same with any space, which stays as it was.
fn refused(v: &str, p: &str, f: &str) -> [u64; 3] {
    let (v, p, f) = (bytes(v), bytes(p), bytes(f));
    let mut space = vec![0xee; 5000];
    let reply = fill(&v, &p, &f, &mut space);
    assert!(reply[0] != 0 && space.iter().all(|&byte| byte == 0xee));
    assert_eq!(fill(&v, &p, &f, &mut []), reply);
    reply
}

/// Words with one place in B, so many, and what the last one holds.
fn more(words: usize, last: &str) -> String {
    format!("{} {last}", "01 01 ".repeat(words))
}

/// The full tree of pairs in C with so many levels.
fn pairs(levels: usize) -> String {
    match levels {
        1 => "00 00 ".to_string(),
        _ => format!("02 03 {}", pairs(levels - 1).repeat(2)),
    }
}

#[test]
fn names_are_replaced() {
    let wait = filled(A, "00 00 03 80 81", &format!("{N0_N1} 01 00 04 00"));
    assert_eq!(wait, bytes("00 00 03 01 00 04 00"));
    // A name that stands twice is written twice.
    let pair = filled(C, "00 02 03 80 80", &format!("{N0} 00 00"));
    assert_eq!(pair, bytes("00 02 03 00 00 00 00"));
    // Fillings stand by ascending names, wherever those stand in the pattern.
    let pair = filled(C, "00 02 03 81 80", &format!("{N0_N1} 00 00 01 00"));
    assert_eq!(pair, bytes("00 02 03 01 00 00 00"));
    // A whole pattern, and names 63, 8 and 7.
    let root = filled(C, "00 80", &format!("{N0} 02 03 00 00 01 00"));
    assert_eq!(root, bytes("00 02 03 00 00 01 00"));
    let last = filled(C, "00 bf", "00 00 00 00 00 00 00 80 01 00");
    assert_eq!(last, bytes("00 01 00"));
    let two = filled(C, "00 02 03 88 87", "80 01 00 00 00 00 00 00 00 00 01 00");
    assert_eq!(two, bytes("00 02 03 01 00 00 00"));
}

#[test]
fn open_places_stay_open() {
    let pair = filled(C, "00 02 01 80", &format!("{N0} 01 00"));
    assert_eq!(pair, bytes("00 02 01 01 00"));
    let pair = filled(C, "00 02 03 02 00 80", &format!("{N0} 01 00"));
    assert_eq!(pair, bytes("00 02 03 02 00 01 00"));
}

#[test]
fn no_names() {
    assert_eq!(filled(C, "00 ff", NONE), bytes("00 ff"));
    assert_eq!(filled(C, "00 02 00", NONE), bytes("00 02 00"));
    assert_eq!(filled(A, "00 00 03 01 00 03 00", NONE).len(), 7);
}

#[test]
fn the_vocabulary_and_the_pattern_come_first() {
    assert_eq!(refused("", "", ""), [1, 0, 0]);
    assert_eq!(refused("01 01 00 01 00", "", ""), [7, 1, 0]);
    assert_eq!(refused(C, "00", ""), [7, 1, 0]);
    assert_eq!(refused(C, "01 80", ""), [8, 1, 0]);
    assert_eq!(refused(C, "00 02 03 80", ""), [9, 1, 4]);
    assert_eq!(refused(A, "00 00 03 80 80", N0), [13, 1, 4]);
    assert_eq!(refused(C, "00 80 80", "02"), [15, 1, 2]);
    // 18 does not apply.
    assert_eq!(refused(C, "00 02 03 80 80", ""), [21, 4, 0]);
}

#[test]
fn maps_that_differ() {
    for length in 0..8 {
        assert_eq!(refused(C, "00 ff", &"00".repeat(length)), [21, 4, 0]);
        assert_eq!(refused(C, "00 bf", &"ff".repeat(length)), [21, 4, 0]);
    }
    assert_eq!(refused(C, "00 80", NONE), [21, 4, 0]);
    assert_eq!(refused(C, "00 85", NONE), [21, 4, 5]);
    assert_eq!(refused(C, "00 bf", NONE), [21, 4, 63]);
    assert_eq!(refused(C, "00 80", "01 00 00 00 00 00 00 80"), [21, 4, 63]);
    // Missing and extra: the lowest.
    assert_eq!(refused(C, "00 85", N0), [21, 4, 0]);
    assert_eq!(refused(C, "00 80", "02 00 00 00 00 00 00 00"), [21, 4, 0]);
    assert_eq!(refused(C, "00 ff", "00 00 00 01 00 00 00 00"), [21, 4, 24]);
    // 21 before 22.
    assert_eq!(
        refused(C, "00 80", "01 02 00 00 00 00 00 00 ff"),
        [21, 4, 9]
    );
}

#[test]
fn fillings_at_fault() {
    let one = |rest: &str| refused(C, "00 80", &format!("{N0} {rest}"));
    // A reading's own example.
    assert_eq!(one("02 01 00 00"), [22, 4, 9]);
    assert_eq!(one(""), [22, 4, 8]);
    assert_eq!(one("00"), [22, 4, 9]);
    assert_eq!(one("02 03"), [22, 4, 10]);
    assert_eq!(one("02 03 00"), [22, 4, 11]);
    assert_eq!(one("02 03 00 00"), [22, 4, 12]);
    assert_eq!(one("80"), [22, 4, 8]);
    assert_eq!(one("ff"), [22, 4, 8]);
    assert_eq!(one("03 00"), [22, 4, 8]);
    assert_eq!(one("00 01"), [22, 4, 9]);
    assert_eq!(one("02 07"), [22, 4, 9]);
    assert_eq!(one("02 03 80 00 00"), [22, 4, 10]);
    assert_eq!(one("02 03 00 00 ff"), [22, 4, 12]);
    assert_eq!(one("02 03 00 00 02 00"), [22, 4, 13]);
    assert_eq!(one("00 00 00"), [22, 4, 10]);
    assert_eq!(refused(C, "00 ff", &format!("{NONE} 00")), [22, 4, 8]);
    // Each filling by its own name's kind; the first fault decides.
    let both = |rest: &str| refused(A, "00 00 03 80 81", &format!("{N0_N1} {rest}"));
    assert_eq!(both("03 00 01 00"), [22, 4, 8]);
    assert_eq!(both("01 00 01 00"), [22, 4, 10]);
    assert_eq!(both("01 00"), [22, 4, 10]);
    assert_eq!(both("01 00 03"), [22, 4, 11]);
    assert_eq!(both("01 00 03 00 03 00"), [22, 4, 12]);
}

#[test]
fn levels_of_fillings_and_results() {
    let deep = more(31, "00 00");
    assert_eq!(filled(B, "00 80", &format!("{N0} {deep}")).len(), 65);
    for last in ["00 00", "00", "", "80", "ff", "07"] {
        let deeper = more(32, last);
        assert_eq!(refused(B, "00 80", &format!("{N0} {deeper}")), [22, 4, 72]);
    }
    // Level 32 of the result, and level 33.
    let half = more(15, "80");
    let pattern = format!("00 {half}");
    let filling = |words| format!("{N0} {}", more(words, "00 00"));
    assert_eq!(filled(B, &pattern, &filling(16)).len(), 65);
    assert_eq!(refused(B, &pattern, &filling(17)), [23, 4, 0]);
    assert_eq!(
        refused(B, &format!("00 {}", more(31, "80")), &filling(1)),
        [23, 4, 0]
    );
    // The deepest of a name's places decides, whichever comes first.
    let below = "03 01 ".repeat(20);
    let filling = |words: usize| format!("{N0} {} 00 00", "03 01 ".repeat(words));
    for pattern in [
        format!("00 02 03 {below} 80 80"),
        format!("00 02 03 80 {below} 80"),
    ] {
        assert_eq!(filled(D, &pattern, &filling(10)).len(), 3 + 40 + 2 * 22);
        assert_eq!(refused(D, &pattern, &filling(11)), [23, 4, 0]);
    }
    // An open place counts as no level.
    let open = more(31, "01 00");
    assert_eq!(filled(B, &format!("00 {open}"), NONE).len(), 65);
}

#[test]
fn lengths_of_fillings_and_results() {
    // The tree of 11 levels has 2047 words.
    assert_eq!(
        filled(C, "00 80", &format!("{N0} {}", pairs(11))).len(),
        4095
    );
    let half = format!("{N0} {}", pairs(10));
    assert_eq!(filled(C, "00 02 03 80 80", &half).len(), 4095);
    let longer = format!("{N0} 02 03 {} 02 03 00 00 00 00", pairs(10));
    assert_eq!(filled(C, "00 80", &longer).len(), 1 + 2 + 2046 + 6);
    // 4,097 bytes: a pair for the last leaf's place in the pattern.
    let whole = pairs(11);
    let (front, _) = whole.rsplit_once("00 00").unwrap();
    let over = format!("{N0} {front} 02 03 00 00 00 00");
    assert_eq!(refused(C, "00 80", &over), [23, 4, 0]);
    assert_eq!(
        refused(C, "00 02 03 80 80", &format!("{N0} {}", pairs(11))),
        [23, 4, 0]
    );
    let last = format!("{front} 80");
    assert_eq!(
        filled(D, &format!("00 {last}"), &format!("{N0} 00 00")).len(),
        4095
    );
    assert_eq!(
        refused(D, &format!("00 {last}"), &format!("{N0} 03 01 00 00")),
        [23, 4, 0]
    );
    // A long file: 23 if it is in order, and 22 if it is not.
    let long = format!("{N0} 02 03 {} {}", pairs(11), pairs(11));
    assert_eq!(bytes(&long).len(), 8 + 2 + 2 * 4094);
    assert_eq!(refused(C, "00 80", &long), [23, 4, 0]);
    assert_eq!(refused(C, "00 80", &format!("{long} 00")), [22, 4, 8198]);
    let (front, _) = long.trim_end().rsplit_once(' ').unwrap();
    assert_eq!(refused(C, "00 80", front), [22, 4, 8197]);
    assert_eq!(refused(C, "00 80", &format!("{front} 01")), [22, 4, 8197]);
}

#[test]
fn matching_gives_the_fillings_back() {
    let result = filled(A, "00 00 03 80 81", &format!("{N0_N1} 01 00 04 00"));
    let mut table = [0; 128];
    let yes = reference::match_pattern(&bytes(A), &bytes("00 00 03 80 81"), &result, &mut table);
    assert_eq!((three(yes), &table[..4]), ([0, 1, 0], &[3, 2, 5, 2][..]));
}
