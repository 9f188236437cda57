//! The document's examples, its readings, and the boundary of each refusal.

use reference::{leftovers, Reply};

const A: &str = "03 06 00 03 01 02 01 00 01 00 02 00 02 00 00 00";
const B: &str = "01 02 00 00 00 01 00";
const C: &str = "01 03 00 00 00 00 00 03 00 00";

fn bytes(hex: &str) -> Vec<u8> {
    let digits: Vec<u8> = hex
        .bytes()
        .filter(|b| !b.is_ascii_whitespace())
        .map(|b| (b as char).to_digit(16).unwrap() as u8)
        .collect();
    digits
        .chunks(2)
        .map(|pair| pair[0] << 4 | pair[1])
        .collect()
}

/// The first three numbers of a reply, whose others are 0. An accepted term has
/// more, and `accepted` for its values.
fn three(reply: Reply) -> [u64; 3] {
    let [one, two, three, 0, 0] = reply else {
        panic!("{reply:?}");
    };
    [one, two, three]
}

fn check_vocabulary(v: &[u8]) -> [u64; 3] {
    three(reference::check_vocabulary(v))
}

fn check_term(v: &[u8], t: &[u8]) -> [u64; 3] {
    three(reference::check_term(v, t))
}

fn match_pattern(v: &[u8], p: &[u8], s: &[u8], table: &mut [u16]) -> [u64; 3] {
    three(reference::match_pattern(v, p, s, table))
}

fn part(v: &[u8], p: &[u8], s: &[u8], name: u64) -> [u64; 3] {
    three(reference::part(v, p, s, name))
}

fn list(v: &[u8], p: &[u8], out: &mut [u8]) -> [u64; 3] {
    three(reference::list(v, p, out))
}

fn vocabulary(hex: &str) -> [u64; 3] {
    check_vocabulary(&bytes(hex))
}

fn term(v: &str, t: &str) -> [u64; 3] {
    check_term(&bytes(v), &bytes(t))
}

/// The values of an accepted term: words, deepest level, whether it is
/// complete, and its gap.
fn accepted(v: &str, t: &str) -> [u64; 4] {
    let reply = reference::check_term(&bytes(v), &bytes(t));
    let [0, values @ ..] = reply else {
        panic!("{reply:?}");
    };
    values
}

/// The reply and table of a match; the table is full of 7s before.
fn matched(v: &str, p: &str, s: &str) -> ([u64; 3], [u16; 128]) {
    let mut table = [7; 128];
    let reply = match_pattern(&bytes(v), &bytes(p), &bytes(s), &mut table);
    if reply != [0, 1, 0] {
        assert_eq!(table, [7; 128]);
    }
    (reply, table)
}

/// A table that is 0 except for the given names.
fn table(parts: &[(usize, u16, u16)]) -> [u16; 128] {
    let mut table = [0; 128];
    for &(name, offset, length) in parts {
        table[2 * name] = offset;
        table[2 * name + 1] = length;
    }
    table
}

/// Lists with a space exactly as long, one less, one more and much more, and
/// gives the listing and the number of entries.
fn listed(v: &str, p: &str) -> (u64, Vec<u8>) {
    let (v, p) = (bytes(v), bytes(p));
    let mut space = vec![0xee; 10_000];
    let reply = list(&v, &p, &mut space);
    assert_eq!(reply[0], 0, "{reply:?}");
    let length = reply[2] as usize;
    assert!(space[length..].iter().all(|&byte| byte == 0xee));
    space.truncate(length);
    for more in [0, 1, 2, 31, 32, 33] {
        let mut other = vec![0xdd; length + more];
        assert_eq!(list(&v, &p, &mut other), reply);
        assert_eq!(other[..length], space);
        assert!(other[length..].iter().all(|&byte| byte == 0xdd));
    }
    for less in [1, 2, length] {
        if less <= length && length > 0 {
            let mut other = vec![0xdd; length - less];
            assert_eq!(list(&v, &p, &mut other), [20, 3, length as u64]);
            assert!(other.iter().all(|&byte| byte == 0xdd));
        }
    }
    (reply[1], space)
}

fn refused_list(v: &str, p: &str) -> [u64; 3] {
    let mut space = vec![0xee; 1000];
    let reply = list(&bytes(v), &bytes(p), &mut space);
    assert!(reply[0] != 0 && space.iter().all(|&byte| byte == 0xee));
    reply
}

fn program(input: &[u8]) -> String {
    String::from_utf8(leftovers(input)).unwrap()
}

#[test]
fn bench_examples() {
    assert_eq!(
        listed(A, "00 00 03 01 00 03 00"),
        (3, bytes("000500 0000010200 00000301000400"))
    );
    let mut input = bytes("00 10");
    input.extend(bytes(A));
    input.extend(bytes("00 00 03 01 00 03 00"));
    assert_eq!(
        program(&input),
        "leftovers 3\n1 000500\n2 0000010200\n3 00000301000400\n"
    );
    assert_eq!(
        list(&bytes(A), &bytes("00 00 03 01 00 03 00"), &mut [0; 15]),
        [0, 3, 15]
    );
    assert_eq!(
        list(&bytes(A), &bytes("00 00 03 01 00 03 00"), &mut [0; 14]),
        [20, 3, 15]
    );
    assert_eq!(
        listed(B, "00 01 01 01 01 00 00"),
        (3, bytes("000000 0001010000 00010101010100"))
    );
    assert_eq!(listed(C, "00 ff"), (0, vec![]));
    let yes = matched(C, "00 02 03 80 80", "00 02 03 00 00 00 00");
    assert_eq!(yes, ([0, 1, 0], table(&[(0, 3, 2)])));
    assert_eq!(
        matched(C, "00 02 03 80 80", "00 02 03 00 00 01 00").0,
        [0, 0, 0]
    );
    assert_eq!(refused_list(C, "00 02 03 80 80"), [18, 1, 4]);
    let yes = matched(C, "00 80", "00 02 03 00 00 00 00");
    assert_eq!(yes, ([0, 1, 0], table(&[(0, 1, 6)])));
    assert_eq!(matched(C, "00 ff", "00 02 01 00 00").0, [16, 2, 2]);
    assert_eq!(vocabulary("01 01 00 01 00"), [0, 0, 0]);
    for v in [A, B, C] {
        assert_eq!(vocabulary(v), [0, 0, 0]);
    }
    let deep = format!("00 {} 00 00", "01 01 ".repeat(31));
    assert_eq!(accepted(B, &deep), [32, 32, 1, 65]);
    let deeper = format!("00 {} 00 00", "01 01 ".repeat(32));
    assert_eq!(term(B, &deeper), [10, 1, 65]);
    assert_eq!(term(B, "00"), [7, 1, 0]);
}

#[test]
fn readings_of_vocabularies() {
    for byte in 0..=255u8 {
        assert_eq!(check_vocabulary(&[byte]), [1, 0, 0]);
    }
    assert_eq!(check_vocabulary(&[]), [1, 0, 0]);
    assert_eq!(vocabulary("00 00"), [1, 0, 0]);
    assert_eq!(vocabulary("11 00"), [1, 0, 0]);
    assert_eq!(vocabulary("01 61"), [2, 0, 1]);
    assert_eq!(vocabulary("01 00"), [2, 0, 1]);
    assert_eq!(vocabulary("01 01 00 01 00 00"), [5, 0, 5]);
    assert_eq!(vocabulary("02 01 00 00"), [0, 0, 0]);
    // The longest vocabulary in which every kind has situations, and the
    // longest accepted one.
    let mut longest = bytes("01 60 00 00");
    for _ in 0..95 {
        longest.extend(bytes("00 ff 00 00 00 00 00 00 00 00"));
    }
    assert_eq!(longest.len(), 954);
    assert_eq!(check_vocabulary(&longest), [0, 0, 0]);
    longest.push(0);
    assert_eq!(check_vocabulary(&longest), [5, 0, 954]);
    let mut full = bytes("01 60");
    for _ in 0..96 {
        full.extend(bytes("00 ff 00 00 00 00 00 00 00 00"));
    }
    assert_eq!(full.len(), 962);
    assert_eq!(check_vocabulary(&full), [0, 0, 0]);
    assert_eq!(check_vocabulary(&full[..961]), [3, 0, 961]);
    full.extend([0; 8]);
    assert_eq!(check_vocabulary(&full), [5, 0, 962]);
}

#[test]
fn readings_of_terms() {
    assert_eq!(term(C, "07"), [7, 1, 0]);
    let mut long = vec![0u8; 4097];
    long[1] = 0x7f;
    assert_eq!(check_term(&bytes(C), &long), [7, 1, 0]);
    assert_eq!(check_term(&bytes(C), &long[..4096]), [11, 1, 1]);
    let deep = format!("00 {}", "01 01 ".repeat(32));
    assert_eq!(term(B, &deep), [9, 1, 65]);
    for byte in ["00", "01", "07", "80", "bf", "c0", "ff"] {
        assert_eq!(term(B, &format!("{deep} {byte}")), [10, 1, 65]);
    }
    assert_eq!(term(C, "00 02 03 ff"), [11, 1, 3]);
    assert_eq!(term(C, "00 03"), [11, 1, 1]);
    // A pattern's names do not bind a situation's, so 16 and not 13 here.
    let pattern = "00 00 03 80 81";
    assert_eq!(matched(A, pattern, "00 00 03 81 80").0, [16, 2, 3]);
    assert_eq!(matched(A, pattern, "00 00 03 80 80").0, [13, 2, 4]);
    assert_eq!(accepted(C, "00 ff"), [0, 1, 0, 1]);
    assert_eq!(accepted(C, "00 80"), [0, 1, 0, 1]);
    assert_eq!(matched(C, "00 ff", "00 02 01 00 00 07").0, [15, 2, 5]);
    assert_eq!(matched(A, "00 ff", "01 80").0, [16, 2, 1]);
}

#[test]
fn readings_of_calls() {
    // 16 and 17 before 19, and 19 before a no.
    for length in [0, 127, 129, 256] {
        let mut lent = vec![7u16; length];
        let mut reply = |v: &str, p: &str, s: &str| {
            let reply = match_pattern(&bytes(v), &bytes(p), &bytes(s), &mut lent);
            assert!(lent.iter().all(|&number| number == 7));
            reply
        };
        assert_eq!(reply(C, "00 ff", "00 02 01 00 00"), [16, 2, 2]);
        assert_eq!(reply(A, "00 ff", "01 01 00"), [17, 2, 0]);
        assert_eq!(reply(C, "00 00 00", "00 01 00"), [19, 3, 0]);
        assert_eq!(reply(C, "00 00 00", "00 00 00"), [19, 3, 0]);
        assert_eq!(reply(C, "00 00 00", "00 80"), [16, 2, 1]);
    }
    assert_eq!(
        refused_list(C, "00 02 03 02 03 80 81 02 03 81 80"),
        [18, 1, 9]
    );
    let (one, two) = (bytes("00 80"), bytes("00 02 03 00 00 00 00"));
    assert_eq!(part(&bytes(C), &one, &two, 0), [0, 1, 6]);
    for name in [1, 63, 64, 128, 255, 256, u64::MAX] {
        assert_eq!(part(&bytes(C), &one, &two, name), [0, 0, 0]);
    }
    assert_eq!(
        listed(C, "00 02 03 80 00 00"),
        (4, bytes("000000 000100 000203800100 000203800200"))
    );
    // 15 before 18.
    assert_eq!(refused_list(C, "00 02 03 80 80 00"), [15, 1, 5]);
    // 18 before 20.
    assert_eq!(
        list(&bytes(C), &bytes("00 02 03 80 80"), &mut []),
        [18, 1, 4]
    );
}

#[test]
fn readings_of_the_program() {
    assert_eq!(program(&[]), "refused 1 0 0\n");
    assert_eq!(program(&[0]), "refused 1 0 0\n");
    assert_eq!(program(&[0, 0]), "refused 1 0 0\n");
    let mut input = vec![0, 11];
    input.extend(bytes(C));
    assert_eq!(program(&input), "refused 7 1 0\n");
    input[1] = 10;
    assert_eq!(program(&input), "refused 7 1 0\n");
    input.extend([0, 255]);
    assert_eq!(program(&input), "leftovers 0\n");
    input.resize(100_000, 0);
    assert_eq!(program(&input), "refused 7 1 0\n");
    input[0] = 255;
    input[1] = 255;
    assert_eq!(program(&input), "refused 5 0 10\n");
    // A listing of more bytes than the program has.
    let mut v = bytes("01 60");
    v.extend(bytes("00 00").repeat(95));
    v.extend(bytes("00 03 00 00"));
    let mut input = vec![(v.len() >> 8) as u8, v.len() as u8];
    input.extend(&v);
    let mut pattern = vec![0];
    for _ in 0..20 {
        pattern.extend([95, 3, 0, 0]);
    }
    pattern.extend([0, 0]);
    let total: u64 = (0..41u64).map(|i| 95 * (1 + 2 * i + 2)).sum();
    assert_eq!(list(&v, &pattern, &mut []), [20, 3, total]);
    input.extend(&pattern);
    assert_eq!(program(&input), format!("refused 20 3 {total}\n"));
    // One of just as many: 32 others at each word but the root.
    let mut v = bytes("02 22 00 ff 01 01 01 01 01 01 01 01 01 ff 01 01 01 01 01 01 01 01");
    v.extend(bytes("01 00").repeat(32));
    let mut pattern = bytes("00 00 3f");
    pattern.extend(bytes(&format!("01 ff {}", "02 00".repeat(8))));
    pattern.extend(bytes(&format!("01 3f {}", "02 00".repeat(6))));
    pattern.push(0x80);
    pattern.extend(bytes(&format!("01 ff {}", "02 00".repeat(8))).repeat(3));
    assert_eq!(list(&v, &pattern, &mut []), [20, 3, 65_536]);
    let mut input = vec![0, v.len() as u8];
    input.extend(&v);
    input.extend(&pattern);
    let text = program(&input);
    assert!(
        text.starts_with("leftovers 1376\n1 0000010200\n"),
        "{}",
        &text[..40]
    );
    assert_eq!(text.lines().count(), 1377);
    input[2 + v.len() + 2] = 0x7f;
    input.extend([2, 0]);
    assert_eq!(
        program(&input),
        format!("refused 20 3 {}\n", 65_536 + 32 * (pattern.len() + 2))
    );
}

#[test]
fn refusals_of_vocabularies() {
    // 3 and 4, the earlier byte.
    assert_eq!(vocabulary("01 01"), [3, 0, 2]);
    assert_eq!(vocabulary("01 01 00"), [3, 0, 3]);
    assert_eq!(vocabulary("01 01 01"), [4, 0, 2]);
    assert_eq!(vocabulary("01 01 00 03"), [3, 0, 4]);
    assert_eq!(vocabulary("01 01 00 03 00"), [3, 0, 5]);
    assert_eq!(vocabulary("01 01 00 03 01"), [4, 0, 4]);
    assert_eq!(vocabulary("01 01 00 03 00 01"), [4, 0, 5]);
    assert_eq!(vocabulary("01 02 00 00"), [3, 0, 4]);
    assert_eq!(vocabulary("01 02 00 00 01"), [4, 0, 4]);
    // The same with many bytes behind.
    let many = "00".repeat(20);
    assert_eq!(vocabulary(&format!("01 01 01 {many}")), [4, 0, 2]);
    for bad in 0..8 {
        let mut v = bytes("10 02 00 ff 00 00 00 00 00 00 00 00");
        v[4 + bad] = 16;
        v.extend(bytes(&many));
        assert_eq!(check_vocabulary(&v), [4, 0, 4 + bad as u64]);
        v[4 + bad] = 255;
        v[11] = 128;
        assert_eq!(check_vocabulary(&v), [4, 0, 4 + bad as u64]);
        v[4 + bad] = 15;
        v[11] = 15;
        assert_ne!(check_vocabulary(&v)[0], 4);
    }
    // 5 at the first byte behind; 6 is no longer given.
    assert_eq!(vocabulary("01 01 00 00 00"), [5, 0, 4]);
    assert_eq!(vocabulary("03 03 00 01 01 01 01 00 02 00"), [0, 0, 0]);
    assert_eq!(vocabulary("03 03 00 00 01 01 01 02 01 00"), [0, 0, 0]);
    // Sixteen kinds, each needing the next.
    let mut chain = vec![16, 16];
    for kind in 0..15 {
        chain.extend([kind, 0x80, kind + 1]);
    }
    chain.extend([15, 0]);
    assert_eq!(check_vocabulary(&chain), [0, 0, 0]);
    chain[1] = 15;
    let shorter = &chain[..chain.len() - 2];
    assert_eq!(check_vocabulary(shorter), [0, 0, 0]);
}

#[test]
fn refusals_of_terms() {
    assert_eq!(term(C, ""), [7, 1, 0]);
    assert_eq!(term(C, "01 ff"), [8, 1, 0]);
    assert_eq!(term(A, "03 ff"), [8, 1, 0]);
    assert_eq!(accepted(A, "02 ff"), [0, 1, 0, 1]);
    assert_eq!(term(C, "00 02"), [9, 1, 2]);
    assert_eq!(term(C, "00 02 03"), [9, 1, 3]);
    assert_eq!(term(C, "00 02 03 00"), [9, 1, 4]);
    assert_eq!(term(C, "00 02 03 00 00"), [9, 1, 5]);
    assert_eq!(accepted(C, "00 02 02 00 00"), [2, 2, 0, 2]);
    assert_eq!(accepted(C, "00 02 00"), [1, 1, 0, 2]);
    for byte in ["03", "5f", "60", "7f", "c0", "fe"] {
        assert_eq!(term(C, &format!("00 {byte}")), [11, 1, 1]);
        assert_eq!(term(C, &format!("00 02 03 {byte}")), [11, 1, 3]);
    }
    assert_eq!(term(A, "00 01 00"), [12, 1, 1]);
    assert_eq!(term(A, "00 01"), [12, 1, 1]);
    assert_eq!(term(A, "00 00 03 03 00"), [12, 1, 3]);
    assert_eq!(term(A, "00 00 03 80 80"), [13, 1, 4]);
    assert_eq!(accepted(A, "00 00 03 80 81"), [1, 2, 0, 3]);
    assert_eq!(term(A, "00 00 04"), [14, 1, 2]);
    assert_eq!(term(A, "00 00 83 80 80"), [14, 1, 2]);
    assert_eq!(term(C, "00 00 00 00"), [15, 1, 3]);
    assert_eq!(term(C, "00 ff 00"), [15, 1, 2]);
    assert_eq!(term(C, "00 80 80"), [15, 1, 2]);
    // A name at level 32 and at level 33.
    let deep = format!("00 {} 80", "01 01 ".repeat(31));
    assert_eq!(accepted(B, &deep), [31, 32, 0, 63]);
    let deeper = format!("00 {} 80", "01 01 ".repeat(32));
    assert_eq!(term(B, &deeper), [10, 1, 65]);
    // An open place is no level.
    let open = format!("00 {} 01 00", "01 01 ".repeat(31));
    assert_eq!(accepted(B, &open), [32, 32, 0, 64]);
    // Gapped maps: a place that the word lacks is no place.
    let v = "01 02 00 00 00 a0 00 00";
    assert_eq!(accepted(v, "00 01 a0 00 00 00 00"), [3, 2, 1, 7]);
    assert_eq!(accepted(v, "00 01 80 00 00"), [2, 2, 0, 2]);
    assert_eq!(term(v, "00 01 10 00 00"), [14, 1, 2]);
    assert_eq!(listed(v, "00 01 80 00 00"), (2, bytes("000000 0001800100")));
    // Sizes of 2 to 4,096 bytes.
    let v = bytes("01 03 00 00 00 03 00 00 00 ff 00 00 00 00 00 00 00 00");
    let mut flat = vec![0];
    fill(&mut flat, 1, 4095);
    assert_eq!(flat.len(), 4096);
    assert_eq!(reference::check_term(&v, &flat)[0], 0);
    flat.push(0x80);
    assert_eq!(check_term(&v, &flat), [7, 1, 0]);
}

#[test]
fn completeness_of_terms() {
    // The length of a complete term, with its kind byte.
    for (v, t) in [
        (C, "00 00 00"),
        (A, "01 01 00"),
        (A, "00 00 03 01 00 03 00"),
        (C, "00 02 03 02 03 00 00 01 00 02 03 01 00 00 00"),
        (
            "01 02 00 00 00 a0 00 00",
            "00 01 a0 00 00 01 a0 00 00 00 00",
        ),
    ] {
        assert_eq!(accepted(v, t)[2..], [1, bytes(t).len() as u64], "{t}");
    }
    let full = format!("00 {}", pairs(11));
    assert_eq!(accepted(C, &full), [2047, 11, 1, 4095]);
    let front = full.strip_suffix("00 00 ").unwrap();
    assert_eq!(accepted(C, &format!("{front} 80")), [2046, 11, 0, 4093]);
    assert_eq!(accepted(C, &format!("{front} 02 00")), [2047, 11, 0, 4094]);
    assert_eq!(accepted(C, &format!("{front} 02 01 80"))[2..], [0, 4094]);
    // The first name, 255 or short map, as 16 has it.
    for (v, t, gap) in [
        (C, "00 ff", 1),
        (C, "00 bf", 1),
        (C, "00 02 03 80 81", 3),
        (C, "00 02 03 00 00 81", 5),
        (C, "00 02 03 02 03 00 00 80 80", 7),
        (C, "00 02 00", 2),
        (C, "00 02 02 80", 2),
        (C, "00 02 03 02 01 00 00 00 00", 4),
        (C, "00 02 03 02 02 80 81", 4),
        (C, "00 02 03 80 02 00", 3),
        (C, "00 02 03 00 00 02 01 80", 6),
        ("01 02 00 00 00 a0 00 00", "00 01 a0 00 00 01 20 00 00", 6),
    ] {
        assert_eq!(accepted(v, t)[2..], [0, gap], "{t}");
        assert_eq!(matched(v, "00 ff", t).0, [16, 2, gap], "{t}");
    }
    // A refused term has none, also behind a gap.
    assert_eq!(term(C, "00 80 00"), [15, 1, 2]);
    assert_eq!(term(C, "00 02 03 80 03"), [11, 1, 4]);
}

/// The full tree of pairs in C with so many levels.
fn pairs(levels: usize) -> String {
    match levels {
        1 => "00 00 ".to_string(),
        _ => format!("02 03 {}", pairs(levels - 1).repeat(2)),
    }
}

/// Adds a term of so many bytes: names, and words with two places.
fn fill(out: &mut Vec<u8>, level: usize, size: usize) {
    match size {
        1 => out.push(0x80),
        2 => out.extend([0, 0]),
        3 => out.extend([1, 1, 0x80]),
        _ => {
            assert!(level < 32);
            out.extend([1, 3]);
            let half = (size - 2) / 2;
            fill(out, level + 1, half);
            fill(out, level + 1, size - 2 - half);
        }
    }
}

#[test]
fn refusals_in_order() {
    // The vocabulary before the pattern, that before the situation.
    assert_eq!(matched("00", "07", "07").0, [1, 0, 0]);
    assert_eq!(matched(C, "07", "07").0, [7, 1, 0]);
    assert_eq!(matched(C, "00 ff", "07").0, [7, 2, 0]);
    assert_eq!(matched(C, "00 03", "").0, [11, 1, 1]);
    assert_eq!(matched(C, "00 ff 00", "00 02").0, [15, 1, 2]);
    assert_eq!(matched(C, "00 ff", "01 02").0, [8, 2, 0]);
    assert_eq!(matched(A, "00 ff", "01 01 00").0, [17, 2, 0]);
    assert_eq!(matched(A, "01 ff", "01 01 00").0, [0, 1, 0]);
    // A fault of the pattern behind one of the situation.
    assert_eq!(matched(C, "00 02 03 80 03", "00 02 03 07").0, [11, 1, 4]);
    assert_eq!(matched(C, "00 02 03 80 80", "00 02 03 07").0, [11, 2, 3]);
    assert_eq!(matched(C, "00 02 02 00", "00 02 03 00 01").0, [9, 1, 4]);
    // A short map, the first one, also where the pattern is open.
    assert_eq!(
        matched(C, "00 02 00", "00 02 03 02 01 00 00 02 00").0,
        [16, 2, 4]
    );
    assert_eq!(
        matched(C, "00 02 00", "00 02 03 02 03 00 00 02 00 80").0,
        [16, 2, 8]
    );
    // Levels of a situation below a name.
    let one = format!("00 {} 80", "01 01 ".repeat(31));
    let deep = format!("00 {} 00 00", "01 01 ".repeat(31));
    assert_eq!(matched(B, &one, &deep), ([0, 1, 0], table(&[(0, 63, 2)])));
    let deeper = format!("00 {} 00 00", "01 01 ".repeat(32));
    assert_eq!(matched(B, &one, &deeper).0, [10, 2, 65]);
}

#[test]
fn repeated_names() {
    // The first occurrence counts, also when the second stands deeper.
    let s = "00 02 03 02 03 00 00 01 00 02 03 02 03 00 00 01 00 00 00";
    let yes = matched(C, "00 02 03 81 02 03 81 80", s);
    assert_eq!(yes, ([0, 1, 0], table(&[(0, 17, 2), (1, 3, 6)])));
    let yes = matched(C, "00 02 03 02 03 80 81 02 03 02 03 80 81 80", s);
    assert_eq!(yes, ([0, 1, 0], table(&[(0, 5, 2), (1, 7, 2)])));
    let no = matched(C, "00 02 03 02 03 80 80 02 00", s);
    assert_eq!(no.0, [0, 0, 0]);
    // A second occurrence whose part would be too deep is refused.
    let v = "01 03 00 00 00 01 00 00 03 00 00";
    let chain = |n: usize| "01 01 ".repeat(n);
    let s = format!(
        "00 02 03 {} 00 00 {} {} 00 00",
        chain(20),
        chain(10),
        chain(20)
    );
    let p = format!("00 02 03 80 {} 80", chain(10));
    assert_eq!(
        matched(v, &p, &s),
        ([0, 1, 0], table(&[(0, 3, 42)])).clone()
    );
    let s = format!(
        "00 02 03 {} 00 00 {} {} 00 00",
        chain(20),
        chain(11),
        chain(20)
    );
    let p = format!("00 02 03 80 {} 80", chain(11));
    assert_eq!(matched(v, &p, &s).0, [10, 2, 3 + 42 + 2 * 31]);
    // Names 0 and 63, and part at the first occurrence.
    let yes = matched(C, "00 02 03 bf 80", "00 02 03 00 00 01 00");
    assert_eq!(yes, ([0, 1, 0], table(&[(63, 3, 2), (0, 5, 2)])));
    let (p, s) = (bytes("00 02 03 bf bf"), bytes("00 02 03 01 00 01 00"));
    assert_eq!(part(&bytes(C), &p, &s, 63), [0, 3, 2]);
    assert_eq!(part(&bytes(C), &p, &s, 0), [0, 0, 0]);
    assert_eq!(
        part(&bytes(C), &p, &bytes("00 02 03 01 00 00 00"), 63),
        [0, 0, 0]
    );
    assert_eq!(
        part(&bytes(C), &p, &bytes("00 02 03 01 00 80"), 63),
        [0, 0, 0]
    );
    assert_eq!(part(&bytes("00"), &p, &s, 63), [0, 0, 0]);
}

#[test]
fn deep_and_wide_listings() {
    // Each level lists the other word, with the levels above.
    let deep = format!("00 {} 00 00", "01 01 ".repeat(31));
    let (entries, whole) = listed(B, &deep);
    assert_eq!(entries, 32);
    let mut expected = vec![];
    for level in 0..31 {
        expected.extend(bytes(&format!("00 {} 00 00", "01 01 ".repeat(level))));
    }
    expected.extend(bytes(&format!("00 {} 01 00", "01 01 ".repeat(31))));
    assert_eq!(whole, expected);
    // Eight places with two choices each.
    let v = "02 03 00 ff 01 01 01 01 01 01 01 01 01 00 01 00";
    let (entries, whole) = listed(
        v,
        "00 00 ff 01 00 02 00 01 00 02 00 01 00 02 00 01 00 02 00",
    );
    assert_eq!(entries, 8);
    let mut expected = vec![];
    for place in 0..8usize {
        expected.extend([0, 0, (2u16 << place).wrapping_sub(1) as u8]);
        for lower in 0..place {
            expected.extend([1 + lower as u8 % 2, 0]);
        }
        expected.extend([2 - place as u8 % 2, 0]);
    }
    assert_eq!(whole, expected);
}
