//! The program `leftovers`.

use crate::vocabulary::ONES;

/// How many bytes are read, and how many there are for the listing.
const SPACE: u64 = 65_536;

/// The length of the first entry of a listing.
pub(crate) fn entry_length(listing: &[u8]) -> usize {
    let mut at = 1;
    let mut terms = 1;
    while terms != 0 {
        match listing.get(at..) {
            Some([word, map, ..]) if *word < 128 => {
                terms = terms + ONES[*map as usize] as usize - 1;
                at += 2;
            }
            Some([_, ..]) => {
                terms -= 1;
                at += 1;
            }
            _ => return listing.len(),
        }
    }
    at
}

/// Appends a number in decimal.
fn decimal(text: &mut Vec<u8>, mut number: u64) {
    let mut digits = [0u8; 20];
    let mut from = digits.len();
    loop {
        from -= 1;
        digits[from] = b'0' + (number % 10) as u8;
        number /= 10;
        if number == 0 {
            break;
        }
    }
    text.extend_from_slice(&digits[from..]);
}

/// The bytes printed for this standard input.
pub(crate) fn leftovers(input: &[u8]) -> Vec<u8> {
    let input = &input[..input.len().min(SPACE as usize)];
    let (vocabulary, pattern): (&[u8], &[u8]) = match input {
        [high, low, rest @ ..] => {
            let length = (*high as usize) << 8 | *low as usize;
            rest.split_at(length.min(rest.len()))
        }
        _ => (&[], &[]),
    };
    let mut space = Vec::new();
    let mut reply = crate::list(vocabulary, pattern, &mut space);
    if let [20, 3, length @ 0..=SPACE, ..] = reply {
        space.resize(length as usize, 0);
        reply = crate::list(vocabulary, pattern, &mut space);
    }
    let mut text = Vec::new();
    if reply[0] != 0 {
        text.extend_from_slice(b"refused");
        for number in &reply[..3] {
            text.push(b' ');
            decimal(&mut text, *number);
        }
        text.push(b'\n');
        return text;
    }
    let [_, entries, bytes, ..] = reply;
    text.reserve(32 + 2 * bytes as usize + 10 * entries as usize);
    text.extend_from_slice(b"leftovers ");
    decimal(&mut text, entries);
    text.push(b'\n');
    let mut rest = &space[..bytes as usize];
    for number in 1..=entries {
        let (entry, tail) = rest.split_at(entry_length(rest));
        rest = tail;
        decimal(&mut text, number);
        text.push(b' ');
        text.extend(entry.iter().flat_map(|byte| {
            [
                b"0123456789abcdef"[*byte as usize >> 4],
                b"0123456789abcdef"[*byte as usize & 15],
            ]
        }));
        text.push(b'\n');
    }
    text
}
