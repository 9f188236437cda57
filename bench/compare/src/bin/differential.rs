//! Runs the archive and the reference on the same generated inputs and compares everything that
//! each call answers and writes.
//!
//! Arguments: the number of cases (1,000,000) and the seed (1).

use compare::{archive, sorted_entries, Reply};
use reference::generate::{BookCase, Case, Gen};
use std::collections::BTreeMap;
use std::fmt::Display;
use std::process::exit;

/// How much is lent around a slice to see that nothing is written beside it.
const MARGIN: usize = 64;

const CALLS: [&str; 8] = [
    "vocabulary",
    "pattern",
    "situation",
    "match",
    "part",
    "list",
    "fill",
    "book",
];

/// What a call gave: a refusal's number, or 0 and in which way it was accepted.
type Outcome = (u64, &'static str);

/// How often each call gave each outcome.
#[derive(Default)]
struct Seen(BTreeMap<Outcome, [u64; 8]>);

impl Seen {
    fn add(&mut self, call: &'static str, outcome: Outcome) {
        let at = CALLS.iter().position(|&known| known == call).unwrap_or(0);
        self.0.entry(outcome).or_default()[at] += 1;
    }

    fn print(&self) {
        print!("{:14}", "");
        CALLS.iter().for_each(|call| print!("{call:>12}"));
        println!();
        for (&(number, how), times) in &self.0 {
            match number {
                0 => print!("{how:14}"),
                _ => print!("{:14}", format!("refused {number}")),
            }
            times.iter().for_each(|times| print!("{times:>12}"));
            println!();
        }
    }
}

/// The outcome of a reply that is accepted in the given way, if it is.
fn outcome(reply: Reply, how: &'static str) -> Outcome {
    match reply {
        [0, ..] => (0, how),
        [number, ..] => (number, ""),
    }
}

fn hex(bytes: &[u8]) -> String {
    bytes.iter().map(|byte| format!("{byte:02x}")).collect()
}

/// Inputs of calls, to be shown where those differ.
trait Inputs {
    fn show(&self);
}

impl Inputs for Case {
    fn show(&self) {
        println!("vocabulary {}", hex(&self.vocabulary));
        println!("pattern    {}", hex(&self.pattern));
        println!("situation  {}", hex(&self.situation));
        println!("filling    {}", hex(&self.filling));
        println!(
            "name {}, table {} numbers, out {} bytes, for fill {}",
            self.name, self.table_len, self.out_len, self.result_len
        );
    }
}

impl Inputs for BookCase {
    fn show(&self) {
        println!("vocabulary {}", hex(&self.vocabulary));
        println!("book       {}", hex(&self.book));
        println!("out {} bytes", self.out_len);
    }
}

fn differs(case: &impl Inputs, number: u64, call: &str, what: &str) -> ! {
    println!("difference in case {number}, {call}: {what}");
    case.show();
    exit(1);
}

/// What is lent to the archive, with margins, beside what is lent to the reference, and the content
/// of both before the calls: another at each place, so that nothing can be shifted unseen.
struct Lent<T> {
    mine: Vec<T>,
    other: Vec<T>,
    before: Vec<T>,
}

impl<T: Copy + PartialEq + Display> Lent<T> {
    fn new() -> Self {
        Lent {
            mine: Vec::new(),
            other: Vec::new(),
            before: Vec::new(),
        }
    }

    fn fill(&mut self, length: usize, at: impl Fn(usize) -> T) {
        self.before.clear();
        self.before.extend((0..length + 2 * MARGIN).map(at));
        for lent in [&mut self.mine, &mut self.other] {
            lent.clear();
            lent.extend_from_slice(&self.before);
        }
    }

    fn slices(&mut self) -> (&mut [T], &mut [T]) {
        let end = self.mine.len() - MARGIN;
        (&mut self.mine[MARGIN..end], &mut self.other[MARGIN..end])
    }

    /// Both hold the same, and nothing is changed but the first so many places that are lent.
    fn compare(&self, case: &impl Inputs, number: u64, call: &str, written: usize) {
        self.unchanged(case, number, call, written);
        if self.mine != self.other {
            let at = (0..self.mine.len()).find(|&at| self.mine[at] != self.other[at]);
            self.differ_at(case, number, call, at.unwrap_or(0));
        }
    }

    /// Nothing is changed but the first so many places that are lent.
    fn unchanged(&self, case: &impl Inputs, number: u64, call: &str, written: usize) {
        let free = MARGIN..MARGIN + written;
        for lent in [&self.mine, &self.other] {
            let kept = lent[..free.start] == self.before[..free.start]
                && lent[free.end..] == self.before[free.end..];
            if !kept {
                let changed = |at: &usize| lent[*at] != self.before[*at] && !free.contains(at);
                let at = (0..lent.len()).find(changed);
                self.differ_at(case, number, call, at.unwrap_or(0));
            }
        }
    }

    fn differ_at(&self, case: &impl Inputs, number: u64, call: &str, at: usize) -> ! {
        let (mine, other, before) = (self.mine[at], self.other[at], self.before[at]);
        let place = at as isize - MARGIN as isize;
        let length = self.mine.len() - 2 * MARGIN;
        let what = format!(
            "place {place} of {length} lent: archive {mine}, reference {other}, before {before}"
        );
        differs(case, number, call, &what);
    }
}

fn replies(case: &impl Inputs, number: u64, call: &str, mine: Reply, other: Reply) {
    if mine != other {
        let what = format!("archive {mine:?}, reference {other:?}");
        differs(case, number, call, &what);
    }
}

fn check(case: &Case, number: u64, seen: &mut Seen) {
    let v = &case.vocabulary;
    let mine = archive::check_vocabulary(v);
    let other = reference::check_vocabulary(v);
    replies(case, number, "vocabulary", mine, other);
    seen.add("vocabulary", outcome(mine, "accepted"));
    for (call, term) in [("pattern", &case.pattern), ("situation", &case.situation)] {
        let mine = archive::check_term(v, term);
        let other = reference::check_term(v, term);
        replies(case, number, call, mine, other);
        let complete = mine[3] == 1;
        let how = if complete { "complete" } else { "not complete" };
        seen.add(call, outcome(mine, how));
    }
}

fn matching(case: &Case, number: u64, table: &mut Lent<u16>, seen: &mut Seen) {
    let (v, p, s) = (&case.vocabulary, &case.pattern, &case.situation);
    let fill = case.table_fill;
    table.fill(case.table_len, |i| fill.wrapping_add(257 * i as u16));
    let (one, another) = table.slices();
    let mine = archive::match_pattern(v, p, s, one);
    let other = reference::match_pattern(v, p, s, another);
    replies(case, number, "match", mine, other);
    let yes = mine[0] == 0 && mine[1] == 1;
    table.compare(case, number, "match", if yes { 128 } else { 0 });
    seen.add("match", outcome(mine, if yes { "yes" } else { "no" }));
    for name in [case.name, number % 66] {
        let mine = archive::part(v, p, s, name);
        let other = reference::part(v, p, s, name);
        replies(case, number, "part", mine, other);
        let how = if mine[2] == 0 { "empty" } else { "covered" };
        seen.add("part", outcome(mine, how));
    }
}

fn listing(case: &Case, number: u64, out: &mut Lent<u8>, seen: &mut Seen) {
    let (v, p) = (&case.vocabulary, &case.pattern);
    let fill = case.out_fill;
    out.fill(case.out_len, |i| fill.wrapping_add((157 * i >> 3) as u8));
    let (one, another) = out.slices();
    let mine = archive::list(v, p, one);
    let other = reference::list(v, p, another);
    replies(case, number, "list", mine, other);
    let bytes = if mine[0] == 0 { mine[2] as usize } else { 0 };
    out.compare(case, number, "list", bytes);
    let how = match mine[2] {
        0 => "0 entries",
        2 => "any alone",
        1..=0xffff => "entries",
        _ => "64 KiB or more",
    };
    seen.add("list", outcome(mine, how));
}

fn filling(case: &Case, number: u64, out: &mut Lent<u8>, seen: &mut Seen) {
    let (v, p, f) = (&case.vocabulary, &case.pattern, &case.filling);
    let fill = case.out_fill;
    out.fill(case.result_len, |i| fill.wrapping_add((157 * i >> 3) as u8));
    let (one, another) = out.slices();
    let mine = archive::fill(v, p, f, one);
    let other = reference::fill(v, p, f, another);
    replies(case, number, "fill", mine, other);
    let bytes = if mine[0] == 0 { mine[1] as usize } else { 0 };
    out.compare(case, number, "fill", bytes);
    let how = match f.get(..8) {
        Some([0, 0, 0, 0, 0, 0, 0, 0]) => "no name",
        _ if bytes < 2048 => "filled",
        _ => "2 KiB or more",
    };
    seen.add("fill", outcome(mine, how));
}

/// The entries of a book may stand in any order: those of both are compared sorted by their bytes.
fn listing_book(case: &BookCase, number: u64, out: &mut Lent<u8>, seen: &mut Seen) {
    let (v, b) = (&case.vocabulary, &case.book);
    let fill = case.out_fill;
    out.fill(case.out_len, |i| fill.wrapping_add((157 * i >> 3) as u8));
    let (one, another) = out.slices();
    let mine = archive::list_book(v, b, one);
    let other = reference::list_book(v, b, another);
    replies(case, number, "book", mine, other);
    let bytes = if mine[0] == 0 { mine[2] as usize } else { 0 };
    out.unchanged(case, number, "book", bytes);
    if mine[0] == 0 {
        let (one, another) = out.slices();
        let Some(ours) = sorted_entries(&one[..bytes], mine[1]) else {
            let what = format!("no {} patterns: {}", mine[1], hex(&one[..bytes]));
            differs(case, number, "book", &what);
        };
        let theirs = sorted_entries(&another[..bytes], mine[1]).unwrap_or_default();
        if let Some((ours, theirs)) = ours.iter().zip(&theirs).find(|(a, b)| a != b) {
            let what = format!("archive {}, reference {}", hex(ours), hex(theirs));
            differs(case, number, "book", &what);
        }
    }
    let how = match mine[2] {
        0 => "0 entries",
        2 => "any alone",
        1..=0x0fff => "entries",
        _ => "4 KiB or more",
    };
    seen.add("book", outcome(mine, how));
}

fn argument(at: usize, otherwise: u64) -> u64 {
    match std::env::args().nth(at) {
        None => otherwise,
        Some(word) => word.parse().unwrap_or_else(|_| {
            eprintln!("differential [CASES [SEED]]");
            exit(2)
        }),
    }
}

fn main() {
    let (cases, seed) = (argument(1, 1_000_000), argument(2, 1));
    // Books have a source of their own.
    let (mut gen, mut books) = (Gen::new(seed), Gen::new(!seed));
    let mut seen = Seen::default();
    let mut table = Lent::new();
    let mut out = Lent::new();
    for number in 0..cases {
        let case = gen.case();
        let kept = case.clone();
        check(&case, number, &mut seen);
        matching(&case, number, &mut table, &mut seen);
        listing(&case, number, &mut out, &mut seen);
        filling(&case, number, &mut out, &mut seen);
        if case != kept {
            differs(&kept, number, "any call", "an input is changed");
        }
        let case = books.book_case();
        let kept = case.clone();
        listing_book(&case, number, &mut out, &mut seen);
        if case != kept {
            differs(&kept, number, "book", "an input is changed");
        }
    }
    println!("seed {seed}, {cases} cases and as many books");
    seen.print();
    println!("no difference");
}
