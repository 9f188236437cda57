//! Times the archive beside the reference, in turns within one run, and prints markdown tables.
//!
//! Argument: print only the rows whose name has this word in it. Where an archive before is linked (feature `before`),
//! it takes its turns too, and a last table has both.

#[cfg(feature = "before")]
use compare::before;
use compare::terms::{self, Term};
use compare::timing::{turns, Timed};
use compare::{archive, books, sorted_entries};
use reference::Reply;
use std::hint::black_box;
use std::sync::Mutex;

/// The reference's calls, kept out of the loops that time them as the archive's are.
mod plain {
    use reference::Reply;

    #[inline(never)]
    pub fn check_vocabulary(v: &[u8]) -> Reply {
        reference::check_vocabulary(v)
    }

    #[inline(never)]
    pub fn check_term(v: &[u8], t: &[u8]) -> Reply {
        reference::check_term(v, t)
    }

    #[inline(never)]
    pub fn match_pattern(v: &[u8], p: &[u8], s: &[u8], table: &mut [u16]) -> Reply {
        reference::match_pattern(v, p, s, table)
    }

    #[inline(never)]
    pub fn part(v: &[u8], p: &[u8], s: &[u8], name: u64) -> Reply {
        reference::part(v, p, s, name)
    }

    #[inline(never)]
    pub fn list(v: &[u8], p: &[u8], out: &mut [u8]) -> Reply {
        reference::list(v, p, out)
    }

    #[inline(never)]
    pub fn fill(v: &[u8], p: &[u8], f: &[u8], out: &mut [u8]) -> Reply {
        reference::fill(v, p, f, out)
    }

    #[inline(never)]
    pub fn list_book(v: &[u8], b: &[u8], out: &mut [u8]) -> Reply {
        reference::list_book(v, b, out)
    }

    #[inline(never)]
    pub fn list_book_entrywise(v: &[u8], b: &[u8], out: &mut [u8]) -> Reply {
        reference::list_book_entrywise(v, b, out)
    }
}

/// Copies as many bytes for each entry as it has, one block for each, into the same output.
#[inline(never)]
fn copies(from: &[u8], lengths: &[u16], out: &mut [u8]) -> u64 {
    let mut at = 0;
    for &length in lengths {
        let length = length as usize;
        out[at..at + length].copy_from_slice(&from[..length]);
        at += length;
    }
    at as u64
}

/// The archive before beside this one: case, both times, and this one's to the one before.
static CHANGES: Mutex<Vec<(String, f64, f64, f64)>> = Mutex::new(Vec::new());

/// A call that takes its turns.
type Call<'a> = &'a mut dyn FnMut() -> u64;

/// A call of the archive before, if one is linked.
#[cfg(feature = "before")]
macro_rules! older {
    ($call:expr) => {
        Some(&mut $call)
    };
}

#[cfg(not(feature = "before"))]
macro_rules! older {
    ($call:expr) => {
        None
    };
}

/// Lets the contenders take turns, with the archive before as the last of them where there is one.
fn with_before<'a>(name: String, mut calls: Vec<Call<'a>>, before: Option<Call<'a>>) -> Timed {
    let Some(before) = before else {
        return turns(&mut calls);
    };
    assert_eq!(before(), calls[0](), "{name}");
    calls.push(before);
    let timed = turns(&mut calls);
    let last = calls.len() - 1;
    let row = (name, timed.median[last], timed.median[0], timed.ratio[last]);
    CHANGES.lock().unwrap().push(row);
    timed
}

/// What changed, if an archive before took its turns.
fn changes() {
    let rows = CHANGES.lock().unwrap();
    if rows.is_empty() {
        return;
    }
    println!("\n### Before and after\n");
    println!("| case | before, ns | after, ns | after to before |");
    println!("|---|---:|---:|---:|");
    for (name, before, after, ratio) in rows.iter() {
        println!("| {name} | {before:.1} | {after:.1} | {ratio:.3} |");
    }
}

struct Bench {
    only: Option<String>,
    table: Vec<u16>,
    out: Vec<u8>,
}

impl Bench {
    fn wanted(&self, name: &str) -> bool {
        self.only.as_ref().is_none_or(|word| name.contains(word))
    }

    fn same(name: &str, mine: Reply, other: Reply) {
        assert_eq!(mine, other, "{name}");
    }

    fn head(title: &str) {
        println!("\n### {title}\n");
        println!("| case | archive, ns | reference, ns | ratio |");
        println!("|---|---:|---:|---:|");
    }

    fn row(name: &str, timed: &Timed) {
        println!(
            "| {name} | {:.1} | {:.1} | {:.2} |",
            timed.median[0], timed.median[1], timed.ratio[1]
        );
    }

    fn vocabulary(&self, name: &str, v: &[u8]) {
        if !self.wanted(name) {
            return;
        }
        Self::same(
            name,
            archive::check_vocabulary(v),
            plain::check_vocabulary(v),
        );
        let name = format!("{name} ({} bytes)", v.len());
        let timed = with_before(
            name.clone(),
            vec![
                &mut || archive::check_vocabulary(black_box(v))[0],
                &mut || plain::check_vocabulary(black_box(v))[0],
            ],
            older!(|| before::check_vocabulary(black_box(v))[0]),
        );
        Self::row(&name, &timed);
    }

    fn term(&self, name: &str, v: &[u8], t: &[u8]) -> Option<Timed> {
        if !self.wanted(name) {
            return None;
        }
        Self::same(name, archive::check_term(v, t), plain::check_term(v, t));
        Some(with_before(
            format!("{name} ({} bytes)", t.len()),
            vec![
                &mut || archive::check_term(black_box(v), black_box(t))[1],
                &mut || plain::check_term(black_box(v), black_box(t))[1],
            ],
            older!(|| before::check_term(black_box(v), black_box(t))[1]),
        ))
    }

    fn term_row(&self, name: &str, v: &[u8], t: &[u8]) {
        if let Some(timed) = self.term(name, v, t) {
            Self::row(&format!("{name} ({} bytes)", t.len()), &timed);
        }
    }

    fn matching(&mut self, name: &str, v: &[u8], p: &[u8], s: &[u8], yes: u64) -> Option<Timed> {
        if !self.wanted(name) {
            return None;
        }
        let mut other = self.table.clone();
        let reply = archive::match_pattern(v, p, s, &mut self.table);
        assert_eq!(reply[..2], [0, yes], "{name}");
        Self::same(name, reply, plain::match_pattern(v, p, s, &mut other));
        let table = std::cell::RefCell::new(&mut self.table[..]);
        Some(with_before(
            format!("{name} ({} and {} bytes)", p.len(), s.len()),
            vec![
                &mut || {
                    let mut table = table.borrow_mut();
                    archive::match_pattern(black_box(v), black_box(p), black_box(s), &mut table)[1]
                },
                &mut || {
                    plain::match_pattern(black_box(v), black_box(p), black_box(s), &mut other)[1]
                },
            ],
            older!(|| {
                let mut table = table.borrow_mut();
                before::match_pattern(black_box(v), black_box(p), black_box(s), &mut table)[1]
            }),
        ))
    }

    fn match_row(&mut self, name: &str, v: &[u8], p: &[u8], s: &[u8], yes: u64) {
        if let Some(timed) = self.matching(name, v, p, s, yes) {
            Self::row(
                &format!("{name} ({} and {} bytes)", p.len(), s.len()),
                &timed,
            );
        }
    }

    fn part_row(&self, name: &str, v: &[u8], p: &[u8], s: &[u8], number: u64) {
        if !self.wanted(name) {
            return;
        }
        Self::same(
            name,
            archive::part(v, p, s, number),
            plain::part(v, p, s, number),
        );
        let name = format!("{name} ({} and {} bytes)", p.len(), s.len());
        let timed = with_before(
            name.clone(),
            vec![
                &mut || {
                    archive::part(black_box(v), black_box(p), black_box(s), black_box(number))[1]
                },
                &mut || plain::part(black_box(v), black_box(p), black_box(s), black_box(number))[1],
            ],
            older!(|| before::part(black_box(v), black_box(p), black_box(s), black_box(number))[1]),
        );
        Self::row(&name, &timed);
    }

    /// A listing into a slice of just the length that it needs.
    fn listing(&mut self, name: &str, v: &[u8], p: &[u8]) -> Option<(Reply, Timed)> {
        if !self.wanted(name) {
            return None;
        }
        let needed = plain::list(v, p, &mut []);
        let needed = if needed[0] == 20 {
            needed[2] as usize
        } else {
            0
        };
        if self.out.len() < needed {
            self.out.resize(needed, 0);
        }
        let out = &mut self.out[..needed];
        let reply = archive::list(v, p, out);
        assert_eq!(reply[0], 0, "{name}");
        let mine = out.to_vec();
        Self::same(name, reply, plain::list(v, p, out));
        assert!(mine == *out, "{name}");
        let lengths = terms::entry_lengths(out);
        assert_eq!(lengths.len() as u64, reply[1]);
        // Each call takes the slice anew, so that all three write to the same memory.
        let out = std::cell::RefCell::new(out);
        let timed = with_before(
            format!("{name} ({} bytes)", p.len()),
            vec![
                &mut || {
                    archive::list(black_box(v), black_box(p), black_box(&mut out.borrow_mut()))[2]
                },
                &mut || {
                    plain::list(black_box(v), black_box(p), black_box(&mut out.borrow_mut()))[2]
                },
                &mut || {
                    copies(
                        black_box(p),
                        black_box(&lengths),
                        black_box(&mut out.borrow_mut()),
                    )
                },
            ],
            older!(|| {
                before::list(black_box(v), black_box(p), black_box(&mut out.borrow_mut()))[2]
            }),
        );
        Some((reply, timed))
    }

    fn list_row(&mut self, name: &str, v: &[u8], p: &[u8]) {
        if let Some(([_, entries, bytes, ..], timed)) = self.listing(name, v, p) {
            println!(
                "| {name} ({} bytes) | {entries} | {bytes} | {:.1} | {:.1} | {:.2} | {:.1} | {:.2} |",
                p.len(),
                timed.median[0],
                timed.median[1],
                timed.ratio[1],
                timed.median[2],
                timed.ratio[2],
            );
        }
    }

    fn list_head(title: &str) {
        println!("\n### {title}\n");
        println!("| pattern | entries | bytes | archive, ns | reference, ns | ratio | block copies, ns | archive to copies |");
        println!("|---|---:|---:|---:|---:|---:|---:|---:|");
    }

    /// A listing that is refused.
    fn refused_row(&self, name: &str, v: &[u8], p: &[u8], length: usize, number: u64) {
        if !self.wanted(name) {
            return;
        }
        let mut out = vec![0; length];
        let reply = archive::list(v, p, &mut out);
        assert_eq!(reply[0], number, "{name}");
        Self::same(name, reply, plain::list(v, p, &mut out));
        let out = std::cell::RefCell::new(out);
        let timed = with_before(
            format!("{name} ({} bytes)", p.len()),
            vec![
                &mut || {
                    archive::list(black_box(v), black_box(p), black_box(&mut out.borrow_mut()))[2]
                },
                &mut || {
                    plain::list(black_box(v), black_box(p), black_box(&mut out.borrow_mut()))[2]
                },
            ],
            older!(|| {
                before::list(black_box(v), black_box(p), black_box(&mut out.borrow_mut()))[2]
            }),
        );
        Self::row(&format!("{name} ({} bytes)", p.len()), &timed);
    }

    /// A filling into so many bytes, with the number of its reply. Its name gets the bytes of pattern,
    /// filling file and result.
    fn filling(
        &mut self,
        name: &str,
        v: &[u8],
        [p, f]: [&[u8]; 2],
        lent: usize,
        number: u64,
    ) -> Option<(Reply, Timed)> {
        if !self.wanted(name) {
            return None;
        }
        if self.out.len() < lent {
            self.out.resize(lent, 0);
        }
        let out = &mut self.out[..lent];
        let reply = archive::fill(v, p, f, out);
        assert_eq!(reply[0], number, "{name}");
        let mine = out.to_vec();
        Self::same(name, reply, plain::fill(v, p, f, out));
        assert!(mine == *out, "{name}");
        // Each call takes the slice anew, so that both write to the same memory.
        let out = std::cell::RefCell::new(out);
        let [v, p, f] = [v, p, f].map(|bytes| move || black_box(bytes));
        let timed = with_before(
            format!("{name} ({} and {} bytes)", p().len(), f().len()),
            vec![
                &mut || archive::fill(v(), p(), f(), black_box(&mut out.borrow_mut()))[1],
                &mut || plain::fill(v(), p(), f(), black_box(&mut out.borrow_mut()))[1],
            ],
            older!(|| before::fill(v(), p(), f(), black_box(&mut out.borrow_mut()))[1]),
        );
        Some((reply, timed))
    }

    fn fill_row(&mut self, name: &str, v: &[u8], p: &[u8], f: &[u8]) {
        let length = plain::fill(v, p, f, &mut [])[2] as usize;
        if let Some((_, timed)) = self.filling(name, v, [p, f], length, 0) {
            Self::row(
                &format!(
                    "{name} ({} and {} bytes, result {length})",
                    p.len(),
                    f.len()
                ),
                &timed,
            );
        }
    }

    /// A filling that is refused.
    fn unfilled_row(&mut self, name: &str, v: &[u8], p: &[u8], f: &[u8], lent: usize, number: u64) {
        if let Some((_, timed)) = self.filling(name, v, [p, f], lent, number) {
            Self::row(
                &format!("{name} ({} and {} bytes)", p.len(), f.len()),
                &timed,
            );
        }
    }

    /// A listing of a book into a slice of just the length that it needs, or a refused one into an
    /// empty slice.
    fn book(&mut self, name: &str, v: &[u8], b: &[u8], number: u64) -> Option<(Reply, Timed)> {
        if !self.wanted(name) {
            return None;
        }
        let needed = match (number, plain::list_book(v, b, &mut [])) {
            (0, [20, _, needed, ..]) => needed as usize,
            _ => 0,
        };
        if self.out.len() < needed {
            self.out.resize(needed, 0);
        }
        let out = &mut self.out[..needed];
        let reply = archive::list_book(v, b, out);
        assert_eq!(reply[0], number, "{name}");
        let mine = out.to_vec();
        Self::same(name, reply, plain::list_book(v, b, out));
        let ours = sorted_entries(&mine, reply[1]);
        if number == 0 {
            assert!(
                ours.is_some() && ours == sorted_entries(out, reply[1]),
                "{name}"
            );
        }
        Self::same(name, reply, plain::list_book_entrywise(v, b, out));
        if number == 0 {
            assert!(ours == sorted_entries(out, reply[1]), "{name}");
        }
        // Each call takes the slice anew, so that both write to the same memory.
        let out = std::cell::RefCell::new(out);
        let timed = with_before(
            format!("{name} ({} bytes)", b.len()),
            vec![
                &mut || {
                    let mut out = out.borrow_mut();
                    archive::list_book(black_box(v), black_box(b), black_box(&mut out))[2]
                },
                &mut || {
                    let mut out = out.borrow_mut();
                    plain::list_book(black_box(v), black_box(b), black_box(&mut out))[2]
                },
                &mut || {
                    let mut out = out.borrow_mut();
                    plain::list_book_entrywise(black_box(v), black_box(b), black_box(&mut out))[2]
                },
            ],
            older!(|| {
                let mut out = out.borrow_mut();
                before::list_book(black_box(v), black_box(b), black_box(&mut out))[2]
            }),
        );
        Some((reply, timed))
    }

    fn book_row(&mut self, name: &str, v: &[u8], b: &[u8]) {
        if let Some(([_, entries, bytes, ..], timed)) = self.book(name, v, b, 0) {
            println!(
                "| {name} ({} bytes) | {} | {entries} | {bytes} | {:.1} | {:.1} | {:.1} | {:.2} | {:.2} |",
                b.len(),
                b[0],
                timed.median[0],
                timed.median[1],
                timed.median[2],
                timed.ratio[1],
                timed.ratio[2],
            );
        }
    }

    /// A book that is refused.
    fn unlisted_row(&mut self, name: &str, v: &[u8], b: &[u8], number: u64) {
        if let Some((_, timed)) = self.book(name, v, b, number) {
            Self::row(&format!("{name} ({} bytes)", b.len()), &timed);
        }
    }

    fn growth_row(name: &str, length: usize, timed: &Timed) {
        let each = |ns: f64| ns / length as f64;
        println!(
            "| {name} | {length} | {:.3} | {:.3} | {:.2} |",
            each(timed.median[0]),
            each(timed.median[1]),
            timed.ratio[1]
        );
    }
}

/// The bench examples of document 01.
fn small(bench: &mut Bench) {
    let (a, b, c) = (&terms::A[..], &terms::B[..], &terms::C[..]);
    let wait = [0, 0, 3, 1, 0, 3, 0];
    let more = [0, 1, 1, 1, 1, 0, 0];
    let (pair, equal) = ([0, 2, 3, 128, 128], [0, 2, 3, 0, 0, 0, 0]);
    Bench::head("Bench examples: check, match, part");
    bench.vocabulary("vocabulary A", a);
    bench.vocabulary("vocabulary B", b);
    bench.vocabulary("vocabulary C", c);
    bench.term_row("check term, A wait(up, free)", a, &wait);
    bench.term_row("check term, B more(more(none))", b, &more);
    bench.term_row("check term, C any", c, &[0, 255]);
    bench.match_row("match, A wait(up, free), yes", a, &wait, &wait, 1);
    bench.match_row("match, C pair(n0, n0), yes", c, &pair, &equal, 1);
    bench.match_row(
        "match, C pair(n0, n0), no",
        c,
        &pair,
        &[0, 2, 3, 0, 0, 1, 0],
        0,
    );
    bench.match_row("match, C n0, yes", c, &[0, 128], &equal, 1);
    bench.part_row("part, C pair(n0, n0), n0", c, &pair, &equal, 0);
    bench.part_row("part, name above 63", c, &pair, &equal, 64);
    bench.refused_row(
        "list, A wait(up, free), 14 lent, refused 20",
        a,
        &wait,
        14,
        20,
    );
    bench.refused_row("list, C pair(n0, n0), refused 18", c, &pair, 14, 18);
}

fn vocabularies(bench: &mut Bench) {
    Bench::head("Vocabularies");
    bench.vocabulary("vocabulary, 96 words, 16 kinds", &terms::d());
    bench.vocabulary("vocabulary, 96 words, 1 kind", &terms::e());
    bench.vocabulary("vocabulary, the longest", &terms::longest());
    bench.vocabulary("vocabulary, 16 kinds in a chain", &terms::chain(false));
    bench.vocabulary(
        "vocabulary, 16 kinds in a chain, last first",
        &terms::chain(true),
    );
    let mut ends = terms::e();
    ends.pop();
    bench.vocabulary("vocabulary, 96 words, refused 3 at the end", &ends);
    let last = ends.len() - 1;
    ends[last] = 1;
    bench.vocabulary("vocabulary, 96 words, refused 4 at the end", &ends);
    bench.vocabulary("vocabulary, a word over itself", &terms::W);
    bench.vocabulary("vocabulary, 96 words, half unusable", &terms::half());
    bench.vocabulary(
        "vocabulary, 16 kinds in a chain, 15 of them empty",
        &terms::empty_chain(),
    );
    bench.term_row(
        "vocabulary, 96 words, 16 kinds: check term n0",
        &terms::d(),
        &[0, 128],
    );
    bench.match_row(
        "vocabulary, 96 words, 1 kind: match n0",
        &terms::e(),
        &[0, 128],
        &[0, 0, 0],
        1,
    );
}

fn large(bench: &mut Bench, all: &[Term]) {
    Bench::head("Long terms: check");
    for term in all {
        bench.term_row(
            &format!("check, {}", term.name),
            &term.vocabulary,
            &term.complete,
        );
        bench.term_row(
            &format!("check, {}, names", term.name),
            &term.vocabulary,
            &term.named(),
        );
    }
    let even = &all[0];
    let mut behind = even.complete.clone();
    behind.push(0);
    bench.term_row("check, refused 15 at the end", &even.vocabulary, &behind);
    bench.term_row(
        "check, refused 11 at the root",
        &even.vocabulary,
        &[0, 9, 0],
    );
    Bench::head("Long terms: match and part");
    for term in all {
        let (v, s, name) = (&term.vocabulary, &term.complete, term.name);
        bench.match_row(&format!("match, {name}, itself"), v, s, s, 1);
        bench.match_row(&format!("match, {name}, n0"), v, &[0, 128], s, 1);
        bench.match_row(
            &format!("match, {name}, root word and open places"),
            v,
            &[0, s[1], 0],
            s,
            1,
        );
        bench.match_row(
            &format!("match, {name}, names at leaves"),
            v,
            &term.named(),
            s,
            1,
        );
        bench.match_row(
            &format!("match, {name}, no at the last word"),
            v,
            s,
            &term.other_leaf(),
            0,
        );
    }
    let (v, s) = (&even.vocabulary, &even.complete);
    bench.match_row("match, no at the root", v, &[0, 0, 0], s, 0);
    let wide = all.last().expect("there are terms");
    let mut other = wide.complete.clone();
    other[1] ^= 1;
    bench.match_row(
        "match, 96 words, no at the root",
        &wide.vocabulary,
        &wide.complete,
        &other,
        0,
    );
    let c = &terms::C[..];
    for (name, leaf) in [("yes", 1), ("no at the last byte", 0)] {
        let halves = terms::halves(leaf);
        let yes = leaf as u64;
        bench.match_row(
            &format!("match, C pair(n0, n0), {name}"),
            c,
            &[0, 2, 3, 128, 128],
            &halves,
            yes,
        );
    }
    let (pattern, situation) = terms::many_equal();
    bench.match_row("match, C n0 16 times, yes", c, &pattern, &situation, 1);
    bench.part_row(
        "part, C pair(n0, n0), long",
        c,
        &[0, 2, 3, 128, 128],
        &terms::halves(1),
        0,
    );
    bench.part_row("part, C even, names at leaves", v, &even.named(), s, 0);
}

fn lists(bench: &mut Bench, all: &[Term]) {
    let (a, b, c, e) = (&terms::A[..], &terms::B[..], &terms::C[..], &terms::e()[..]);
    Bench::list_head("List");
    bench.list_row("list, C any", c, &[0, 255]);
    bench.list_row("list, A wait(up, free)", a, &[0, 0, 3, 1, 0, 3, 0]);
    bench.list_row("list, B more(more(none))", b, &[0, 1, 1, 1, 1, 0, 0]);
    bench.list_row("list, B 32 levels", b, &terms::levels());
    bench.list_row("list, 96 words, leaf", e, &[0, 5, 0]);
    bench.list_row("list, 96 words, pair of leaves", e, &[0, 50, 3, 5, 0, 6, 0]);
    for bytes in [24, 60, 100, 200, 500] {
        bench.list_row("list, 96 words, eights", e, &terms::wide(bytes));
    }
    for levels in [2, 7] {
        let pattern = terms::mixed(levels);
        bench.list_row("list, 96 words, 16 kinds, pairs", &terms::d(), &pattern);
    }
    for term in &all[..3] {
        bench.list_row(
            &format!("list, {}", term.name),
            &term.vocabulary,
            &term.complete,
        );
    }
    for size in [64, 256, 1_024] {
        bench.list_row("list, C even", c, &terms::even(size));
    }
    Bench::list_head("List under vocabularies with empty kinds");
    let (a, c, half) = (&terms::A_EMPTY[..], &terms::C_EMPTY[..], &terms::half()[..]);
    bench.list_row("list, a word over itself, nothing", &terms::W, &[0, 0, 0]);
    bench.list_row(
        "list, A without printer, wait(up, free)",
        a,
        &[0, 0, 3, 1, 0, 3, 0],
    );
    bench.list_row(
        "list, A without printer, print(_), any alone",
        a,
        &[0, 6, 0],
    );
    bench.list_row(
        "list, 16 kinds in a chain, 15 of them empty",
        &terms::empty_chain(),
        &[0, 16, 0],
    );
    bench.list_row("list, 96 words, half unusable, leaf", half, &[0, 6, 0]);
    bench.list_row(
        "list, 96 words, half unusable, pair of leaves",
        half,
        &[0, 50, 3, 4, 0, 6, 0],
    );
    bench.list_row(
        "list, 96 words, half unusable, any alone",
        half,
        &[0, 51, 1, 6, 0],
    );
    for size in [60, 200, 500] {
        let pattern = terms::even_half(size);
        bench.list_row("list, 96 words, half unusable, pairs", half, &pattern);
    }
    for size in [64, 1_024, 4_096] {
        bench.list_row("list, C and an empty kind, even", c, &terms::even(size));
    }
    for size in [64, 1_024, 4_096] {
        let pattern = terms::even_unfit(size);
        bench.list_row("list, C and an empty kind, even, any alone", c, &pattern);
    }
    let c = &terms::C[..];
    Bench::head("List refused");
    for term in all {
        let name = format!("list, {}, refused 20", term.name);
        bench.refused_row(&name, &term.vocabulary, &term.complete, 0, 20);
    }
    bench.refused_row("list, refused 18 at the end", c, &terms::repeated(), 0, 18);
}

fn fills(bench: &mut Bench) {
    let (a, c) = (&terms::A[..], &terms::C[..]);
    let (wait, pair) = ([0, 0, 3, 128, 129], [0, 2, 3, 128, 128]);
    let up_free = [3, 0, 0, 0, 0, 0, 0, 0, 1, 0, 3, 0];
    let leaf = [1, 0, 0, 0, 0, 0, 0, 0, 0, 0];
    Bench::head("Fill");
    bench.fill_row("fill, A wait(n0, n1)", a, &wait, &up_free);
    bench.fill_row("fill, C pair(n0, n0)", c, &pair, &leaf);
    bench.fill_row("fill, C any", c, &[0, 255], &[0; 8]);
    for fill in terms::fills() {
        let name = format!("fill, {}", fill.name);
        bench.fill_row(&name, c, &fill.pattern, &fill.filling);
    }
    Bench::head("Fill refused");
    bench.unfilled_row("fill, C any, refused 21", c, &[0, 255], &leaf, 0, 21);
    bench.unfilled_row(
        "fill, A wait(n0, n1), refused 20",
        a,
        &wait,
        &up_free,
        6,
        20,
    );
    let (pattern, mut filling) = terms::too_long();
    bench.unfilled_row("fill, refused 23", c, &pattern, &filling, 0, 23);
    filling.pop();
    bench.unfilled_row("fill, refused 22 at the end", c, &pattern, &filling, 0, 22);
}

fn list_books(bench: &mut Bench) {
    println!("\n### Books\n");
    println!(
        "| book | patterns | entries | bytes | archive, ns | reference, ns | loop, ns | ratio | to the loop |"
    );
    println!("|---|---:|---:|---:|---:|---:|---:|---:|---:|");
    let all = books::all();
    for book in &all {
        let name = format!("book, {}", book.name);
        bench.book_row(&name, &book.vocabulary, &book.book);
    }
    for book in &books::empty() {
        let name = format!("book, {}", book.name);
        bench.book_row(&name, &book.vocabulary, &book.book);
    }
    Bench::head("Books refused");
    let c = &terms::C[..];
    for (name, book, number) in books::refused() {
        bench.unlisted_row(&format!("book, {name}"), c, &book, number);
    }
}

fn growth(bench: &mut Bench) {
    println!("\n### Growth\n");
    println!("Bytes: of the term, of pattern and situation together, of what is written.\n");
    println!("| call | bytes | archive, ns a byte | reference, ns a byte | ratio |");
    println!("|---|---:|---:|---:|---:|");
    let sizes = [64, 256, 1_024, 4_096];
    let (c, e) = (&terms::C[..], &terms::e()[..]);
    for size in sizes {
        let t = terms::even(size);
        if let Some(timed) = bench.term("growth of check, C even", c, &t) {
            Bench::growth_row("growth of check, C even", t.len(), &timed);
        }
    }
    for size in sizes {
        let t = terms::wide(size);
        if let Some(timed) = bench.term("growth of check, 96 words, eights", e, &t) {
            Bench::growth_row("growth of check, 96 words, eights", t.len(), &timed);
        }
    }
    for size in sizes {
        let t = terms::even(size);
        if let Some(timed) = bench.matching("growth of match, C even, itself", c, &t, &t, 1) {
            Bench::growth_row("growth of match, C even, itself", 2 * t.len(), &timed);
        }
    }
    for size in sizes {
        let (p, f) = terms::long_name(size);
        let length = terms::even(size).len();
        if let Some((_, timed)) = bench.filling("growth of fill, C n0", c, [&p, &f], length, 0) {
            Bench::growth_row("growth of fill, C n0", length, &timed);
        }
    }
    for size in sizes {
        let t = terms::even(size);
        let name = format!("growth of list, C even, pattern of {} bytes", t.len());
        if let Some((reply, timed)) = bench.listing(&name, c, &t) {
            Bench::growth_row(&name, reply[2] as usize, &timed);
        }
    }
    for (name, struck, sizes) in [
        ("one pattern", false, [32, 64, 128, 256]),
        ("struck by a second", true, [32, 64, 96, 128]),
    ] {
        let name = format!("growth of book, C even, {name}");
        for size in sizes {
            let book = books::even_book(size, struck);
            if let Some((reply, timed)) = bench.book(&name, c, &book, 0) {
                Bench::growth_row(&name, reply[2] as usize, &timed);
            }
        }
    }
    println!("\nPatterns of a book:\n");
    println!("| book | patterns | archive, ns a pattern | reference, ns a pattern | ratio |");
    println!("|---|---:|---:|---:|---:|");
    for count in [1, 2, 4, 8, 16, 32, 64] {
        let book = books::leaf_pairs(count);
        let name = "growth of book, 96 words, pairs of leaves";
        if let Some((_, timed)) = bench.book(name, e, &book, 0) {
            Bench::growth_row(name, count as usize, &timed);
        }
    }
    for count in [1, 2, 4, 8, 16, 32, 64] {
        let book = books::by_chance(count);
        let name = "growth of book, C by chance";
        if let Some((_, timed)) = bench.book(name, c, &book, 0) {
            Bench::growth_row(name, count as usize, &timed);
        }
    }
}

fn main() {
    let cpu = std::fs::read_to_string("/proc/cpuinfo").unwrap_or_default();
    let cpu = cpu.lines().find(|line| line.starts_with("model name"));
    println!("{}", cpu.unwrap_or("model name unknown"));
    println!(
        "\nRatio: archive to reference, the median over rounds; below 1 the archive is faster."
    );
    let mut bench = Bench {
        only: std::env::args().nth(1),
        table: vec![0; 128],
        out: Vec::new(),
    };
    let all = terms::long();
    small(&mut bench);
    vocabularies(&mut bench);
    large(&mut bench, &all);
    lists(&mut bench, &all);
    fills(&mut bench);
    list_books(&mut bench);
    growth(&mut bench);
    changes();
}
