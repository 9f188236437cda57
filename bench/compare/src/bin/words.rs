//! Runs the program `desk` on generated texts, sound and damaged, and compares what it prints with the
//! reference's answer, byte for byte but for the order of the leftovers of patterns together, which is
//! left open. The leftovers in an answer, read back, are compared with those that the archive and the
//! reference list, and the answers to questions with the archive's match.
//!
//! Arguments: the number of texts (20,000), the seed (1) and the program (`../../crates/desk/out/desk`).

use compare::archive;
use reference::generate::{Gen, TextCase};
use reference::words::{self, Pattern, Text};
use std::collections::BTreeMap;
use std::fs;
use std::io::{self, Write};
use std::path::{Path, PathBuf};
use std::process::{exit, Command, Output, Stdio};
use std::thread;

/// How many bytes the program takes of an input: one more than a text may have.
const TAKEN: usize = 65_536;

/// How many bytes of a listing are printed in words.
const LISTED: usize = 65_536;

/// How often there was what.
#[derive(Default)]
struct Seen {
    in_files: u64,
    answered: u64,
    too_long: u64,
    patterns: u64,
    not_listed: u64,
    entries: u64,
    books: u64,
    not_together: u64,
    yes: u64,
    no: u64,
    refused: BTreeMap<u8, u64>,
}

impl Seen {
    fn print(&self) {
        println!("{} through a file", self.in_files);
        println!(
            "{} answered: {} patterns, {} of them not listed, {} entries read back",
            self.answered, self.patterns, self.not_listed, self.entries
        );
        println!(
            "{} times patterns together, {} of them not listed; {} times yes, {} times no",
            self.books, self.not_together, self.yes, self.no
        );
        println!("{} with an answer that is too long", self.too_long);
        println!("{} refused", self.refused.values().sum::<u64>());
        for (why, times) in &self.refused {
            println!("{:14}{times:>12}", format!("reason {why}"));
        }
    }
}

/// The bytes from the beginning of the line that holds a place to a little behind the place.
fn around(bytes: &[u8], at: usize) -> String {
    let line = bytes[..at].iter().rposition(|&byte| byte == b'\n');
    let from = line.map_or(0, |end| end + 1);
    let to = bytes.len().min(at + 200);
    bytes[from..to].escape_ascii().to_string()
}

/// A text, its number, the program, and a file for the text.
struct Run<'a> {
    case: &'a TextCase,
    number: u64,
    program: &'a Path,
    file: &'a Path,
}

impl Run<'_> {
    fn desk(&self) -> io::Result<Output> {
        let mut command = Command::new(self.program);
        command.stdout(Stdio::piped()).stderr(Stdio::piped());
        if self.case.in_file {
            fs::write(self.file, &self.case.text)?;
            return command.arg(self.file).stdin(Stdio::null()).output();
        }
        let mut child = command.stdin(Stdio::piped()).spawn()?;
        let stdin = child.stdin.take();
        thread::scope(|scope| {
            // What the program does not take need not be written.
            scope.spawn(|| stdin.map(|mut stdin| stdin.write_all(&self.case.text)));
            child.wait_with_output()
        })
    }

    fn differs(&self, what: &str) -> ! {
        println!("difference in text {}: {what}", self.number);
        let way = match self.case.in_file {
            true => "a file",
            false => "standard input",
        };
        let kept = match fs::write(self.file, &self.case.text) {
            Ok(()) => self.file.display().to_string(),
            Err(error) => error.to_string(),
        };
        println!(
            "the text went through {way}, has {} bytes and is kept in {kept}:",
            self.case.text.len()
        );
        println!("{}", self.case.text.escape_ascii());
        exit(1);
    }

    fn compare(&self, seen: &mut Seen) {
        let output = self.desk().unwrap_or_else(|error| {
            eprintln!("{}: {error}", self.program.display());
            exit(2)
        });
        if !output.status.success() || !output.stderr.is_empty() {
            let said = output.stderr.escape_ascii();
            self.differs(&format!("{}, {said}", output.status));
        }
        let taken = &self.case.text[..self.case.text.len().min(TAKEN)];
        let (mine, other) = (output.stdout, words::answer(taken));
        let (mine, other) = (words::in_order(&mine), words::in_order(&other));
        if mine != other {
            let at = mine
                .iter()
                .zip(&other)
                .position(|(mine, other)| mine != other);
            let at = at.unwrap_or(mine.len().min(other.len()));
            self.differs(&format!(
                "byte {at} of {} and {}\ndesk:      {}\nreference: {}",
                mine.len(),
                other.len(),
                around(&mine, at),
                around(&other, at)
            ));
        }
        seen.in_files += self.case.in_file as u64;
        match words::read(taken) {
            Err(refused) => *seen.refused.entry(refused.fault.why).or_default() += 1,
            // Else whatever is no leftover stands in comments.
            Ok(_) if mine.starts_with(b"the answer has more than") => seen.too_long += 1,
            Ok(text) => {
                seen.answered += 1;
                self.read_back(&text, &mine, seen);
                self.ask(&text, &mine, seen);
            }
        }
    }

    /// The lines of an answer, read as patterns, are the leftovers of the text's patterns, one after
    /// the other.
    fn read_back(&self, text: &Text, answer: &[u8], seen: &mut Seen) {
        let listed = words::listed(answer);
        let whole = listed.len() == answer.len();
        if !whole && words::read_patterns(&text.vocabulary, answer).is_ok() {
            self.differs("the answer can be read although a list is too long");
        }
        let lines = match words::read_patterns(&text.vocabulary, &listed) {
            Ok(lines) => lines,
            Err(fault) => self.differs(&format!("the answer has {fault:?}")),
        };
        let mut lines = lines.iter();
        let vocabulary = text.vocabulary.bytes();
        let mut out = vec![0; LISTED];
        for pattern in &text.patterns {
            let reply = archive::list(&vocabulary, &pattern.bytes, &mut out);
            match (reply, pattern.leftovers(&vocabulary)) {
                ([0, entries, bytes, 0, 0], Ok(listed)) => {
                    let back: Vec<&Pattern> = lines.by_ref().take(entries as usize).collect();
                    let bare = back.iter().all(|line| line.label.is_none());
                    let one_by_one = back.iter().map(|line| &line.bytes).eq(&listed);
                    if !bare || !one_by_one || listed.concat() != out[..bytes as usize] {
                        self.differs(&format!("leftovers of {}", pattern.bytes.escape_ascii()));
                    }
                    seen.entries += entries;
                }
                ([20, 3, bytes, 0, 0], Err(needed)) if bytes == needed => seen.not_listed += 1,
                (reply, _) => self.differs(&format!("the archive lists {reply:?}")),
            }
            seen.patterns += 1;
        }
        for (patterns, book) in (0..text.vocabulary.kinds.len()).filter_map(|kind| text.book(kind)) {
            seen.books += 1;
            if patterns > 64 {
                seen.not_together += 1;
                continue;
            }
            match archive::list_book(&vocabulary, &book, &mut out) {
                [0, entries, bytes, 0, 0] => {
                    let back = lines.by_ref().take(entries as usize);
                    let mut back: Vec<_> = back.map(|line| line.bytes.clone()).collect();
                    let mut listed = words::split(&out[..bytes as usize], entries);
                    back.sort_unstable();
                    listed.sort_unstable();
                    if back != listed {
                        self.differs(&format!("leftovers of {}", book.escape_ascii()));
                    }
                    seen.entries += entries;
                }
                [26, ..] => seen.not_together += 1,
                reply => self.differs(&format!("the archive lists the book {reply:?}")),
            }
        }
        if lines.next().is_some() {
            self.differs("the answer has more lines than there are leftovers");
        }
    }
}

impl Run<'_> {
    /// The answers to the questions of a text are those of match.
    fn ask(&self, text: &Text, answer: &[u8], seen: &mut Seen) {
        let vocabulary = text.vocabulary.bytes();
        let mut lines = answer.split(|&byte| byte == b'\n').filter_map(|line| {
            let bare = line.strip_prefix(b"# ")?.trim_ascii_start();
            let no = bare.starts_with(b"^ no: ");
            (no || line == b"# yes").then_some(!no)
        });
        for pattern in &text.patterns {
            for situation in &pattern.situations {
                let mut table = [0; 128];
                let fits = archive::match_pattern(&vocabulary, &pattern.bytes, situation, &mut table);
                match (fits, lines.next()) {
                    ([0, 1, 0, 0, 0], Some(true)) => seen.yes += 1,
                    ([0, 0, 0, 0, 0], Some(false)) => seen.no += 1,
                    (reply, said) => self.differs(&format!("match says {reply:?}, desk {said:?}")),
                }
            }
        }
        if lines.next().is_some() {
            self.differs("more is answered than asked");
        }
    }
}

fn argument(at: usize, otherwise: u64) -> u64 {
    match std::env::args().nth(at) {
        None => otherwise,
        Some(word) => word.parse().unwrap_or_else(|_| {
            eprintln!("words [TEXTS [SEED [PROGRAM]]]");
            exit(2)
        }),
    }
}

fn main() {
    let (texts, seed) = (argument(1, 20_000), argument(2, 1));
    let program = std::env::args_os().nth(3).map(PathBuf::from);
    let program = program.unwrap_or_else(|| "../../crates/desk/out/desk".into());
    if !program.is_file() {
        eprintln!(
            "there is no {}: `rt run` in crates/desk writes it",
            program.display()
        );
        exit(2);
    }
    let file = std::env::temp_dir().join(format!("words-{}", std::process::id()));
    let mut gen = Gen::new(seed);
    let mut seen = Seen::default();
    for number in 0..texts {
        let run = Run {
            case: &gen.text_case(),
            number,
            program: &program,
            file: &file,
        };
        run.compare(&mut seen);
    }
    // There is none where no text went through it.
    fs::remove_file(&file).unwrap_or_default();
    println!("seed {seed}, {texts} texts");
    seen.print();
    println!("no difference");
}
