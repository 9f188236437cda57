//! Whether a situation fits a pattern, told in words.

use super::{Pattern, Vocabulary};

/// What is told while a pattern and a situation are gone through side by side:
/// the situation in words, up to the first word that differs, and what each
/// name covers.
#[derive(Default)]
struct Told {
    said: Vec<u8>,
    covers: Vec<(usize, Vec<u8>)>,
}

/// The bytes left of both, or the word that the pattern has where they differ.
type Left<'a, 'b> = Result<(&'a [u8], &'b [u8]), usize>;

impl Vocabulary<'_> {
    /// Appends a question as it was read, and the answer to it.
    pub(super) fn verdict(&self, pattern: &Pattern, situation: &[u8], out: &mut Vec<u8>) {
        let mut ask = pattern.label.unwrap_or(&[]).to_vec();
        ask.extend_from_slice(b" ? ");
        out.extend_from_slice(b"# ");
        out.extend_from_slice(&ask);
        self.say(situation, &[], out);
        out.push(b'\n');
        let mut told = Told::default();
        match self.beside(&pattern.bytes[1..], &situation[1..], &mut told) {
            Ok(_) => {
                out.extend_from_slice(b"# yes\n");
                for (name, covered) in told.covers {
                    out.extend_from_slice(b"# ");
                    out.extend_from_slice(pattern.names[name]);
                    out.extend_from_slice(b" = ");
                    out.extend_from_slice(&covered);
                    out.push(b'\n');
                }
            }
            Err(due) => {
                let before = ask.iter().chain(&told.said);
                let columns = before.filter(|&&byte| byte & 0xc0 != 0x80).count();
                out.extend_from_slice(b"# ");
                out.extend(std::iter::repeat_n(b' ', columns));
                out.extend_from_slice(b"^ no: ");
                out.extend_from_slice(self.words[due].name);
                out.extend_from_slice(b" is due here\n");
            }
        }
        out.push(b'\n');
    }

    fn beside<'a, 'b>(&self, pattern: &'a [u8], situation: &'b [u8], told: &mut Told) -> Left<'a, 'b> {
        if pattern[0] >= 128 {
            let mut covered = Vec::new();
            let rest = self.say_term(situation, &[], &mut covered);
            told.said.extend_from_slice(&covered);
            // 255 is an open root.
            if pattern[0] != 255 {
                told.covers.push((pattern[0] as usize - 128, covered));
            }
            return Ok((&pattern[1..], rest));
        }
        if pattern[0] != situation[0] {
            return Err(pattern[0] as usize);
        }
        let word = &self.words[pattern[0] as usize];
        told.said.extend_from_slice(word.name);
        let (map, mut left) = (pattern[1], (&pattern[2..], &situation[2..]));
        for place in 0..word.places.len() {
            told.said
                .extend_from_slice(if place == 0 { b"(" } else { b", " });
            if map >> place & 1 == 1 {
                left = self.beside(left.0, left.1, told)?;
            } else {
                left.1 = self.say_term(left.1, &[], &mut told.said);
            }
        }
        if !word.places.is_empty() {
            told.said.push(b')');
        }
        Ok(left)
    }
}
