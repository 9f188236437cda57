//! The tokens of a text.

/// A token and the offset of its first byte. The last one of a text is empty
/// and stands at its end.
#[derive(Clone, Copy)]
pub(super) struct Lexeme<'a> {
    pub at: usize,
    pub token: &'a [u8],
}

/// A byte of names: also each byte of a character beyond ASCII.
fn in_names(byte: u8) -> bool {
    byte.is_ascii_alphanumeric() || byte == b'-' || byte == b'_' || byte >= 128
}

/// The token that begins at an offset.
pub(super) fn token(text: &[u8], at: usize) -> &[u8] {
    let rest = text.get(at..).unwrap_or(&[]);
    let length = match rest {
        [] => 0,
        [first, behind @ ..] if *first == b'?' || in_names(*first) => {
            1 + behind.iter().take_while(|&&byte| in_names(byte)).count()
        }
        _ => 1,
    };
    &rest[..length]
}

pub(super) fn lexemes(text: &[u8]) -> Vec<Lexeme<'_>> {
    let mut all = Vec::new();
    let mut at = 0;
    loop {
        match text.get(at) {
            Some(b' ' | b'\t' | b'\r' | b'\n') => at += 1,
            Some(b'#') => {
                let line = text[at..].iter().position(|&byte| byte == b'\n');
                at = line.map_or(text.len(), |length| at + length + 1);
            }
            here => {
                let token = token(text, at);
                all.push(Lexeme { at, token });
                if here.is_none() {
                    return all;
                }
                at += token.len();
            }
        }
    }
}

/// A name that a kind, a word or a label may have, if it is not too long.
pub(super) fn is_identifier(token: &[u8]) -> bool {
    token.first().is_some_and(|&byte| in_names(byte)) && token != b"_" && token != b"kind"
}

/// A `?` with a name behind it.
pub(super) fn is_name(token: &[u8]) -> bool {
    token.len() > 1 && token[0] == b'?'
}
