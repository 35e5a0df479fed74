//! A source and the place in it that is read: tokens of Rust, and blocks of antt, the language of clauses.

use crate::Refusal;

/// Words of items and clauses, which can't stand inside a block of antt: one that isn't closed would reach them.
const NEVER_IN_A_BLOCK: [&str; 8] = ["fn", "ghost", "requires", "ensures", "impl", "struct", "enum", "pub"];

#[derive(Clone, Copy, PartialEq)]
pub enum Kind {
    Space,
    Comment,
    Word,
    /// A text, a character, a lifetime or a number.
    Literal,
    Sign,
}

/// A source and the place in it that is read.
pub struct Source<'a> {
    pub text: &'a str,
    pub at: usize,
}

impl<'a> Source<'a> {
    pub fn rest(&self) -> &'a str {
        &self.text[self.at..]
    }

    pub fn refuse<T>(&self, at: usize, what: impl Into<String>) -> Result<T, Refusal> {
        Err(Refusal { line: self.text[..at].matches('\n').count() + 1, what: what.into() })
    }

    /// The kind of the token that begins here, and the token.
    pub fn token(&self) -> Result<(Kind, &'a str), Refusal> {
        let rest = self.rest();
        let word = word_length(rest);
        let first = rest.chars().next().unwrap_or_default();
        let (kind, length) = if rest.starts_with("/*") {
            return self.refuse(self.at, "a block comment isn't known here: write `//`");
        } else if rest.starts_with("//") {
            (Kind::Comment, rest.find('\n').unwrap_or(rest.len()))
        } else if first.is_whitespace() {
            (Kind::Space, rest.len() - rest.trim_start().len())
        } else if let Some(length) = literal_length(rest) {
            match length {
                Some(length) => (Kind::Literal, length),
                None => return self.refuse(self.at, "a text or a character isn't closed"),
            }
        } else if word > 0 {
            (if first.is_ascii_digit() { Kind::Literal } else { Kind::Word }, word)
        } else if first.is_ascii() {
            (Kind::Sign, if rest.starts_with("::") || rest.starts_with("..") { 2 } else { 1 })
        } else {
            return self.refuse(self.at, format!("`{first}` stands outside clauses, comments and texts"));
        };
        Ok((kind, &rest[..length]))
    }

    /// Where the block of antt ends that begins at `begin` with a bracket.
    pub fn block_end(&self, begin: usize) -> Result<usize, Refusal> {
        let mut open = Vec::new();
        let mut at = begin;
        while let Some(sign) = self.text[at..].chars().next() {
            match sign {
                '{' => open.push('}'),
                '(' => open.push(')'),
                '[' => open.push(']'),
                '}' | ')' | ']' if open.pop() != Some(sign) => {
                    return self.refuse(at, format!("`{sign}` closes nothing that is open"));
                }
                '}' | ')' | ']' if open.is_empty() => return Ok(at + 1),
                _ => {}
            }
            at += self.length_in_block(begin, at)?;
        }
        self.refuse(begin, "a block isn't closed")
    }

    /// How long the token of antt is that stands at a place. A quote may be part of a name there.
    fn length_in_block(&self, begin: usize, at: usize) -> Result<usize, Refusal> {
        let (before, rest) = self.text.split_at(at);
        if rest.starts_with("{-") || rest.starts_with("//") {
            return self.refuse(at, "a comment in a block of antt is known only after `-- `");
        }
        if rest.starts_with("-- ") && before.ends_with([' ', '\n']) {
            return Ok(rest.find('\n').unwrap_or(rest.len()));
        }
        let is_after_name = before.ends_with(is_of_name);
        if rest.starts_with(['"', '\'']) && !is_after_name {
            return literal_length(rest).flatten().map_or_else(|| self.refuse(at, "a text isn't closed"), Ok);
        }
        let word = &rest[..word_length(rest)];
        let is_word = !word.is_empty() && !is_after_name && !rest[word.len()..].starts_with(is_of_name);
        if is_word && NEVER_IN_A_BLOCK.contains(&word) {
            return self.refuse(begin, format!("a block isn't closed before `{word}`"));
        }
        Ok(if is_word { word.len() } else { rest.chars().next().map_or(1, char::len_utf8) })
    }
}

pub fn is_of_word(sign: char) -> bool {
    sign.is_ascii_alphanumeric() || sign == '_'
}

/// Whether a sign may stand in a name of antt.
fn is_of_name(sign: char) -> bool {
    sign.is_alphanumeric() || "_-'".contains(sign)
}

/// How long the word is that a text begins with.
pub fn word_length(text: &str) -> usize {
    text.find(|sign| !is_of_word(sign)).unwrap_or(text.len())
}

/// How long the text, character or lifetime is that begins here, if one does; nothing inside, if it isn't closed.
fn literal_length(text: &str) -> Option<Option<usize>> {
    let begin = text.find(|sign: char| !sign.is_ascii_lowercase())?;
    let (prefix, body) = text.split_at(begin);
    let hashes = body.len() - body.trim_start_matches('#').len();
    if ["r", "br", "cr"].contains(&prefix) && body[hashes..].starts_with('"') {
        let end = format!("\"{}", &body[..hashes]);
        let inner = begin + hashes + 1;
        return Some(text[inner..].find(&end).map(|length| inner + length + end.len()));
    }
    let quote = body.chars().next().filter(|quote| {
        *quote == '"' && ["", "b", "c"].contains(&prefix) || *quote == '\'' && ["", "b"].contains(&prefix)
    })?;
    if quote == '\'' && !body[1..].starts_with('\\') && body.chars().nth(2) != Some('\'') {
        return Some(Some(begin + 1)); // of a lifetime
    }
    let mut is_escaped = false;
    let end = body[1..].find(|sign| {
        let ends = sign == quote && !is_escaped;
        is_escaped = sign == '\\' && !is_escaped;
        ends
    });
    Some(end.map(|length| begin + 1 + length + 1))
}
