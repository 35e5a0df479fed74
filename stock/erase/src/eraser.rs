//! One source on its way to stock Rust.

use crate::source::{Kind, Source, is_of_word, word_length};
use crate::{Paths, Refusal};

/// Attributes that Rust has too.
const ATTRIBUTES: [&str; 8] = ["allow", "cfg", "cold", "inline", "must_use", "non_exhaustive", "repr", "test"];
/// Derives that Rust has too.
const DERIVES: [&str; 9] = ["Clone", "Copy", "Debug", "Default", "Eq", "Hash", "Ord", "PartialEq", "PartialOrd"];
/// Macros that begin with `in` and an allocator, with which no macro of Rust can begin.
const ALLOCATING: [&str; 3] = ["format", "json", "vec"];
/// Macros that begin with a handle, where Rust's of the same name take none.
const WITH_HANDLE: [&str; 7] = ["assert", "assert_eq", "assert_ne", "eprintln", "panic", "print", "println"];
/// Macros that are written as in Rust, or that Rust doesn't have.
const OTHER_MACROS: [&str; 7] = ["anyhow", "error", "matches", "prove", "unreachable", "write", "writeln"];
/// Methods that take an allocator or a handle first, where Rust's of the same name take none.
const WITH_ALLOCATOR: [&str; 5] = ["collect", "expect", "repeat", "to_vec", "try_collect"];
/// What a `use` may begin with in every crate.
const EVERYWHERE: [&str; 4] = ["core", "self", "std", "super"];

pub struct Eraser<'a> {
    source: Source<'a>,
    paths: &'a Paths,
    out: String,
    /// Where in `out` the comments, attributes and `pub` begin that belong to what comes next.
    head: Option<usize>,
    /// The last token but space and comments.
    last: &'a str,
    /// The modules that the source declares.
    modules: Vec<&'a str>,
    is_in_use: bool,
    has_prelude: bool,
    is_of_test: bool,
    /// What stands first in the block that comes next: the prelude of a module, or the handle of a test.
    begins: String,
}

impl<'a> Eraser<'a> {
    pub fn new(text: &'a str, paths: &'a Paths) -> Eraser<'a> {
        let source = Source { text, at: 0 };
        let (out, begins, modules) = Default::default();
        let (has_prelude, is_in_use, is_of_test) = (false, false, false);
        Eraser { source, paths, out, head: None, last: "", modules, has_prelude, is_in_use, is_of_test, begins }
    }

    pub fn run(mut self) -> Result<String, Refusal> {
        while !self.source.rest().is_empty() {
            let (kind, token) = self.source.token()?;
            let is_of_readers = token.starts_with("///");
            if kind == Kind::Space || kind == Kind::Comment && !is_of_readers {
                self.write(token, token.len());
                continue;
            }
            if !self.has_prelude && !self.source.rest().starts_with("#!") {
                self.out += &self.prelude();
                self.has_prelude = true;
            }
            if is_of_readers || token == "#" || token == "pub" {
                self.head.get_or_insert(self.out.len());
            } else if token != "ghost" {
                self.head = None;
            }
            match kind {
                Kind::Word => self.word(token)?,
                _ if token == "#" => self.attribute()?,
                Kind::Sign => self.sign(token),
                _ => self.write(token, token.len()),
            }
            if !is_of_readers {
                self.last = token;
            }
        }
        Ok(self.out)
    }

    /// Writes a text in place of the next bytes of the source.
    fn write(&mut self, text: &str, length: usize) {
        self.out += text;
        self.source.at += length;
    }

    /// Leaves out the source up to a place, but for its lines.
    fn put_away(&mut self, end: usize) {
        let gone = &self.source.text[self.source.at..end];
        self.out.extend(gone.chars().filter(|sign| *sign == '\n'));
        self.source.at = end;
    }

    fn refuse<T>(&self, what: impl Into<String>) -> Result<T, Refusal> {
        self.source.refuse(self.source.at, what)
    }

    fn prelude(&self) -> String {
        format!("use {}::prelude::*; ", self.paths.kit)
    }

    fn sign(&mut self, sign: &str) {
        self.write(sign, sign.len());
        if sign == ";" {
            self.is_in_use = false;
            self.begins.clear();
        }
        if sign == "{" {
            self.out += &std::mem::take(&mut self.begins);
        }
    }

    fn word(&mut self, word: &'a str) -> Result<(), Refusal> {
        let after = &self.source.rest()[word.len()..];
        match word {
            "ghost" => self.ghost(),
            "requires" | "ensures" => self.clause(word),
            _ if after.starts_with('!') && !after.starts_with("!=") => self.macro_call(word),
            _ => {
                let (written, length) = self.spelling(word, after)?;
                self.write(&written, length);
                if self.last == "mod" {
                    self.modules.push(word);
                    self.begins = self.prelude();
                }
                self.is_in_use |= word == "use";
                Ok(())
            }
        }
    }

    /// What Rust has for a word and what follows it, and how much of the source that is.
    fn spelling(&mut self, word: &str, after: &str) -> Result<(String, usize), Refusal> {
        let begins_path = if self.is_in_use { self.last == "use" } else { ![".", "::"].contains(&self.last) };
        // What stands in place of the word and of some text after it; any other text there is refused.
        let exact = |text: &str, written: &str| match after.starts_with(text) {
            true => Ok((written.to_string(), word.len() + text.len())),
            false => self.refuse(format!("after `{word}` only `{}` is known here", text.trim_start())),
        };
        let written = match word {
            "pub" if after.starts_with("(super)") => return exact("(super)", "pub(super)"),
            "pub" if after.starts_with("(") => return exact("(crate)", "pub(crate)"),
            "crate" if !begins_path || !after.starts_with("::") => return self.refuse("a `crate` that begins no path"),
            "fn" if self.is_of_test => return self.test_head(after),
            "fn" if after.starts_with(" drop(") => return exact(" drop(self)", "fn drop(&mut self)"),
            "fn" if after.starts_with(" fmt<") => return exact(" fmt<W: fmt::Write>(", "fn fmt("),
            "fn" if after.starts_with(" main(") && self.last != "pub" => "pub fn".to_string(),
            "Formatter" if after.starts_with('<') => return exact("<W>", "Formatter<'_>"),
            "Drop" if after.starts_with(" for ") => "::core::ops::Drop".to_string(),
            _ if self.last == "." && WITH_ALLOCATOR.contains(&word) && after.starts_with("()") => {
                return self.refuse(format!("`{word}` takes an allocator or a handle"));
            }
            _ if self.last == "." && WITH_ALLOCATOR.contains(&word) => format!("{word}_in"),
            _ if begins_path && after.starts_with("::") && !after.starts_with("::<") => self.path(word)?,
            _ => word.to_string(),
        };
        Ok((written, word.len()))
    }

    /// Where a path leads that begins with this word.
    fn path(&self, word: &str) -> Result<String, Refusal> {
        let is_type = word.starts_with(|first: char| first.is_ascii_uppercase());
        match self.paths.uses.get(word) {
            _ if word == "crate" => Ok(self.paths.own.clone()),
            Some(there) => Ok(there.clone()),
            None if !self.is_in_use || is_type || EVERYWHERE.contains(&word) || self.modules.contains(&word) => {
                Ok(word.to_string())
            }
            None => self.refuse(format!("`{word}` is no crate that this one uses, and no module of this file")),
        }
    }

    fn macro_call(&mut self, word: &str) -> Result<(), Refusal> {
        let begin = word.len() + "!(".len();
        let inner = self.source.rest().get(begin..).unwrap_or_default();
        let argument = inner.trim_start();
        let takes_in = argument.starts_with("in ");
        let opened = self.source.rest().get(word.len()..begin).unwrap_or_default();
        if takes_in != ALLOCATING.contains(&word) || !["!(", "![", "!{"].contains(&opened) {
            let known = if takes_in { "without `in`" } else { "with `in` and an allocator" };
            return self.refuse(format!("`{word}!` is known only {known}"));
        }
        if takes_in {
            let space = &inner[..inner.len() - argument.len()];
            self.write(&format!("{word}{opened}{space}"), begin + space.len() + "in".len());
        } else if WITH_HANDLE.contains(&word) {
            self.write(&format!("{}::{word}", self.paths.kit), word.len());
        } else if OTHER_MACROS.contains(&word) {
            self.write(word, word.len());
        } else {
            return self.refuse(format!("the macro `{word}!` isn't known here"));
        }
        Ok(())
    }

    fn attribute(&mut self) -> Result<(), Refusal> {
        let rest = self.source.rest();
        let begin = if rest.starts_with("#!") { "#!".len() } else { "#".len() };
        if !rest[begin..].starts_with('[') {
            return self.refuse("a `#` that begins no attribute");
        }
        let end = self.source.block_end(self.source.at + begin)?;
        let whole = &self.source.text[self.source.at..end];
        let inner = &whole[begin + 1..whole.len() - 1];
        let name = &inner[..word_length(inner)];
        match name {
            "tactic" | "cycle" => self.put_away(end),
            "derive" => self.derive(inner, end)?,
            "cfg" if inner != "cfg(test)" => return self.refuse("`cfg` is known only as `cfg(test)`"),
            _ if ATTRIBUTES.contains(&name) => self.write(whole, whole.len()),
            _ => return self.refuse(format!("the attribute `{name}` isn't known here")),
        }
        self.is_of_test |= name == "test";
        Ok(())
    }

    /// Writes a derive without `Drop`, since Rust lets each value go.
    fn derive(&mut self, inner: &str, end: usize) -> Result<(), Refusal> {
        let list = inner.trim_start_matches("derive").trim().trim_start_matches('(').trim_end_matches(')');
        let names = list.split(',').map(str::trim).filter(|name| !["", "Drop"].contains(name));
        let names: Vec<&str> = names.collect();
        if let Some(other) = names.iter().find(|name| !DERIVES.contains(name)) {
            return self.refuse(format!("the derive `{other}` isn't known here"));
        }
        if !names.is_empty() {
            self.out += &format!("#[derive({})]", names.join(", "));
        }
        self.put_away(end);
        Ok(())
    }

    /// Lets a test make its handle, which the kit gives it.
    fn test_head(&mut self, after: &str) -> Result<(String, usize), Refusal> {
        self.is_of_test = false;
        let begin = after.find('(').unwrap_or(after.len());
        let given = after[begin..].split_inclusive(')').next().unwrap_or_default();
        match given {
            "(rt: HostRuntime)" => self.begins = " let rt = HostRuntime::new();".to_string(),
            "()" => {}
            _ => return self.refuse("a test takes nothing or `rt: HostRuntime`"),
        }
        Ok((format!("fn{}()", &after[..begin]), "fn".len() + begin + given.len()))
    }

    /// Puts away `requires` and `ensures` with their blocks.
    fn clause(&mut self, word: &str) -> Result<(), Refusal> {
        let begin = self.source.at + word.len();
        let starless = self.source.text[begin..].strip_prefix('*').map_or(begin, |_| begin + 1);
        let block = self.past_name(starless);
        if !self.source.text[block..].starts_with('{') {
            return self.refuse(format!("`{word}` without a block"));
        }
        self.put_away(self.source.block_end(block)?);
        Ok(())
    }

    /// Puts away a ghost item, member, field or clause, with the comments and attributes on it.
    fn ghost(&mut self) -> Result<(), Refusal> {
        let end = self.ghost_end()?;
        if let Some(head) = self.head.take() {
            let gone = self.out.split_off(head);
            self.out.extend(gone.chars().filter(|sign| *sign == '\n'));
        }
        self.put_away(end);
        Ok(())
    }

    fn ghost_end(&self) -> Result<usize, Refusal> {
        let text = self.source.text;
        let mut at = self.source.at + "ghost".len();
        if text[at..].starts_with(" use ") {
            loop {
                match text[at..].chars().next() {
                    Some(';') => return Ok(at + 1),
                    Some('{') => at = self.source.block_end(at)?,
                    Some(sign) => at += sign.len_utf8(),
                    None => return self.refuse("`ghost use` isn't closed by `;`"),
                }
            }
        }
        at = self.past_name(at);
        let begin = at;
        for part in [":", "=", "by"] {
            let block = self.past_space(at + part.len());
            if text[at..].starts_with(part) && text[block..].starts_with('{') {
                at = self.past_space(self.source.block_end(block)?);
            }
        }
        let rest = &text[at..];
        match rest.chars().next() {
            Some(',' | ';') if at > begin => Ok(at + 1),
            Some('}' | '{') if at > begin => Ok(at),
            _ if at > begin && ["requires", "ensures"].contains(&&rest[..word_length(rest)]) => Ok(at),
            _ => self.refuse("`ghost` begins no item, member, field or clause that is known here"),
        }
    }

    /// Past the space, the name and the space after it that stand at a place; a name may stand in `«` and `»`.
    fn past_name(&self, at: usize) -> usize {
        let rest = self.source.text[at..].trim_start().trim_start_matches('«');
        let after = rest.trim_start_matches(is_of_word).trim_start_matches('»').trim_start();
        self.source.text.len() - after.len()
    }

    fn past_space(&self, at: usize) -> usize {
        self.source.text.len() - self.source.text.get(at..).unwrap_or_default().trim_start().len()
    }
}
