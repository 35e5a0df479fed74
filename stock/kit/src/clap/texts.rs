//! What is printed of a command line: usages, help and mistakes.

use super::builder::{Arg, ArgAction, Command};
use super::error::{Error, ErrorKind};
use super::{String, ToString, Vec, format, vec};
use ::std::io::Write;
use ::std::sync::atomic::{AtomicBool, Ordering};

/// What the kit's own builds don't print.
const NOTE: &str = "built by stock Rust, nothing is proved of this build";

/// Whether help was asked for.
static HAS_HELPED: AtomicBool = AtomicBool::new(false);

/// Says by what the program was built, if help was asked for: not all programs print the help that is made here.
pub fn say_what_built_it() {
    if HAS_HELPED.load(Ordering::Relaxed) {
        let _ = ::std::io::stdout().write_all(format!("{NOTE}\n").as_bytes());
    }
}

impl Error {
    /// A mistake, with a pointer to the help and no usage.
    pub(super) fn with_pointer(text: &str) -> Error {
        Error { kind: ErrorKind::Mistake, text: format!("error: {text}\n\nFor more information, try '--help'.\n") }
    }
}

impl<'a> Arg<'a> {
    /// As help and mistakes show it.
    pub(super) fn shown(&self) -> String {
        let name = self.value_name.unwrap_or(self.id);
        match (self.long, self.action) {
            (Some(long), ArgAction::Set) => format!("--{long} <{name}>"),
            (Some(long), _) => format!("--{long}"),
            (None, ArgAction::Append) if self.required => format!("<{name}>..."),
            (None, ArgAction::Append) => format!("[{name}]..."),
            (None, _) => format!("<{name}>"),
        }
    }

    fn shown_in_help(&self) -> String {
        match (self.short, self.long) {
            (Some(short), _) => format!("-{short}, {}", self.shown()),
            (None, Some(_)) => format!("    {}", self.shown()),
            (None, None) => self.shown(),
        }
    }
}

impl<'a> Command<'a> {
    pub(super) fn similar_option(&self, name: &str) -> Option<&Arg<'a>> {
        let alike = self.options().map(|arg| (jaro(name, arg.long.unwrap_or_default()), arg));
        alike.filter(|one| one.0 > ALIKE).max_by(|one, other| one.0.total_cmp(&other.0)).map(|one| one.1)
    }

    /// Points to an option like this one of the first subcommand among the words.
    pub(super) fn option_below(&self, name: &str, words: &[&str]) -> Option<String> {
        words.iter().find_map(|word| {
            let long = self.command(word)?.similar_option(name)?.long?;
            Some(format!("'{word} --{long}' exists"))
        })
    }

    pub(super) fn tip_for_value(&self, word: &str) -> Option<String> {
        let has_place = self.positionals().next().is_some();
        has_place.then(|| format!("to pass '{word}' as a value, use '-- {word}'"))
    }
}

/// A command, and how usages name it: not at all where the program's own name isn't known.
pub(super) struct Level<'c, 'a> {
    pub(super) command: &'c Command<'a>,
    path: Option<String>,
}

impl<'c, 'a> Level<'c, 'a> {
    /// The program, by the first word.
    pub(super) fn top(command: &'c Command<'a>, word: Option<&str>) -> Level<'c, 'a> {
        let name = word.and_then(|word| ::std::path::Path::new(word).file_name());
        Level { command, path: name.map(|name| name.to_string_lossy().into_owned()) }
    }

    pub(super) fn below(&self, command: &'c Command<'a>) -> Level<'c, 'a> {
        let name = command.name;
        Level { command, path: Some(self.path.as_ref().map_or(name.into(), |path| format!("{path} {name}"))) }
    }

    fn path(&self) -> &str {
        self.path.as_deref().unwrap_or(self.command.name)
    }

    /// The usage with these arguments, or with all where there are none.
    fn usage(&self, used: &[&str]) -> String {
        let mut words = vec![self.path().to_string()];
        let is_own = |arg: &Arg<'_>| arg.short.is_none();
        if used.is_empty() && self.command.options().any(is_own) {
            words.push("[OPTIONS]".into());
        }
        let named = used.iter().filter_map(|id| self.command.options().find(|arg| arg.id == *id));
        words.extend(named.map(Arg::shown));
        words.extend(self.command.positionals().map(Arg::shown));
        if !self.command.commands.is_empty() {
            words.push("<COMMAND>".into());
        }
        words.join(" ")
    }

    /// A mistake, with the usage with these arguments.
    pub(super) fn mistake(&self, text: &str, used: &[&str]) -> Error {
        Error::with_pointer(&format!("{text}\n\nUsage: {}", self.usage(used)))
    }

    pub(super) fn unknown_with(&self, word: &str, tip: Option<String>, used: &[&str]) -> Error {
        let text = with_tip(format!("unexpected argument '{word}' found"), tip);
        self.mistake(&text, used)
    }

    /// A word that means nothing, of which a value may have been meant.
    pub(super) fn unknown(&self, word: &str, may_be_value: bool) -> Error {
        self.unknown_with(word, self.command.tip_for_value(word).filter(|_| may_be_value), &[])
    }

    /// A word for which there is no place.
    pub(super) fn stray(&self, word: &str, has_ended_options: bool) -> Error {
        if self.command.commands.is_empty() {
            return self.unknown(word, false);
        }
        if has_ended_options && self.command.command(word).is_some() {
            let tip = format!("subcommand '{word}' exists; to use it, remove the '--' before it");
            return self.unknown_with(word, Some(tip), &[]);
        }
        let names = self.command.commands.iter().map(|one| (jaro(word, one.name), one.name));
        let mut alike: Vec<(f64, &str)> = names.filter(|one| one.0 > ALIKE).collect();
        alike.sort_by(|one, other| one.0.total_cmp(&other.0));
        let quoted: Vec<String> = alike.iter().map(|one| format!("'{}'", one.1)).collect();
        let tip = match quoted.as_slice() {
            [] => None,
            [one] => Some(format!("a similar subcommand exists: {one}")),
            all => Some(format!("some similar subcommands exist: {}", all.join(", "))),
        };
        self.no_command(word, tip)
    }

    fn no_command(&self, word: &str, tip: Option<String>) -> Error {
        let text = with_tip(format!("unrecognized subcommand '{word}'"), tip);
        self.mistake(&text, &[])
    }

    pub(super) fn missing_command(&self) -> Error {
        let names: Vec<&str> = self.command.commands.iter().map(|one| one.name).collect();
        let list = names.join(", ");
        let text = format!("'{}' requires a subcommand but one was not provided\n  [subcommands: {list}]", self.path());
        self.mistake(&text, &[])
    }

    pub(super) fn missing_arguments(&self, missing: &[&Arg<'a>], mut used: Vec<&'a str>) -> Error {
        let shown: Vec<String> = missing.iter().map(|arg| arg.shown()).collect();
        used.extend(missing.iter().map(|arg| arg.id));
        let text = format!("the following required arguments were not provided:\n  {}", shown.join("\n  "));
        self.mistake(&text, &used)
    }

    /// The text that an option asks for.
    pub(super) fn shown_for(&self, action: ArgAction) -> Error {
        if action == ArgAction::Help {
            return self.help();
        }
        let text = format!("{} {} ({NOTE})\n", self.command.name, self.command.version.unwrap_or_default());
        Error { kind: ErrorKind::DisplayVersion, text }
    }

    /// The help that the words after `help` ask for.
    pub(super) fn help_of(&self, words: &[&str]) -> Error {
        match words.split_first() {
            None => self.help(),
            Some((word, rest)) => match self.command.command(word) {
                Some(found) => self.below(found).help_of(rest),
                None => self.no_command(word, None),
            },
        }
    }

    fn help(&self) -> Error {
        HAS_HELPED.store(true, Ordering::Relaxed);
        let command = self.command;
        let mut parts = vec![format!("Usage: {}", self.usage(&[]))];
        if !command.about.is_empty() {
            parts.insert(0, command.about.into());
        }
        parts.extend(part("Commands", command.commands.iter().map(|one| (one.name.into(), one.about))));
        parts.extend(part("Arguments", command.positionals().map(|arg| (arg.shown(), arg.help))));
        parts.extend(part("Options", command.options().map(|arg| (arg.shown_in_help(), arg.help))));
        if !command.after_help.is_empty() {
            parts.push(command.after_help.into());
        }
        Error { kind: ErrorKind::DisplayHelp, text: parts.join("\n\n") + "\n" }
    }
}

/// A part of the help: names, and beside each what it is.
fn part<'t>(title: &str, rows: impl Iterator<Item = (String, &'t str)>) -> Option<String> {
    let rows: Vec<(String, &str)> = rows.collect();
    let width = rows.iter().map(|row| row.0.chars().count()).max()?;
    let lines: Vec<String> = rows.iter().map(|(name, about)| format!("\n  {name:width$}  {about}")).collect();
    Some(format!("{title}:{}", lines.concat()))
}

fn with_tip(text: String, tip: Option<String>) -> String {
    match tip {
        None => text,
        Some(tip) => format!("{text}\n\n  tip: {tip}"),
    }
}

/// Words that are more alike than this are taken for each other.
const ALIKE: f64 = 0.7;

/// How alike two words are, after Jaro: from 0 to 1.
fn jaro(one: &str, other: &str) -> f64 {
    let (a, b): (Vec<char>, Vec<char>) = (one.chars().collect(), other.chars().collect());
    let reach = (a.len().max(b.len()) / 2).saturating_sub(1);
    let mut is_taken = vec![false; b.len()];
    let mut of_a = Vec::new();
    for (at, sign) in a.iter().enumerate() {
        let end = b.len().min(at + reach + 1);
        if let Some(found) = (at.saturating_sub(reach)..end).find(|i| !is_taken[*i] && b[*i] == *sign) {
            is_taken[found] = true;
            of_a.push(*sign);
        }
    }
    if of_a.is_empty() {
        return 0.0;
    }
    let of_b = b.iter().zip(&is_taken).filter(|one| *one.1).map(|one| *one.0);
    let swapped = of_a.iter().zip(of_b).filter(|both| *both.0 != both.1).count() / 2;
    let count = of_a.len() as f64;
    (count / a.len() as f64 + count / b.len() as f64 + (count - swapped as f64) / count) / 3.0
}
