//! The words of a command line, read one by one.

use super::builder::{Arg, ArgAction, Command};
use super::error::Error;
use super::texts::Level;
use super::{ArgMatches, Vec, format, vec};
use ::std::boxed::Box;

/// Reads the words, the program's name first.
pub(super) fn parse<'a>(command: &Command<'a>, words: &[&'a str]) -> Result<ArgMatches<'a>, Error> {
    let rest = words.get(1..).unwrap_or(&[]);
    Parser::new(Level::top(command, words.first().copied())).parse(rest)
}

struct Parser<'c, 'a> {
    level: Level<'c, 'a>,
    given: ArgMatches<'a>,
    /// The argument that was met last, where it takes values, and those that came: they are judged when the next one
    /// is met.
    pending: Option<(&'c Arg<'a>, Vec<&'a str>)>,
    /// How many positional arguments have what they take.
    filled: usize,
}

impl<'c, 'a> Parser<'c, 'a> {
    fn new(level: Level<'c, 'a>) -> Parser<'c, 'a> {
        Parser { level, given: ArgMatches::default(), pending: None, filled: 0 }
    }

    fn parse(mut self, words: &[&'a str]) -> Result<ArgMatches<'a>, Error> {
        let mut rest = words;
        let mut has_ended_options = false;
        while let Some((word, further)) = rest.split_first() {
            rest = further;
            if has_ended_options {
                self.positional(word, true)?;
            } else if let Some(found) = self.level.command.command(word) {
                return self.enter(found, rest);
            } else if *word == "--" {
                has_ended_options = true;
            } else if let Some(long) = word.strip_prefix("--") {
                self.long(long, rest)?;
            } else if let Some(letter) = word.strip_prefix('-').and_then(|short| short.chars().next()) {
                return Err(self.short(letter));
            } else if !self.fills_option(word) {
                self.positional(word, false)?;
            }
        }
        self.finish()
    }

    /// Goes on with a subcommand.
    fn enter(mut self, command: &'c Command<'a>, words: &[&'a str]) -> Result<ArgMatches<'a>, Error> {
        if command.name == "help" {
            return Err(self.level.help_of(words));
        }
        let inner = Parser::new(self.level.below(command)).parse(words)?;
        self.given.command = Some((command.name, Box::new(inner)));
        Ok(self.given)
    }

    fn long(&mut self, long: &'a str, rest: &[&'a str]) -> Result<(), Error> {
        let (name, value) = match long.split_once('=') {
            Some((name, value)) => (name, Some(value)),
            None => (long, None),
        };
        let Some(arg) = self.level.command.find(|arg| arg.long == Some(name)) else {
            let _ = self.settle();
            return Err(self.unknown_long(name, rest));
        };
        match value {
            Some(value) if !arg.takes_value() => {
                let text = format!("unexpected value '{value}' for '{}' found; no more were expected", arg.shown());
                let mut used = self.given.ids();
                used.retain(|id| *id != arg.id && self.level.command.options().any(|one| one.id == *id));
                used.push(arg.id);
                Err(self.level.mistake(&text, &used))
            }
            None if arg.takes_value() => {
                self.settle()?;
                self.pending = Some((arg, Vec::new()));
                Ok(())
            }
            _ => {
                self.settle()?;
                self.act(arg, value.into_iter().collect())
            }
        }
    }

    /// What is said of a word with one hyphen, since only help and the version can be asked for by a letter.
    fn short(&mut self, letter: char) -> Error {
        let Some(arg) = self.level.command.find(|arg| arg.short == Some(letter)) else {
            return self.level.unknown(&format!("-{letter}"), true);
        };
        match self.settle() {
            Ok(()) => self.level.shown_for(arg.action),
            Err(error) => error,
        }
    }

    /// Whether an option waits for this word as its value, and has it then.
    fn fills_option(&mut self, word: &'a str) -> bool {
        match &mut self.pending {
            Some((arg, values)) if arg.long.is_some() && values.is_empty() => {
                values.push(word);
                true
            }
            _ => false,
        }
    }

    fn positional(&mut self, word: &'a str, has_ended_options: bool) -> Result<(), Error> {
        let Some(arg) = self.level.command.positionals().nth(self.filled) else {
            return Err(self.level.stray(word, has_ended_options));
        };
        match &mut self.pending {
            Some((waiting, values)) if waiting.id == arg.id => values.push(word),
            _ => {
                self.settle()?;
                self.pending = Some((arg, vec![word]));
            }
        }
        if arg.action != ArgAction::Append {
            self.filled += 1;
        }
        Ok(())
    }

    /// Judges the values of the argument that was met last.
    fn settle(&mut self) -> Result<(), Error> {
        match self.pending.take() {
            Some((arg, values)) => self.act(arg, values),
            None => Ok(()),
        }
    }

    fn act(&mut self, arg: &'c Arg<'a>, values: Vec<&'a str>) -> Result<(), Error> {
        let shown = arg.shown();
        if arg.takes_value() && values.is_empty() {
            let text = format!("a value is required for '{shown}' but none was supplied");
            return Err(Error::with_pointer(&text));
        }
        if let ArgAction::Help | ArgAction::Version = arg.action {
            return Err(self.level.shown_for(arg.action));
        }
        if arg.action != ArgAction::Append && self.given.remove(arg.id) {
            let text = format!("the argument '{shown}' cannot be used multiple times");
            return Err(self.level.mistake(&text, &[]));
        }
        for value in &values {
            if let Some(refusal) = arg.parser.and_then(|parser| parser.refusal(value)) {
                self.given.add(arg.id, Vec::new());
                let text = format!("invalid value '{value}' for '{shown}': {refusal}");
                return Err(Error::with_pointer(&text));
            }
        }
        self.given.add(arg.id, values);
        Ok(())
    }

    fn unknown_long(&mut self, name: &str, rest: &[&'a str]) -> Error {
        let command = self.level.command;
        let similar = command.similar_option(name);
        if let Some(arg) = similar {
            self.given.add(arg.id, Vec::new());
        }
        let tip = match similar.and_then(|arg| arg.long) {
            Some(long) => Some(format!("a similar argument exists: '--{long}'")),
            None => command.option_below(name, rest).or_else(|| command.tip_for_value(&format!("--{name}"))),
        };
        self.level.unknown_with(&format!("--{name}"), tip, &self.given.ids())
    }

    fn finish(mut self) -> Result<ArgMatches<'a>, Error> {
        self.settle()?;
        if !self.level.command.commands.is_empty() {
            return Err(self.level.missing_command());
        }
        let args = self.level.command.args.iter();
        let missing: Vec<&Arg<'a>> = args.filter(|arg| arg.required && !self.given.get_flag(arg.id)).collect();
        if missing.is_empty() { Ok(self.given) } else { Err(self.level.missing_arguments(&missing, self.given.ids())) }
    }
}
