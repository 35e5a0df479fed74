//! A language with one number, the count. A program is lines, carried out one after another:
//!
//! ```text
//! set 3    the count is 3
//! add -1   the count is 1 less
//! show     prints the count
//! back 2   goes back to line 2, unless the count is 0
//! ```

use debuggee::{Debuggee, Evaluated, Fault, Frame, Language, Location, Page, Step, Variable};
use std::alloc::{AllocError, Global};

/// What can be evaluated, and is shown as a variable.
const COUNT: &str = "count";

/// What a line does.
#[derive(Clone, Copy)]
enum Line {
    Set(i64),
    Add(i64),
    Show,
    Back(usize),
}

/// A program, and the state in which it is.
#[derive(Drop)]
pub struct Counter {
    lines: Vec<Line>,
    /// The line that comes next, of which the first is 0.
    next: usize,
    count: i64,
}

/// Reads a line; `None` where it is none of the language.
fn line_of(text: &str) -> Option<Line> {
    let mut words = text.split_whitespace();
    let verb = words.next()?;
    let number = words.next();
    if words.next().is_some() {
        return None;
    }
    match (verb, number) {
        ("set", Some(number)) => Some(Line::Set(number.parse().ok()?)),
        ("add", Some(number)) => Some(Line::Add(number.parse().ok()?)),
        ("show", None) => Some(Line::Show),
        ("back", Some(line)) => Some(Line::Back(line.parse::<usize>().ok()?.checked_sub(1)?)),
        _ => None,
    }
}

/// Returns why an addition can't be carried out.
fn too_large(alloc: Global) -> Result<Fault, AllocError> {
    let name = String::from_str(alloc, "Overflow")?;
    let text = String::from_str(alloc, "the count is too large")?;
    Ok(Fault { name, text })
}

impl Debuggee for Counter {
    fn step(&mut self, alloc: Global) -> Result<Step, AllocError> {
        let Some(line) = self.lines.get(self.next).copied() else {
            return Ok(Step::Ends(0));
        };
        let mut step = Step::Goes;
        let mut next = self.next + 1;
        match line {
            Line::Set(number) => self.count = number,
            Line::Add(number) => match self.count.checked_add(number) {
                Some(sum) => self.count = sum,
                None => return Ok(Step::Fails(too_large(alloc)?)),
            },
            Line::Show => step = Step::Prints(format!(in alloc; "{}\n", self.count)?),
            Line::Back(line) => {
                if self.count != 0 {
                    next = line;
                }
            }
        }
        self.next = next;
        Ok(step)
    }

    /// Places are lines.
    fn place(&self) -> Option<usize> {
        if self.next < self.lines.len() { Some(self.next) } else { None }
    }

    /// There are no calls.
    fn depth(&self) -> usize {
        1
    }

    /// A condition `count` holds where the count isn't 0.
    fn evaluate(&self, alloc: Global, _frame: usize, expression: &str) -> Result<Evaluated, AllocError> {
        if expression == COUNT {
            Ok(Evaluated::Value(format!(in alloc; "{}", self.count)?, self.count != 0))
        } else {
            Ok(Evaluated::NoValue(String::from_str(alloc, "only `count` has a value")?))
        }
    }
}

impl Language for Counter {
    fn load(alloc: Global, text: &str, _arguments: &str) -> Result<Result<Counter, String>, AllocError> {
        let mut lines = Vec::new(alloc);
        for line in text.lines() {
            match line_of(line) {
                Some(line) => lines.push(line)?,
                None => return Ok(Err(format!(in alloc; "unknown: {line}")?)),
            }
        }
        Ok(Ok(Counter { lines, next: 0, count: 0 }))
    }

    fn place_for(&self, line: u64) -> Option<Location> {
        let place = line.saturating_sub(1) as usize;
        if place < self.lines.len() { Some(Location { place, line: place as u64 + 1 }) } else { None }
    }

    fn frame(&self, alloc: Global, _index: usize) -> Result<Frame, AllocError> {
        Ok(Frame { name: String::from_str(alloc, "main")?, line: (self.next as u64).saturating_add(1), column: 1 })
    }

    fn scopes(&self, alloc: Global, _frame: usize) -> Result<Vec<String>, AllocError> {
        let mut names = Vec::new(alloc);
        names.push(String::from_str(alloc, "main")?)?;
        Ok(names)
    }

    fn variables(&self, alloc: Global, _frame: usize, _scope: usize, page: Page) -> Result<Vec<Variable>, AllocError> {
        let mut all = Vec::new(alloc);
        let name = String::from_str(alloc, COUNT)?;
        all.push(Variable { name, value: format!(in alloc; "{}", self.count)?, inside: None })?;
        page.of(all)
    }
}
