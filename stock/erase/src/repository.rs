//! The crates of this repository, by `crates.txt`.

use crate::{Paths, erase_crate};
use std::collections::HashMap;
use std::fs;
use std::path::Path;

/// Crates of the kit, which are modules of the crate `kit`.
const OF_KIT: [&str; 11] = [
    "itoa", "memchr", "arrayvec", "json", "serde_json", "crossbeam_channel", "crossbeam_queue", "crossbeam_utils",
    "atomic_table", "clap", "log",
];

/// A line of `crates.txt`: its number and the crates that its crate uses.
type Line = (usize, Vec<String>);

/// Writes programs and tests with the crates that they use, and returns the items that declare them. What only tests
/// use is declared for tests alone.
///
/// # Errors
///
/// What is refused, each as `FILE:LINE: what`.
pub fn erase_repository(programs: &[&str], tests: &[&str]) -> Result<String, Vec<String>> {
    println!("cargo::rerun-if-changed=crates.txt");
    let known = crates(&fs::read_to_string("crates.txt").expect("crates.txt can be read"))?;
    let mut needed = Vec::new();
    programs.iter().for_each(|name| need(name, &known, &mut needed));
    let of_programs = needed.len();
    tests.iter().for_each(|name| need(name, &known, &mut needed));
    let mut modules = String::new();
    let mut refused = Vec::new();
    for (number, name) in needed.iter().enumerate() {
        let source = Path::new("crates").join(name).join("src");
        match paths_of(name, &known).and_then(|paths| erase_crate(&source, name, &paths)) {
            Ok(item) if number < of_programs => modules += &item,
            Ok(item) => modules += &format!("#[cfg(test)] {item}"),
            Err(more) => refused.extend(more),
        }
    }
    if refused.is_empty() { Ok(modules) } else { Err(refused) }
}

fn crates(text: &str) -> Result<HashMap<String, Line>, Vec<String>> {
    let mut known = HashMap::new();
    for (number, line) in (1..).zip(text.lines()) {
        let line = line.split('#').next().unwrap_or_default().trim();
        if line.is_empty() {
            continue;
        }
        let refusal = || vec![format!("crates.txt:{number}: it isn't `NAME: USES`")];
        let (head, uses) = line.split_once(':').ok_or_else(refusal)?;
        let name = head.split_whitespace().next().ok_or_else(refusal)?;
        known.insert(name.to_string(), (number, uses.split_whitespace().map(str::to_string).collect()));
    }
    Ok(known)
}

/// Adds a crate after all that it uses.
fn need(name: &str, known: &HashMap<String, Line>, needed: &mut Vec<String>) {
    let Some((_, uses)) = known.get(name) else { return };
    if needed.iter().all(|one| one != name) {
        uses.iter().for_each(|one| need(one, known, needed));
        needed.push(name.to_string());
    }
}

fn paths_of(name: &str, known: &HashMap<String, Line>) -> Result<Paths, Vec<String>> {
    let mut paths = Paths::new(name, "kit");
    let (number, uses) = &known[name];
    for one in uses {
        if known.contains_key(one) {
            paths.lead(one, &format!("crate::{one}"));
        } else if OF_KIT.contains(&one.as_str()) {
            paths.lead(one, &format!("kit::{one}"));
        } else if one != "core" {
            return Err(vec![format!("crates.txt:{number}: `kit` has no crate `{one}`")]);
        }
    }
    Ok(paths)
}
