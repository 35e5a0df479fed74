//! Writes Rattle sources as stock Rust. It is for build scripts: the library and the programs of this repository are
//! built from what it writes, and so is an adapter of your own whose language is a crate in Rattle.
//!
//! A crate becomes a module. Lines stay where they are, so a message of rustc on `decoder.rs:120` leads to line 120
//! of `decoder.rt`. What is changed, and nothing else:
//!
//! - what only proofs read goes: `ghost`, `requires` and `ensures` with the comments on them, the attributes `tactic`
//!   and `cycle`, and `Drop` in derives;
//! - paths lead to the modules, and those of the kit's crates to the crate `kit`, which stands for the kit's library;
//! - where Rust spells a thing otherwise it is spelt so: `format!(in alloc; ..)` is `format!( alloc; ..)`.
//!
//! What isn't known is refused by file and line. Where Rust has another meaning, it is never passed over.
//!
//! A build script that writes the Rattle sources in `language/` as the module `language`:
//!
//! ```no_run
//! use pl0dap_erase::{Paths, erase_crate, finish};
//! use std::path::Path;
//!
//! let mut paths = Paths::new("language", "pl0dap::kit");
//! for name in ["debuggee", "dap_debug"] {
//!     paths.lead(name, &format!("pl0dap::{name}"));
//! }
//! paths.lead("std", "pl0dap::kit");
//! finish("language.rs", erase_crate(Path::new("language"), "language", &paths));
//! ```
//!
//! The crate then has `#![no_std]` at its root, since the modules have the kit's prelude, and the line
//! `include!(concat!(env!("OUT_DIR"), "/language.rs"));`. Where its own code uses std, it has `extern crate std;` too.

mod eraser;
mod repository;
mod source;

pub use repository::erase_repository;

use std::collections::HashMap;
use std::path::{Path, PathBuf};
use std::{env, fs, process};

/// Where the paths of a crate lead.
#[derive(Clone, Debug)]
pub struct Paths {
    own: String,
    kit: String,
    uses: HashMap<String, String>,
}

impl Paths {
    /// The paths of a crate that becomes the module `name`; the crate `kit` is found at the path `kit`.
    pub fn new(name: &str, kit: &str) -> Paths {
        Paths { own: format!("crate::{name}"), kit: kit.to_string(), uses: HashMap::new() }
    }

    /// Lets the paths that begin with the crate `name` begin with `there`.
    pub fn lead(&mut self, name: &str, there: &str) {
        self.uses.insert(name.to_string(), there.to_string());
    }
}

/// What isn't known, and the line where it stands.
#[derive(Clone, Debug, PartialEq, Eq)]
pub struct Refusal {
    pub line: usize,
    pub what: String,
}

/// Writes one source as stock Rust.
///
/// # Errors
///
/// The first thing in it that isn't known.
pub fn erase(text: &str, paths: &Paths) -> Result<String, Refusal> {
    eraser::Eraser::new(text, paths).run()
}

/// Writes the sources in a folder as the module `name`, and returns the item that declares it. A source ends in `.rt`,
/// or in `.rs`, as it may while nothing in it is for the prover.
///
/// # Errors
///
/// For each source that is refused, its first line that is, as `FILE:LINE: what`.
pub fn erase_crate(source: &Path, name: &str, paths: &Paths) -> Result<String, Vec<String>> {
    let target = out_folder().join(name);
    println!("cargo::rerun-if-changed={}", source.display());
    let mut refused = Vec::new();
    erase_folder(source, &target, paths, &mut refused);
    let is_library = ["lib.rt", "lib.rs"].iter().any(|file| source.join(file).exists());
    let root = if is_library { "lib.rs" } else { "main.rs" };
    let item = format!("#[path = {:?}] pub mod {name};\n", target.join(root));
    if refused.is_empty() { Ok(item) } else { Err(refused) }
}

/// Writes the modules to a file that the library includes; or prints what is refused as errors, and ends the build.
pub fn finish(file: &str, modules: Result<String, Vec<String>>) {
    match modules {
        Ok(text) => fs::write(out_folder().join(file), text).expect("the target folder can be written"),
        Err(refused) => {
            refused.iter().for_each(|one| println!("cargo::error={one}"));
            process::exit(1);
        }
    }
}

fn erase_folder(source: &Path, target: &Path, paths: &Paths, refused: &mut Vec<String>) {
    fs::create_dir_all(target).expect("the target folder can be written");
    for entry in fs::read_dir(source).expect("the sources can be read") {
        let path = entry.expect("the sources can be read").path();
        let file = path.file_stem().expect("an entry has a name");
        if path.is_dir() {
            erase_folder(&path, &target.join(file), paths, refused);
        } else if path.extension().is_some_and(|kind| kind == "rt" || kind == "rs") {
            let text = fs::read_to_string(&path).expect("a source is a text").replace("\r\n", "\n");
            let target = target.join(file).with_extension("rs");
            match erase(&text, paths) {
                Ok(erased) => fs::write(target, erased).expect("the target folder can be written"),
                Err(Refusal { line, what }) => refused.push(format!("{}:{line}: {what}", path.display())),
            }
        }
    }
}

fn out_folder() -> PathBuf {
    env::var_os("OUT_DIR").expect("cargo sets it for a build script").into()
}
