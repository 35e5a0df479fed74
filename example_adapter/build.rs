//! Writes the language as stock Rust: the module `language`.

use pl0dap_erase::{Paths, erase_crate, finish};
use std::path::Path;

fn main() {
    let mut paths = Paths::new("language", "pl0dap::kit");
    paths.lead("std", "pl0dap::kit");
    paths.lead("debuggee", "pl0dap::debuggee");
    finish("language.rs", erase_crate(Path::new("language"), "language", &paths));
}
