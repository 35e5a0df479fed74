//! A debug adapter for the language in `language/`, on standard input and output.
#![no_std] // whose `Vec`, `String` and `format!` a Rattle source doesn't mean

extern crate std;

use language::Counter;
use pl0dap::byte_streams::{Reading, SystemFiles, Writing};
use pl0dap::dap_debug::serve_language;
use pl0dap::kit::alloc::Global;
use pl0dap::kit::rt::HostRuntime;
use std::process::ExitCode;

include!(concat!(env!("OUT_DIR"), "/language.rs"));

fn main() -> ExitCode {
    let rt = HostRuntime::new();
    let files = &mut SystemFiles::new(&rt);
    let input = &mut Reading::new(&rt, rt.stdin());
    let output = &mut Writing::new(&rt, rt.stdout());
    match serve_language::<Counter, _, _, _, _>(&rt, Global, files, input, output) {
        Ok(_) => ExitCode::SUCCESS,
        Err(fault) => {
            std::eprintln!("{fault:?}");
            ExitCode::FAILURE
        }
    }
}
