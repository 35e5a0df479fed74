//! Writes the sources of crates/ as stock Rust, which the library and the programs are built from.

/// The programs. Their crates and all that these use are written.
const PROGRAMS: [&str; 5] = ["pl0dap", "pl0dap_from_zero", "pl0", "stack_adapter", "tiny_adapter"];
/// The tests, which `cargo test` runs.
const TESTS: [&str; 6] =
    ["message_tests", "program_tests", "plan_tests", "runner_tests", "session_tests", "adapter_tests"];

fn main() {
    pl0dap_erase::finish("crates.rs", pl0dap_erase::erase_repository(&PROGRAMS, &TESTS));
}
