//! What is put away, what is spelt otherwise, and what is refused.

use pl0dap_erase::{Paths, Refusal, erase};
use std::fs;
use std::path::{Path, PathBuf};

const PRELUDE: &str = "use kit::prelude::*; ";

const LITERALS: &str = r##"a(r#""ghost { \"#, '\'', b'"', 'λ', "\"requires { ", f::<'a>)"##;

/// Sources, and what is left of them.
const PUT_AWAY: [(&str, &str); 17] = [
    ("ghost use A.B.{◌≡◌, ◌;◌,\n  c};\nfn f() {}", "\n\nfn f() {}"),
    ("/// Says so.\n#[inline]\npub ghost view = { λ x. x };\nfn f() {}", "\n\n\nfn f() {}"),
    ("struct S {\n  /// A.\n  pub(crate) ghost all: { List T } by { p },\n  a: u8 }", "struct S {\n  \n\n  a: u8 }"),
    ("struct S { a: u8, ghost small: { a < 9 } }", "struct S { a: u8, }"),
    ("struct S {\n  pub(super) ghost m: { ℕ },\n  a: u8 }", "struct S {\n  \n  a: u8 }"),
    ("trait T { ghost m: { ℕ } = { 0 }; }", "trait T {  }"),
    ("fn f() ghost top: { ℕ } requires { top ≤ 2 } {}", "fn f()  {}"),
    ("fn f()\n    requires { a\n        < b }\n    ensures* out { c }\n{ g() }", "fn f()\n    \n\n    \n{ g() }"),
    ("fn f() requires «data» { ⊤ } {}", "fn f()  {}"),
    ("fn f() ensures { -- it's {\n x' ≡ \"}\" } {}", "fn f() \n {}"),
    ("fn f() ensures { c ≡ '}' } {}", "fn f()  {}"),
    ("let g = move || requires { pre job } { job() };", "let g = move ||  { job() };"),
    ("#![tactic(auto)]\n\nmod a;", "\n\nmod a;"),
    ("#[tactic(auto, using(crate::proofs::A::b))]\nfn f() {}", "\nfn f() {}"),
    ("#[cycle(value)]\nfn f() {}", "\nfn f() {}"),
    ("#[derive(Drop)]\nstruct S;", "\nstruct S;"),
    ("#[derive(Debug, Drop, Clone)]\nstruct S;", "#[derive(Debug, Clone)]\nstruct S;"),
];

/// Sources, and how Rust spells them.
const SPELT: [(&str, &str); 17] = [
    ("use crate::a::{json::b};", "use crate::own::a::{json::b};"),
    ("use low::{a, b}; json::c(low::a)", "use crate::low::{a, b}; kit::json::c(crate::low::a)"),
    ("mod part; use part::x; fn f() { y::z(Low::W) }", "mod part; use part::x; fn f() { y::z(Low::W) }"),
    ("0..crate::a", "0..crate::own::a"),
    ("format!(in alloc; \"{a}\")?", "format!( alloc; \"{a}\")?"),
    ("json!(\n    in a; {})?", "json!(\n     a; {})?"),
    ("assert_eq!(&rt; a, b); unreachable!()", "kit::assert_eq!(&rt; a, b); unreachable!()"),
    ("a.collect(alloc)?.to_vec(b)", "a.collect_in(alloc)?.to_vec_in(b)"),
    ("a.collect::<Vec<u8>>(b); u8::repeat(1)", "a.collect_in::<Vec<u8>>(b); u8::repeat(1)"),
    ("x.expect(rt, \"y\"); expect(z)", "x.expect_in(rt, \"y\"); expect(z)"),
    ("impl Drop for A { fn drop(self) {} }", "impl ::core::ops::Drop for A { fn drop(&mut self) {} }"),
    (
        "use std::fmt; fn fmt<W: fmt::Write>(&self, f: &mut fmt::Formatter<W>)",
        "use std::fmt; fn fmt(&self, f: &mut fmt::Formatter<'_>)",
    ),
    ("fn main(rt: HostRuntime) {}", "pub fn main(rt: HostRuntime) {}"),
    ("#[test]\nfn t(rt: HostRuntime)\n{ a }", "#[test]\nfn t()\n{ let rt = HostRuntime::new(); a }"),
    ("#[test]\nfn t() { a }\nfn u(rt: X) {}", "#[test]\nfn t() { a }\nfn u(rt: X) {}"),
    ("mod a { fn f() {} }", "mod a {use kit::prelude::*;  fn f() {} }"),
    (LITERALS, LITERALS),
];

/// Sources that are refused, the line where, and a part of what is said.
const REFUSED: [(&str, usize, &str); 30] = [
    ("trait T {\n    fn f() requires b; }", 2, "`requires` without a block"),
    ("fn f()\n    ensures = { a } {}", 2, "`ensures` without a block"),
    ("fn f()\n    requires { a < b\n{ g() }\n\nfn h() {}", 2, "isn't closed before `fn`"),
    ("fn f() {}\n\nfn g() ensures { a ) {}", 3, "`)` closes nothing"),
    ("fn f() ensures { a\n", 1, "a block isn't closed"),
    ("fn f() ensures { a } // {\n ensures { a // }\n } {}", 2, "known only after `-- `"),
    ("\nghost fn f() {}", 2, "`ghost` begins no item"),
    ("struct S {\n  ghost a { b },\n}", 2, "`ghost` begins no item"),
    ("fn f() {\n let ghost = 1; }", 2, "`ghost` begins no item"),
    ("ghost use A.B\n", 1, "isn't closed by `;`"),
    ("\n#[derived] impl A {}", 2, "the attribute `derived`"),
    ("#[cfg(unix)]\nfn f() {}", 1, "`cfg` is known only"),
    ("#[derive(Clone, Error)]\nenum E {}", 1, "the derive `Error`"),
    ("fn f() {\n a ≤ b }", 2, "`≤` stands outside"),
    ("fn f() { /* a */ }", 1, "a block comment"),
    ("a(\"b\n", 1, "isn't closed"),
    ("\na(r#\"b\")", 2, "isn't closed"),
    ("let r#type = 1;", 1, "begins no attribute"),
    ("a!(1)", 1, "the macro `a!`"),
    ("let v =\n    vec![1, 2];", 2, "`vec!` is known only with `in`"),
    ("assert!(in a; b)", 1, "`assert!` is known only without `in`"),
    ("macro_rules! m { () => {} }", 1, "`macro_rules!` is known only"),
    ("a.collect()", 1, "takes an allocator"),
    ("impl Drop for A {\n fn drop(&mut self) {} }", 2, "only `drop(self)` is known"),
    ("fn fmt<X>(&self) {}", 1, "only `fmt<W: fmt::Write>(`"),
    ("fn f(g: Formatter<X>) {}", 1, "only `<W>`"),
    ("use low::a;\nuse other::b;", 2, "`other` is no crate"),
    ("use {crate::a};", 1, "begins no path"),
    ("struct S {\n pub(in a) ghost m: { ℕ } }", 2, "only `(crate)`"),
    ("#[test]\nfn t(alloc: Global) {}", 2, "a test takes nothing"),
];

fn paths() -> Paths {
    let mut paths = Paths::new("own", "kit");
    paths.lead("low", "crate::low");
    paths.lead("json", "kit::json");
    paths
}

#[test]
fn puts_away_and_spells() {
    for (source, wanted) in PUT_AWAY.iter().chain(&SPELT) {
        let erased = erase(source, &paths()).unwrap_or_else(|refusal| panic!("{source}: {refusal:?}"));
        assert_eq!(erased.replacen(PRELUDE, "", 1), *wanted);
    }
}

#[test]
fn refuses() {
    for (source, wanted, part) in REFUSED {
        let Err(Refusal { line, what }) = erase(source, &paths()) else { panic!("passed over: {source}") };
        assert!(line == wanted && what.contains(part), "{source}: {line}: {what}");
    }
}

#[test]
fn lines_stay_where_they_are() {
    let top = Path::new(env!("CARGO_MANIFEST_DIR")).join("../..");
    let crates = fs::read_to_string(top.join("crates.txt")).unwrap();
    let mut paths = paths();
    crates.split([' ', ':', '\n']).for_each(|name| paths.lead(name, &format!("crate::{name}")));
    let folders = fs::read_dir(top.join("crates")).unwrap();
    let mut left: Vec<PathBuf> = folders.map(|entry| entry.unwrap().path().join("src")).collect();
    let mut count = 0;
    while let Some(path) = left.pop() {
        if path.is_dir() {
            left.extend(fs::read_dir(&path).unwrap().map(|entry| entry.unwrap().path()));
        } else if path.extension().is_some_and(|kind| kind == "rt") {
            let source = fs::read_to_string(&path).unwrap();
            let erased = erase(&source, &paths).unwrap_or_else(|refusal| panic!("{}: {refusal:?}", path.display()));
            assert_eq!(erased.matches('\n').count(), source.matches('\n').count(), "{}", path.display());
            count += 1;
        }
    }
    assert!(count > 400);
}
