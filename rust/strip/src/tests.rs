//! Small sources, and what becomes of each. The made files, which the gate compares, show the rest.

use crate::crates::RECIPES;
use crate::recipe::Recipe;
use crate::repository::{File, Repository};
use crate::rules::{Rule, lex_and_apply};
use crate::tokens::{lex, print, words};
use crate::{Files, MADE, files, stale, translated};
use std::path::{Path, PathBuf};
use std::{env, fs, process, slice};

/// Returns the recipe of a crate.
fn recipe(name: &str) -> &'static Recipe {
    RECIPES.iter().find(|recipe| recipe.name == name).unwrap()
}

/// Returns what is made of a file of `lexical_write_integer`, in which `in_range`, `fits_bits` and `DECIMAL` are laws.
fn made(text: &str) -> Result<String, String> {
    let recipe = recipe("lexical_write_integer");
    let mut repository = Repository::default();
    repository.laws.extend(["in_range", "fits_bits", "DECIMAL"].map(str::to_owned));
    let tokens = lex_and_apply(text, recipe, "a.rt", &mut Rule::all())?;
    translated(&File { recipe, path: "a.rt".to_owned(), tokens }, &repository)
}

/// Returns the tokens of a text without its comments.
fn code(text: &str) -> String {
    words(&lex(text).unwrap())
}

#[track_caller]
fn becomes(text: &str, expected: &str) {
    assert_eq!(code(&made(text).unwrap()), code(expected), "of {text}");
}

#[track_caller]
fn is_refused(text: &str, error: &str) {
    assert_eq!(made(text).unwrap_err(), error, "of {text}");
}

/// A function with a counter and this body.
fn with_body(body: &str) -> String {
    format!("fn f(turns: &mut Turns) -> u8 {{ {body} }}")
}

#[track_caller]
fn body_becomes(body: &str, expected: &str) {
    becomes(&with_body(body), &format!("#[inline] fn f() -> u8 {{ {expected} }}"));
}

/// Such an attribute was once left out by the words of the comment above it.
#[test]
fn a_reworded_comment_changes_only_the_comment() {
    for comment in ["// It is cold.", "// Reworded."] {
        let kept = made(&format!("{comment}\n#[cold]\nfn other() {{ a }}")).unwrap();
        assert_eq!(kept, format!("{comment}\n#[cold]\n#[inline]\nfn other() {{ a }}\n"));
        let left_out = made(&format!("{comment}\n#[cold]\nfn write_more_than_ten() {{ a }}")).unwrap();
        assert_eq!(left_out, format!("{comment}\n#[inline]\nfn write_more_than_ten() {{ a }}\n"));
    }
}

/// A comment with such a word was once refused.
#[test]
fn a_comment_may_have_any_word() {
    let text = "/// A record, a `ghost` and a proof that λ.\nstruct S;\n";
    assert_eq!(made(text).unwrap(), text);
}

#[test]
fn a_comment_goes_with_what_it_stands_at() {
    let made = |text| made(text).unwrap();
    assert_eq!(made("// Of all.\n\n// Of it.\nghost use a;\nstruct B; // b"), "// Of all.\n\nstruct B; // b\n");
    assert_eq!(made("// Of f.\n#[tactic(auto)]\nfn f() { a }"), "// Of f.\n#[inline]\nfn f() { a }\n");
    assert_eq!(made("// Of f.\nfinal fn f() { a }"), "// Of f.\n#[inline]\nfn f() { a }\n");
}

#[test]
fn ghost_items_clauses_and_tactics_are_left_out() {
    becomes("fn f(a: u8) requires { b } ensures* c { d } { a } ghost e: { g };", "#[inline] fn f(a: u8) { a }");
    becomes("struct S { a: u8, pub(crate) ghost n: { ℕ }, ghost m: { x' } }", "struct S { a: u8, }");
    becomes("trait T { fn f() ensures { b }; ghost a = { b }; }", "trait T { fn f(); }");
    becomes("#![tactic(auto)] #[tactic(a, using(b))] fn f() { a }", "#[inline] fn f() { a }");
    becomes("impl<T> Model for S<T> { ghost a = { b }; } impl S {}", "impl S {}");
}

#[test]
fn what_is_left_of_rattle_is_refused() {
    is_refused("fn f() { let a: Option<Turns>; }", "1: only Rattle has `Turns`");
    is_refused("fn f() {\nif c { turns.tick(b) } }", "2: only Rattle has `turns`");
    for word in ["tactic", "prove", "Model", "Drop"] {
        is_refused(&format!("struct S<{word}>;"), &format!("1: only Rattle has `{word}`"));
    }
    is_refused("fn f(a: u8) { in_range(a); }", "1: f does nothing: is it a law that `crates.rs` must list?");
    is_refused("fn f() { (a] }", "1: nothing opens this `]`");
    is_refused("fn f() {\n(", "2: nothing closes this `(`");
}

/// Makes a folder with these files, and returns it.
fn folder_with(name: &str, texts: &[(&str, &str)]) -> PathBuf {
    let folder = env::temp_dir().join(format!("strip-{name}-{}", process::id()));
    for (path, text) in texts {
        files::write(&folder.join(path), text).unwrap();
    }
    folder
}

/// Otherwise what such a law does would be lost, or a call of its namesake.
#[test]
fn a_law_that_does_more_or_has_a_namesake_is_refused() {
    let tables = *recipe("lexical_tables");
    let recipes = [Recipe { name: "a", laws: "law", ..tables }, Recipe { name: "b", ..tables }];
    let recipes: &[Recipe] = Box::leak(Box::new(recipes));
    for (number, (a, b, error)) in [
        ("fn law() -> u8 { 1 }", "", "crates/a/src/lib.rt:1: law is listed as a law, and returns something"),
        ("fn law() { prove!(a) }", "", "crates/a/src/lib.rt:1: law is listed as a law, and asserts something"),
        ("fn law() { unreachable!() }", "", "crates/a/src/lib.rt:1: law is listed as a law, and asserts something"),
        ("fn law() { process::exit(1) }", "", "crates/a/src/lib.rt:1: law is listed as a law, and asserts something"),
        ("fn law(a: &mut u8) {}", "", "crates/a/src/lib.rt:1: law is listed as a law, and changes something"),
        ("fn law<'b>(a: &'b mut u8) {}", "", "crates/a/src/lib.rt:1: law is listed as a law, and changes something"),
        ("fn law() {}", "fn law() { f() }", "crates/b/src/lib.rt: law is also the name of a law"),
    ]
    .into_iter()
    .enumerate()
    {
        let texts = [("crates/a/src/lib.rt", a), ("crates/b/src/lib.rt", b)];
        let folder = folder_with(&format!("law-{number}"), &texts);
        assert_eq!(Repository::read(&folder, recipes, Vec::new()).err().unwrap(), error);
        fs::remove_dir_all(folder).unwrap();
    }
}

#[test]
fn a_made_file_without_a_source_is_found() {
    let made = format!("{MADE}crates/a/src/a.rt.");
    let texts = [("rust/cojimuran/src/a.rs", &*made), ("rust/lexical_c/src/b.rs", "// Written by hand.")];
    let folder = folder_with("stale", &texts);
    assert_eq!(stale(&folder, &Files::new()), Ok(vec![PathBuf::from("rust/cojimuran/src/a.rs")]));
    fs::remove_dir_all(folder).unwrap();
}

#[test]
fn laws_and_their_calls_are_left_out() {
    becomes("/// A law.\n#[a] pub final fn in_range(self) { self.fits_bits(); } const DECIMAL: u8 = 1;", "");
    becomes("mod turns; pub mod laws; mod texts;", "mod texts;");
    body_becomes("in_range(a); (a, b).fits_bits(); T::in_range::<u8>(a[1].as_u64()); b", "b");
    body_becomes(
        "let in_range = a < 2; if !in_range { return 0; } a",
        "let in_range = a < 2; if !in_range { return 0; } a",
    );
}

/// Otherwise what such a statement does would be lost.
#[test]
fn a_law_in_a_statement_that_does_more_is_refused() {
    for statement in [
        "let b = in_range(a);",
        "in_range(a()?);",
        "in_range(self.next());",
        "next().in_range();",
        "match a { b => {} }.in_range();",
        "if a { in_range(b) }",
        "in_range(a?);",
        "in_range(a!());",
        "in_range(&mut a);",
        "return in_range(a);",
    ] {
        is_refused(&with_body(&format!("{statement} b")), "1: only Rattle has `in_range`");
    }
    // So a function keeps its result.
    is_refused(&with_body("in_range(a)"), "1: only Rattle has `in_range`");
}

#[test]
fn counters_are_left_out() {
    becomes("struct S { a: u8, trace: Trace }", "struct S { a: u8 }");
    becomes("fn f() -> S { S { a, trace: Trace::new() } }", "#[inline] fn f() -> S { S { a } }");
    body_becomes("turns.tick(1); self.trace.note(&a); b", "b");
    body_becomes("let a = b / 2; if a > 0 { turns.tick(a); } a", "b / 2");
    body_becomes("if a { if b { turns.tick(1); in_range(a); } } c", "c");
    body_becomes("g(1, turns, g(1, &mut Turns::new(), 3), g(turns, trace))", "g(1, g(1, 3), g())");
    body_becomes("if c() { turns.tick(b); } a", "if c() { } a");
    body_becomes("if c { turns.tick(b); } else { d } a", "if c { } else { d } a");
}

#[test]
fn two_functions_become_one() {
    becomes(
        "fn decimal(n: u8) { decimal_counted(n, &mut Turns::new()) }
        pub fn decimal_counted(n: u8, turns: &mut Turns) { n }",
        "#[inline] fn decimal(n: u8) { n }",
    );
    becomes(
        "trait A {
            fn decimal(self) { self.decimal_counted(&mut Turns::new()) }
            fn decimal_counted(self, turns: &mut Turns);
        }
        impl A for u8 { fn decimal_counted(self, turns: &mut Turns) { self.b() } }",
        "trait A { fn decimal(self); } impl A for u8 { #[inline] fn decimal(self) { self.b() } }",
    );
}

#[test]
fn rules_write_tokens_otherwise() {
    becomes("fn f() { prove!(a); b }", "#[inline] fn f() { assert!(a); b }");
    becomes("#[derive(Clone, Drop)] struct A; #[derive(Drop)] struct B;", "#[derive(Clone)] struct A; struct B;");
    becomes("fn fmt<W: fmt::Write>(f: fmt::Formatter<W>) { a }", "#[inline] fn fmt(f: fmt::Formatter<'_>) { a }");
    let paths = "use crate::num::A; use crate::write_integer::b::C; use core::d;";
    becomes("use lexical_num::A; use crate::b::C; use std::d;", paths);
}

#[test]
fn the_longest_rule_counts_in_any_order() {
    let mut rules = [("a", "a c"), ("a b", "c"), ("c", "d")].map(|(from, to)| Rule::new("", from, to));
    for _ in 0..rules.len() {
        rules.rotate_left(1);
        let tokens = lex_and_apply("a b a c", recipe("lexical_tables"), "lib.rt", &mut rules).unwrap();
        assert_eq!(words(&tokens).trim(), "c a c d");
    }
}

#[test]
fn imports_of_what_is_gone_are_left_out() {
    becomes("use a::{B, in_range, C}; use b::Turns; pub use c::fits_bits;", "use a::{B, C};");
    becomes("use c::{D, E}; fn f() requires { D } { E }", "use c::E; #[inline] fn f() { E }");
    becomes("use d::{from_u8, from_u8_counted, g};", "use d::{from_u8, g};");
}

#[test]
fn examples_have_the_paths_of_a_user() {
    let text = "/// See lexical_num.\n/// ```\n/// use lexical_num::A;\n/// assert!(rt; a[\n/// ```\nstruct S;";
    let example = "/// See lexical_num.\n/// ```\n/// use cojimuran::A;\n/// assert!(a[\n/// ```\nstruct S;\n";
    assert_eq!(made(text).unwrap(), example);
    let other = "/// ```text\n/// lexical_num::A\n/// ```\nstruct S;\n";
    assert_eq!(made(other).unwrap(), other);
}

#[test]
fn only_a_result_that_is_all_must_be_used() {
    becomes("pub fn f<'b>(a: &'b u8) -> &'b u8 { a }", "#[must_use] #[inline] pub fn f<'b>(a: &'b u8) -> &'b u8 { a }");
    for head in ["f(a: &mut u8) -> u8", "f<'b>(a: &'b mut u8) -> u8", "f(a: u8) -> Result<u8, E>", "f(a: u8)"] {
        becomes(&format!("pub fn {head} {{ a }}"), &format!("#[inline] pub fn {head} {{ a }}"));
    }
}

#[test]
fn a_condition_needs_a_section() {
    let error = "1: f requires something, and no section of its documentation says so";
    is_refused("pub fn f() requires { a } { b }", error);
    is_refused("trait T { fn f() requires { a }; }", error);
    for section in ["/// # Panics\n", "/// # Not checked\n"] {
        let text = format!("{section}pub fn f() requires {{ a }} {{ b }}");
        becomes(&text, &format!("{section}#[inline] pub fn f() {{ b }}"));
    }
    becomes("fn f() requires { a } { b }", "#[inline] fn f() { b }");
    becomes("#[doc(hidden)] pub fn f() requires { a } { b }", "#[doc(hidden)] #[inline] pub fn f() { b }");
}

#[test]
fn what_cannot_be_read_is_refused() {
    for text in ["\n/* a */", "\nr\"a\"", "\nbr#\"a\"#", "\nr#type"] {
        is_refused(text, "2: this program reads no block comment, no raw string and no raw name");
    }
}

fn top() -> &'static Path {
    Path::new(concat!(env!("CARGO_MANIFEST_DIR"), "/../.."))
}

#[test]
fn a_rule_or_a_name_of_a_list_that_is_for_nothing_is_refused() {
    let error = |recipes, rules| Repository::read(top(), recipes, rules).err().unwrap();
    let tables = recipe("lexical_tables");
    let rules = vec![Rule::new("lexical_tables", "gone", "")];
    assert_eq!(error(slice::from_ref(tables), rules), "lexical_tables: the rule for `gone` matches nothing");
    let other = Box::leak(Box::new([Recipe { laws: "gone", ..*tables }]));
    assert_eq!(error(other, Vec::new()), "lexical_tables: it has no gone");
}

/// Here each comment and each layout of the crates is another one, and what is made of the code is the same.
#[test]
fn no_comment_and_no_layout_of_a_source_decides() {
    let (repository, mut rules) = (Repository::read(top(), RECIPES, Rule::all()).unwrap(), Rule::all());
    for file in repository.files.iter().filter(|file| file.recipe.path_of_made(&file.path).is_some()) {
        let mut other = lex(&files::read(&top().join(file.path_in_repository())).unwrap()).unwrap();
        for (at, token) in other.iter_mut().enumerate() {
            token.before = if at % 5 == 0 { "\n// ghost requires { #[cold]\n" } else { "\n" }.to_owned();
            token.after.clear();
        }
        let tokens = lex_and_apply(&print(&other), file.recipe, &file.path, &mut rules).unwrap();
        let other = File { path: file.path.clone(), tokens, ..*file };
        let made = |file| code(&translated(file, &repository).unwrap());
        assert_eq!(made(file), made(&other), "{}", file.path_in_repository().display());
    }
}
