//! What is written in Rattle, and what is written in its place.

/// The rules of packages, crates, files (`CRATE/FILE`) and examples in documentation, or of everything if no name is
/// there. Their order says nothing: at each place the longest rule counts, and what it writes is not read again. If
/// most of them were missing, rustc, `tests/same_code` or the last check of `strip` would refuse what is left. The
/// others, such as those of `#[cold]`, are for speed or comfort.
pub(crate) const RULES: &[(&str, &[(&str, &str)])] = &[
    // The paths of the package for those of the crates. Below, `crate::` gets the module that is made of a crate.
    (
        "cojimuran",
        &[
            ("lexical_num::", "crate::num::"),
            ("lexical_tables::", "crate::tables::"),
            ("lexical_write_integer::", "crate::write_integer::"),
            ("std::", "core::"),
        ],
    ),
    // The same paths for a user, under which the packages export what the root of each crate has, and two modules.
    (
        "lexical_c lexwrite repository_tests examples",
        &[
            ("lexical_num::limits::", "cojimuran::format::"),
            ("lexical_num::digit::", "cojimuran::radix::"),
            ("lexical_num::", "cojimuran::"),
            ("lexical_write_integer::", "cojimuran::"),
            ("lexical_tables::", "cojimuran::table::"),
            ("lexical_parts::", "cojimuran::"),
            ("lexical_lines::", "lexwrite::lines::"),
        ],
    ),
    (
        "lexical_num",
        &[
            ("crate::", "crate::num::"),
            // So no new method breaks a user.
            ("pub trait LexicalInteger: Copy {", "pub trait LexicalInteger: Copy + crate::sealed::Sealed {"),
        ],
    ),
    (
        "lexical_write_integer",
        &[
            ("crate::", "crate::write_integer::"),
            // The root of the package exports it.
            ("pub use lexical_tables as table;", ""),
            // Its message names what does not hold, and nothing else.
            ("unreachable!", "panic!"),
            // With this attribute rustc would save registers here.
            ("#[cold] pub(super) fn count_then_write", "pub(super) fn count_then_write"),
            ("#[cold] fn write_more_than_ten", "fn write_more_than_ten"),
            ("#[cold] pub(super) fn write_binary", "pub(super) fn write_binary"),
            ("let mut loop_turns = Turns::new();", ""),
            // Without its counter each of these is as a method that the root exports.
            ("pub fn slow_digit_count_counted", "pub(crate) fn slow_digit_count_counted"),
            ("pub fn digit_count_counted", "pub(crate) fn digit_count_counted"),
            ("pub fn write_integer_counted", "pub(crate) fn write_integer_counted"),
            ("pub fn compact_counted", "pub(crate) fn compact_counted"),
        ],
    ),
    (
        "lexical_parts",
        &[
            ("crate::", "crate::parts::"),
            // Parts can be keys and compared, as values of std can.
            ("#[derive(Clone, Copy, Debug, Drop)]", "#[derive(Clone, Copy, PartialEq, Eq, Hash, Debug)]"),
            // A formatter has no parameter here, but a lifetime.
            (", W: fmt::Write>", ">"),
            ("struct Through<'a, W> {", "struct Through<'a, 'b> {"),
            ("f: &'a mut fmt::Formatter<W>,", "f: &'a mut fmt::Formatter<'b>,"),
            ("impl<W: fmt::Write> fmt::Write for Through<'_, W>", "impl fmt::Write for Through<'_, '_>"),
            // rustc proves nothing, so a debug build checks what the `unsafe` after it relies on.
            ("if is_known_utf8 {", "if is_known_utf8 { debug_assert!(from_utf8(text).is_ok());"),
        ],
    ),
    // In Rust `to_text` also checks the room, and so `to_str`, which calls it, need not.
    (
        "lexical_parts/part.rt",
        &[
            (
                r#"prove!(has_room(self, buffer), "the buffer is shorter than the room of the part"); let text"#,
                "let text",
            ),
            (
                "let count = self.write_to(buffer); front_mut(buffer, count)",
                r#"assert!(has_room(self, buffer), "the buffer is shorter than the room of the part");
        let count = self.write_to(buffer); front_mut(buffer, count)"#,
            ),
        ],
    ),
    // In Rattle a radix that is not from 2 to 36 is refused by a `requires`, and here when the call is compiled.
    (
        "lexical_parts/numbers/digits.rt",
        &[(
            "Digits(RADIX, self.0)",
            r#"const { assert!(is_radix(RADIX as u64), "the radix is not from 2 to 36") }; Digits(RADIX, self.0)"#,
        )],
    ),
    (
        "lexical_lines",
        &[
            ("crate::", "crate::lines::"),
            // In Rattle each field of a value with a ghost is bound, and the ghost is dropped.
            ("let Writing { writer, trace } = self; drop(trace); writer", "self.writer"),
            // In Rattle the runtime permits input and output, and returns their streams.
            ("(rt: HostRuntime)", "()"),
            ("rt.reader()", "io::stdin().lock()"),
            ("io::writer(&rt)", "io::stdout().lock()"),
        ],
    ),
    // A slice has no C ABI in rustc. So the root of lexical_c exports functions with these names, which call these.
    (
        "lexical_c/write.rt lexical_c/decimal.rt lexical_c/ending.rt",
        &[(r#"#[unsafe(no_mangle)] pub extern "C" fn"#, "pub fn")],
    ),
    ("uses", &[("crate::", "crate::uses::")]),
    (
        "repository_tests",
        &[
            // The runtime is passed to what prints, allocates or ends the process. Here `runtime.rs` stands for it.
            ("(rt: HostRuntime) {", "() {\n    let rt = repository_tests::runtime::HostRuntime;"),
            (
                "(rt: HostRuntime) -> Result<(), Fail> {",
                "() -> Result<(), Fail> {\n    let rt = repository_tests::runtime::HostRuntime;",
            ),
            ("println!(rt;", "repository_tests::println_in!("),
            ("format!(in alloc;", "repository_tests::format_in!("),
            (r#".clone().expect(&rt, "clone")"#, ".clone()"),
            (r#".clone().expect(rt, "clone")"#, ".clone()"),
            (".expect(rt,", ".expect("),
            // What std has only in Rattle.
            ("use std::process::Abort;", "use repository_tests::runtime::Abort;"),
            ("use std::alloc::", "use repository_tests::runtime::"),
            ("use std::fmt::InlineText;", "use repository_tests::runtime::InlineText;"),
            ("use std::test::Fail;", "use repository_tests::runtime::Fail;"),
            ("::Err: Drop", "::Err: Sized"),
            // What allocates takes an allocator and returns a `Result`.
            ("::new(rt.alloc())", "::new()"),
            ("log.resize(", "repository_tests::runtime::resize(log, "),
            ("log.extend_from_slice(", "std::io::Write::write_all(log, "),
            ("log.push_str(", "repository_tests::runtime::push_str(log, "),
            (
                "Formatted(amount, format).to_string(alloc)",
                r#"repository_tests::format_in!("{}", Formatted(amount, format))"#,
            ),
            // In the package the errors are non-exhaustive.
            (r#"Some(("group mark", byte)), }"#, r#"Some(("group mark", byte)), _ => None, }"#),
            // Rust has this method since 1.87.
            (".cast_signed()", " as i64"),
        ],
    ),
    // Here each part is also compared with what `{:e}` writes.
    (
        "uses/tests/scientific.rt",
        &[
            ("add(unsigned, Scientific(", "add(unsigned, repository_tests::scientific::as_rust("),
            ("add(signed, Scientific(", "add(signed, repository_tests::scientific::as_rust("),
            ("add(floats, Scientific(", "add(floats, repository_tests::scientific::as_rust("),
        ],
    ),
    (
        "",
        &[
            // rustc proves nothing, so it checks.
            ("prove!(", "assert!("),
            // A function that is final for the prover.
            ("final fn", "fn"),
            // In Rattle a type says that it can be dropped.
            ("#[derive(Drop)]\npub struct", "#[derive(Debug)]\npub struct"),
            ("#[derive(Drop)]", ""),
            (", Drop)]", ")]"),
            ("+ Drop", ""),
            // The formatter of Rattle has its writer as a parameter.
            ("<W: fmt::Write>", ""),
            ("fmt::Formatter<W>", "fmt::Formatter<'_>"),
            // An assertion takes the runtime, and a vector its allocator.
            ("!(rt;", "!("),
            ("Vec::new(alloc)", "Vec::new()"),
            ("String::new(alloc)", "String::new()"),
            (".to_string(alloc)?", ".to_string()"),
        ],
    ),
];
