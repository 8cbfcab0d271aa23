//! `src/sys.rs` declares what `cookie_store.h` declares.

use std::collections::BTreeSet;
use std::{fs, mem};

use pulleymaroon::sys;

/// Returns the header without comments and directives.
fn header() -> String {
    let path = concat!(env!("CARGO_MANIFEST_DIR"), "/../c/cookie_store.h");
    let text = fs::read_to_string(path).unwrap();
    let mut parts = text.split("/*");
    let first = parts.next().unwrap().to_owned();
    let code = parts.fold(first, |code, part| code + part.split_once("*/").unwrap().1);
    let is_code = |line: &&str| !line.starts_with('#') && !line.starts_with("extern");
    words(code.lines().filter(is_code))
}

/// Returns `sys.rs` without comments.
fn source() -> String {
    let lines = include_str!("../../src/sys.rs").lines();
    let code = words(lines.filter(|line| !line.trim_start().starts_with("//")));
    code.replace("( ", "(").replace(", )", ")")
}

/// Returns the words of the lines with a blank between them.
fn words<'a>(lines: impl Iterator<Item = &'a str>) -> String {
    let words: Vec<_> = lines.flat_map(str::split_whitespace).collect();
    words.join(" ")
}

/// Returns what is between `begin` and the next `end`.
fn between<'a>(text: &'a str, begin: &str, end: char) -> &'a str {
    let (_, rest) = text.split_once(begin).expect(begin);
    rest.split_once(end).unwrap().0
}

/// Returns what follows each `begin`, up to the next semicolon.
fn each<'a>(text: &'a str, begin: &'a str) -> BTreeSet<String> {
    let parts = text.split(begin).skip(1);
    parts
        .map(|part| part.split_once(';').unwrap().0.to_owned())
        .collect()
}

/// Returns the Rust declaration of a C declaration, such as `const char *url`.
fn declaration(c: &str) -> String {
    let begin = c.rfind([' ', '*']).unwrap() + 1;
    let rust = match c[..begin].trim() {
        "void" => "()",
        "bool" => "bool",
        "size_t" => "usize",
        "int64_t" => "i64",
        "uint32_t" => "u32",
        "void *" => "*mut c_void",
        "char *" => "*mut c_char",
        "const char *" => "*const c_char",
        "size_t *" => "*mut usize",
        "const size_t *" => "*const usize",
        "uint32_t *" => "*mut u32",
        "cookie_store *" => "*mut cookie_store",
        "cookie_store_row *" => "*mut cookie_store_row",
        "const cookie_store_row *" => "*const cookie_store_row",
        "enum cookie_store_status" => "cookie_store_status",
        "enum cookie_store_status *" => "*mut cookie_store_status",
        "enum cookie_store_same_site" => "cookie_store_same_site",
        "enum cookie_store_format" => "cookie_store_format",
        "enum cookie_store_which" => "cookie_store_which",
        unknown => panic!("the type {unknown}"),
    };
    format!("{}: {rust}", &c[begin..])
}

/// Returns the Rust signature of a C function.
fn signature(c: &str) -> String {
    let (head, parameters) = c.trim_end_matches(')').split_once('(').unwrap();
    let head = declaration(head);
    let (name, result) = head.split_once(": ").unwrap();
    let parameters: Vec<_> = parameters.split(',').map(declaration).collect();
    let signature = format!("{name}({}) -> {result}", parameters.join(", "));
    signature.trim_end_matches(" -> ()").to_owned()
}

#[test]
fn enums_agree() {
    let header = header();
    let mut expected = BTreeSet::new();
    for name in [
        "cookie_store_status",
        "cookie_store_cross_site",
        "cookie_store_same_site",
        "cookie_store_format",
        "cookie_store_which",
    ] {
        let constants = between(&header, &format!("enum {name} {{"), '}').split(',');
        expected.extend(
            constants.map(|constant| constant.trim().replace(" =", &format!(": {name} ="))),
        );
    }
    assert_eq!(each(&source(), "pub const "), expected);
}

#[test]
fn structs_agree() {
    let (header, source) = (header(), source());
    for name in ["cookie_store", "cookie_store_row"] {
        let members =
            between(&header, &format!("typedef struct {name} {{"), '}').split_terminator(';');
        let members = members.map(str::trim).filter(|member| !member.is_empty());
        let expected: Vec<_> = members
            .map(|member| format!("pub {}", declaration(member)))
            .collect();
        let fields = between(&source, &format!("pub struct {name} {{"), '}');
        assert_eq!(
            fields.trim().trim_end_matches(','),
            expected.join(", "),
            "{name}"
        );
    }
    assert_eq!(source.matches("#[repr(C)]").count(), 2);
    assert_eq!(mem::size_of::<sys::cookie_store>(), 16);
    assert_eq!(mem::size_of::<sys::cookie_store_row>(), 56);
}

#[test]
fn functions_agree() {
    let header = header();
    let functions = header
        .split(';')
        .map(str::trim)
        .filter(|statement| statement.contains('(') && !statement.starts_with("static inline"));
    let expected: BTreeSet<_> = functions.map(signature).collect();
    assert_eq!(each(&source(), "pub fn "), expected);
}
