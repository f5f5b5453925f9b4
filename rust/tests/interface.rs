//! The texts that state the C interface: `include/overlap.h`, the wrapper's declarations, the exported
//! functions and the engine's, which they call. Nothing else compares them, as a linker knows names alone.
//! And what the archive needs from a linker.

use std::collections::BTreeMap;

const HEADER: &str = include_str!("../../include/overlap.h");
const WRAPPER: &str = include_str!("../src/calls/ffi.rs");
const EXPORTS: &str = include_str!("../../crates/overlap_c/src/lib.rt");
const ENGINE: &str = include_str!("../../crates/overlap/src/lib.rt");
const ANSWERS: &str = include_str!("../../crates/conditions/src/answers.rt");

/// A parameter or field: its name and its type, as Rust writes it.
type Typed = (String, String);

/// The parameters of a call, and what it returns.
type Call = (Vec<Typed>, String);

fn typed(name: &str, of: &str) -> Typed {
    (name.to_string(), of.to_string())
}

/// The part of the text behind `start`, up to `end`, and the rest.
fn part<'a>(text: &'a str, start: &str, end: &str) -> Option<(&'a str, &'a str)> {
    let (_, behind) = text.split_once(start)?;
    behind.split_once(end)
}

/// Texts in Rust or Rattle.
mod rust {
    use super::*;

    /// The text without its comments, and without the name of a lifetime, which nothing passes.
    fn code(text: &str) -> String {
        let lines = text.lines().map(|line| line.split("//").next().unwrap());
        let code = lines.collect::<Vec<_>>().join("\n");
        code.replace("<'a>", "").replace("&'a ", "&")
    }

    /// Each `name: type`, with or without `pub`.
    fn list(text: &str) -> Vec<Typed> {
        let entries = text.split(',').filter_map(|entry| entry.split_once(':'));
        let entries = entries.map(|(name, of)| (name.replace("pub ", ""), of));
        entries
            .map(|(name, of)| typed(name.trim(), of.trim()))
            .collect()
    }

    /// "A slice passes as a pointer and then a length in elements."
    fn as_passed((name, of): Typed) -> Vec<Typed> {
        let slice = |start| of.strip_prefix(start)?.strip_suffix(']');
        let pointer =
            |to: String| vec![(name.clone(), to), (format!("{name}_len"), "usize".into())];
        match (slice("&["), slice("&mut [")) {
            (Some(item), _) => pointer(format!("*const {item}")),
            (_, Some(item)) => pointer(format!("*mut {item}")),
            _ => vec![(name, of)],
        }
    }

    pub fn calls(text: &str) -> BTreeMap<String, Call> {
        let (code, mut calls) = (code(text), BTreeMap::new());
        let mut rest = &code[..];
        while let Some((name, behind)) = part(rest, "fn overlap_", "(") {
            let (parameters, behind) = behind.split_once(')').unwrap();
            let returned = behind.trim_start().strip_prefix("->").unwrap();
            let returned = returned.split_whitespace().next().unwrap();
            let parameters = list(parameters).into_iter().flat_map(as_passed);
            let returned = returned.trim_end_matches(';').to_string();
            calls.insert(name.to_string(), (parameters.collect(), returned));
            rest = behind;
        }
        calls
    }

    /// The fields of a struct that is laid out as C does it.
    pub fn fields(text: &str, name: &str) -> Vec<Typed> {
        let code = code(text);
        let (before, behind) = code.split_once(&format!("pub struct {name} {{")).unwrap();
        let attributes = before.rsplit_once('}').map_or(before, |(_, last)| last);
        assert!(attributes.contains("#[repr(C)]"), "{name}");
        list(behind.split_once('}').unwrap().0)
    }
}

/// The header.
mod header {
    use super::*;

    /// The header without comments, and its macros.
    fn code() -> (String, BTreeMap<String, String>) {
        let mut text = HEADER.replace("\\\n", " ");
        while let Some((comment, _)) = part(&text, "/*", "*/") {
            text = text.replace(&format!("/*{comment}*/"), " ");
        }
        let is_directive = |line: &&str| line.starts_with('#');
        let macros = text.lines().filter_map(|line| {
            let (name, body) = line.strip_prefix("#define ")?.split_once(' ')?;
            Some((name.to_string(), body.to_string()))
        });
        let code: Vec<_> = text.lines().filter(|line| !is_directive(line)).collect();
        (code.join("\n"), macros.collect())
    }

    fn rust_type(of: &str) -> String {
        let names = [
            ("uint32_t", "u32"),
            ("uint8_t", "u8"),
            ("size_t", "usize"),
            ("overlap_listing", "Listing"),
            ("overlap_verdict", "Verdict"),
            ("overlap_update", "Update"),
            ("overlap_row_part", "RowPart"),
        ];
        let known = names.into_iter().find(|name| name.0 == of);
        known
            .unwrap_or_else(|| panic!("the type {of}"))
            .1
            .to_string()
    }

    /// A declaration such as `const uint32_t *starts`.
    fn parameter(text: &str) -> Typed {
        let words = text.replace('*', " * ");
        match words.split_whitespace().collect::<Vec<_>>()[..] {
            ["const", of, "*", name] => typed(name, &format!("*const {}", rust_type(of))),
            [of, "*", name] => typed(name, &format!("*mut {}", rust_type(of))),
            [of, name] => typed(name, &rust_type(of)),
            _ => panic!("the parameter {text}"),
        }
    }

    pub fn calls() -> BTreeMap<String, Call> {
        let (mut code, macros) = code();
        for (name, body) in &macros {
            code = code.replace(name, body);
        }
        let declarations = code.split(';').filter_map(|text| text.split_once('('));
        let call = |(head, parameters): (&str, &str)| {
            let (returned, name) = head.trim().split_once(" overlap_").unwrap();
            let parameters = parameters.trim().strip_suffix(')').unwrap();
            let parameters = parameters.split(',').map(parameter).collect();
            (name.to_string(), (parameters, rust_type(returned)))
        };
        declarations.map(call).collect()
    }

    /// The fields of a struct: declarations such as `uint32_t number, count`.
    pub fn fields(name: &str) -> Vec<Typed> {
        let (code, _) = code();
        let before = code.split(&format!("}} {name};")).next().unwrap();
        let body = before.rsplit_once("typedef struct {").unwrap().1;
        let declarations = body
            .split(';')
            .filter_map(|text| text.trim().split_once(' '));
        let fields = declarations.flat_map(|(of, names)| {
            let names = names.split(',').map(str::trim);
            names.map(move |name| typed(name, &rust_type(of)))
        });
        fields.collect()
    }
}

/// The engine's calls, those that return a reference apart. A reference can't cross the boundary: such
/// a one is called within Rattle.
struct EngineCalls {
    exported: BTreeMap<String, Call>,
    within: BTreeMap<String, Call>,
}

impl EngineCalls {
    fn read() -> Self {
        let calls = rust::calls(ENGINE).into_iter();
        let (within, exported) = calls.partition(|(_, (_, returned))| returned.starts_with('&'));
        Self { exported, within }
    }
}

#[test]
fn the_calls_are_the_same_in_all_three() {
    let header = header::calls();
    assert_eq!(header.len(), 18);
    assert_eq!(rust::calls(WRAPPER), header);
    assert_eq!(rust::calls(EXPORTS), header);
    assert_eq!(EngineCalls::read().exported, header);
}

/// `overlap_nearer_row` alone returns a reference, a part of what `overlap_nearer_row_part` is lent.
#[test]
fn one_call_stays_within_rattle() {
    let EngineCalls { exported, within } = EngineCalls::read();
    assert!(within.keys().eq(["nearer_row"]));
    let (parameters, returned) = &within["nearer_row"];
    assert_eq!(parameters, &exported["nearer_row_part"].0);
    assert_eq!(returned, "&[u32]");
}

#[test]
fn the_answers_are_the_same_in_all_three() {
    for (name, of_header, fields) in [
        ("Listing", "overlap_listing", 3),
        ("Verdict", "overlap_verdict", 2),
        ("Update", "overlap_update", 2),
        ("RowPart", "overlap_row_part", 4),
    ] {
        let header = header::fields(of_header);
        assert_eq!(header.len(), fields);
        assert_eq!(rust::fields(WRAPPER, name), header);
        assert_eq!(rust::fields(ANSWERS, name), header);
    }
}

#[test]
fn none_is_the_constant_of_the_header() {
    let line = format!("#define OVERLAP_NONE {}u\n", overlap::NONE);
    assert!(HEADER.contains(&line));
}

/// A caller without a C library brings memset, and nothing else.
#[test]
fn the_archive_needs_memset_alone() {
    let archive = concat!(
        env!("CARGO_MANIFEST_DIR"),
        "/../target/staticlib/liboverlap.a"
    );
    let mut nm = std::process::Command::new("nm");
    let output = nm.args(["-u", archive]).output().unwrap();
    assert!(output.status.success());
    let text = String::from_utf8(output.stdout).unwrap();
    let needed: Vec<_> = text
        .lines()
        .filter_map(|line| line.trim().strip_prefix("U "))
        .collect();
    assert_eq!(needed, ["memset"]);
}
