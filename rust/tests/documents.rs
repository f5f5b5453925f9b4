//! What the documents cite is there, and a name of specs/ means one thing.

use std::collections::BTreeMap;
use std::fs;
use std::path::{Path, PathBuf};

/// The documents that cite definitions, theorems and functions.
const DOCUMENTS: [&str; 3] = ["CONTRACTS.md", "DECISIONS.md", "DESIGN.md"];

fn root() -> &'static Path {
    Path::new(env!("CARGO_MANIFEST_DIR")).parent().unwrap()
}

fn document(name: &str) -> String {
    fs::read_to_string(root().join("docs").join(name)).unwrap()
}

/// The files of a folder below crates/NAME, for each crate that has it.
fn files(folder: &str) -> Vec<PathBuf> {
    let crates = fs::read_dir(root().join("crates")).unwrap();
    let folders = crates.filter_map(|of| fs::read_dir(of.unwrap().path().join(folder)).ok());
    let mut files: Vec<_> = folders.flatten().map(|file| file.unwrap().path()).collect();
    files.retain(|path| path.is_file());
    files.sort();
    files
}

/// What stands between backquotes in a text, with the text up to the next backquote behind it.
fn quoted(text: &str) -> Vec<(&str, &str)> {
    let parts: Vec<_> = text.split('`').collect();
    parts
        .chunks(2)
        .filter_map(|pair| pair.get(1))
        .enumerate()
        .map(|(i, name)| (*name, parts.get(2 * i + 2).copied().unwrap_or("")))
        .collect()
}

/// The name that a line of the logic defines: of a definition, a record, a field or a case.
fn defined(line: &str) -> Option<&str> {
    let words = line.split_whitespace();
    let keywords = [
        "pub",
        "abbrev",
        "unfoldable",
        "record",
        "data",
        "struct",
        "enum",
    ];
    let mut words = words.skip_while(|word| keywords.contains(word));
    let name = words.next()?;
    let is_definition = line.contains("pub ") || words.next().is_some_and(|word| word == ":");
    is_definition.then_some(name)
}

/// Whether a file of a crate defines a name. The parts of a name with points are defined there too.
fn defines(path: &Path, name: &str) -> bool {
    let Ok(text) = fs::read_to_string(path) else {
        return false;
    };
    let is_logic = path.extension().is_some_and(|of| of == "antt");
    name.split('.').all(|part| match is_logic {
        true => text.lines().any(|line| defined(line) == Some(part)),
        false => ["fn", "enum", "struct", "const"]
            .iter()
            .any(|kind| has_item(&text, kind, part)),
    })
}

fn has_item(text: &str, kind: &str, name: &str) -> bool {
    let start = format!("{kind} {name}");
    let behind = text.split(&start).skip(1);
    let ends = |rest: &str| !rest.starts_with(|c: char| c.is_alphanumeric() || c == '_');
    behind.into_iter().any(ends)
}

/// The crate and the file of a citation: the text `(crate, File)` at the start.
fn place(behind: &str) -> Option<(&str, &str)> {
    let (inside, _) = behind.trim_start().strip_prefix('(')?.split_once(')')?;
    let (of, file) = inside.split_once(',')?;
    let (of, file) = (of.trim(), file.trim());
    let is_word = |word: &str| word.chars().all(|c| c.is_alphanumeric() || c == '_');
    (is_word(of) && is_word(file) && root().join("crates").join(of).is_dir()).then_some((of, file))
}

/// Each name that is cited with its crate and file; several names may have one place.
fn citations(text: &str) -> Vec<(&str, &str, &str)> {
    let mut waiting = Vec::new();
    let mut cited = Vec::new();
    for (name, behind) in quoted(text) {
        waiting.push(name);
        if let Some((of, file)) = place(behind) {
            cited.extend(waiting.drain(..).map(|name| (name, of, file)));
        } else if behind.trim() != "," {
            waiting.clear();
        }
    }
    cited
}

#[test]
fn each_name_that_is_cited_stands_in_its_file() {
    let (mut cited, mut missing) = (0, Vec::new());
    for document_name in DOCUMENTS {
        let text = document(document_name);
        for (name, of, file) in citations(&text) {
            let folder = root().join("crates").join(of);
            let paths = [
                folder.join("specs").join(file).with_extension("antt"),
                folder.join("proofs").join(file).with_extension("antt"),
                folder.join("src").join(file).with_extension("rt"),
            ];
            cited += 1;
            if !paths.iter().any(|path| defines(path, name)) {
                missing.push(format!("{document_name}: `{name}` ({of}, {file})"));
            }
        }
    }
    assert!(missing.is_empty(), "{missing:#?}");
    assert!(cited > 400, "only {cited} citations were found");
}

#[test]
fn each_line_that_is_cited_begins_its_function() {
    let text = document("CONTRACTS.md");
    let mut cited = 0;
    for pair in quoted(&text).windows(2) {
        let [(file, ","), (name, _)] = [(pair[0].0, pair[0].1.trim()), pair[1]] else {
            continue;
        };
        let Some((file, line)) = file.split_once(".rt:") else {
            continue;
        };
        let path = root().join(file).with_extension("rt");
        let code = fs::read_to_string(path).unwrap();
        let line: usize = line.parse().unwrap();
        let cited_line = code.lines().nth(line - 1).unwrap();
        let kinds = ["fn", "enum", "const"];
        let is_there = kinds.iter().any(|kind| has_item(cited_line, kind, name));
        assert!(is_there, "{file}.rt:{line}: `{name}`");
        cited += 1;
    }
    assert!(cited > 30, "only {cited} lines were found");
}

#[test]
fn each_edit_is_cited_and_each_that_is_cited_is_there() {
    let text = document("CONTRACTS.md");
    let edits: Vec<_> = files("must-fail").iter().map(|path| edit(path)).collect();
    let cited: Vec<_> = quoted(&text).into_iter().map(|(name, _)| name).collect();
    for edit in &edits {
        assert!(cited.contains(&&edit[..]), "{edit} is not cited");
    }
    let is_crate = |of: &str| root().join("crates").join(of).is_dir();
    for name in cited {
        if name.split_once('/').is_some_and(|(of, _)| is_crate(of)) {
            assert!(edits.iter().any(|edit| edit == name), "no edit {name}");
        }
    }
}

#[test]
fn each_test_that_is_cited_is_there() {
    let text = document("CONTRACTS.md");
    let mut cited = 0;
    for (name, _) in quoted(&text) {
        let Some((file, inside)) = name.split_once("::") else {
            continue;
        };
        let tests = fs::read_to_string(root().join("rust/tests").join(file).with_extension("rs"));
        let tests = tests.unwrap_or_else(|_| panic!("no file of {name}"));
        for part in inside.split("::") {
            let is_there = has_item(&tests, "mod", part) || has_item(&tests, "fn", part);
            assert!(is_there, "no test {name}");
        }
        cited += 1;
    }
    assert!(cited > 60, "only {cited} tests were found");
}

/// `crate/name` of an edit.
fn edit(path: &Path) -> String {
    let name = path.file_stem().unwrap().to_str().unwrap();
    let of = path.ancestors().nth(2).unwrap().file_name().unwrap();
    format!("{}/{name}", of.to_str().unwrap())
}

/// A type and the function of its values, a statement and its theorem or law, and an answer of `src/`
/// with what it answers: pairs that may differ in case and underscores only.
const PAIRS: [[&str; 2]; 10] = [
    ["BuildOutcome", "build_outcome"],
    ["Demand2", "demand_2"],
    ["Demand3", "demand_3"],
    ["EntriesOutcome", "entries_outcome"],
    ["EagerOutcome", "eager_outcome"],
    ["Listed", "listed"],
    ["NearestOutcome", "nearest_outcome"],
    ["Network", "network"],
    ["VerifyOutcome", "verify_outcome"],
    ["VisitsLaw", "visits_law"],
];

#[test]
fn a_name_of_specs_means_one_thing() {
    let mut names: BTreeMap<String, Vec<String>> = BTreeMap::new();
    let types = public("src", &["struct", "enum"]);
    for name in public("specs", &[]).into_iter().chain(types) {
        let letters = name.to_lowercase().replace('_', "");
        names.entry(letters).or_default().push(name);
    }
    assert!(names.len() > 500, "only {} names were found", names.len());
    for same in names.values_mut().filter(|same| same.len() > 1) {
        same.sort();
        assert!(PAIRS.iter().any(|pair| pair == &same[..]), "{same:?}");
    }
}

#[test]
fn no_record_of_proofs_has_a_name_of_specs() {
    let of_specs = public("specs", &[]);
    for name in public("proofs", &["record", "data"]) {
        assert!(!of_specs.contains(&name), "{name}");
    }
}

/// The public names that the files of a folder define at the top, those of these kinds, or all.
fn public(folder: &str, kinds: &[&str]) -> Vec<String> {
    let mut names = Vec::new();
    for path in files(folder) {
        let text = fs::read_to_string(&path).unwrap();
        let lines = text
            .lines()
            .filter(|line| !line.starts_with([' ', '/', '-']));
        let public = lines.filter(|line| line.contains("pub ") && !line.contains("pub mod"));
        let is_wanted = |line: &&str| kinds.is_empty() || kinds.iter().any(|of| line.contains(of));
        names.extend(
            public
                .filter(is_wanted)
                .filter_map(defined)
                .map(String::from),
        );
    }
    names
}
