//! The files that must be believed, found in the repository itself: all definitions of crate `theory`, the `specs/` of other crates that
//! the contract of an entry cites, directly or through such a file, and the C header.

use std::collections::BTreeSet;
use std::fs;
use std::path::{Path, PathBuf};

/// The crate and file of a path such as `Rattle.word.specs.Answers`.
fn spec_of(path: &str) -> Option<(String, String)> {
    let path = path.strip_prefix("Rattle.")?;
    let (krate, rest) = path.split_once(".specs.")?;
    let file = rest.split(['.', ' ', ';']).next()?;
    (file != "declared").then(|| (krate.into(), file.into()))
}

/// An import: the names that it brings, and the file that they are from.
struct Import {
    names: Vec<String>,
    spec: (String, String),
}

fn imports(text: &str) -> Vec<Import> {
    let lines = text.lines().filter_map(|l| l.trim_start_matches("ghost ").trim_start_matches("pub ").strip_prefix("use "));
    lines
        .filter_map(|line| {
            let spec = spec_of(line)?;
            let list = line.split_once('{').map(|(_, names)| names.trim_end_matches([';', '}', ' ']));
            let name = line.trim_end_matches(';').rsplit([' ', '.']).next().unwrap_or_default();
            let names = list.map_or(vec![name.to_string()], |l| l.split(',').map(|n| n.trim().to_string()).collect());
            Some(Import { names, spec })
        })
        .collect()
}

/// The contracts in a source file, from the line with `fn` to the brace of the body, of the functions that are entries: `is_entry` is asked
/// whether the function is public, its name, and its type's.
fn contracts(text: &str, is_entry: impl Fn(bool, &str, &str) -> bool) -> String {
    let (mut inside, mut within, mut found) = (false, "", String::new());
    for line in text.lines() {
        let code = line.trim_start();
        if let Some(rest) = line.strip_prefix("impl ") {
            within = rest.trim_end_matches([' ', '{']);
        } else if line == "}" {
            within = "";
        }
        if let Some((before, after)) = code.split_once("fn ") {
            let name = after.split(['(', '<']).next().unwrap_or_default();
            inside = !code.starts_with("//") && is_entry(before.starts_with("pub "), name, within);
        }
        if code == "{" {
            inside = false;
        }
        if inside {
            found = found + line + "\n";
        }
    }
    found
}

/// The modules whose items a library hands on, each with the names of these.
fn handed_on(library: &str) -> Vec<(String, Vec<String>)> {
    let uses = library.split("\npub use ").skip(1).filter_map(|rest| rest.split_once(';'));
    uses.filter_map(|(path, _)| path.rsplit_once("::"))
        .map(|(module, items)| {
            let names = items.trim_matches(['{', '}']).split(',').map(|n| n.trim().to_string());
            (module.to_string(), names.filter(|n| !n.is_empty()).collect())
        })
        .collect()
}

/// The files that the contracts of a crate's entries cite: those of lib.rt, those that it hands on, and all of a program's main.rt.
fn cited_by(folder: &Path) -> Vec<(String, String)> {
    let source = |name: &str| fs::read_to_string(folder.join("src").join(name)).unwrap_or_default();
    let (library, program) = (source("lib.rt"), source("main.rt"));
    let mut parts = vec![(contracts(&library, |public, _, _| public), library.clone()), (contracts(&program, |_, _, _| true), program)];
    for (module, items) in handed_on(&library) {
        let text = source(&(module.replace("::", "/") + ".rt"));
        let is_one = |name: &str| items.iter().any(|item| item == name);
        parts.push((contracts(&text, |public, name, within| public && (is_one(name) || is_one(within))), text));
    }
    let mut cited = Vec::new();
    for (contract, text) in parts {
        let words: BTreeSet<&str> = contract.split(|c: char| c.is_whitespace() || "(){}⌜⌝,;".contains(c)).collect();
        let used = |name: &String| words.iter().any(|w| w == name || w.split_once('.').is_some_and(|(module, _)| module == name));
        cited.extend(imports(&text).into_iter().filter(|i| i.names.iter().any(used)).map(|i| i.spec));
    }
    cited
}

fn spec_path(root: &Path, (krate, file): &(String, String)) -> PathBuf {
    root.join("crates").join(krate).join("specs").join(file.clone() + ".antt")
}

fn lines_of(path: &Path) -> usize {
    fs::read_to_string(path).map_or(0, |text| text.lines().count())
}

fn folder_names(folder: &Path) -> BTreeSet<String> {
    let entries = fs::read_dir(folder).expect("a folder of the repository");
    entries.map(|e| e.expect("an entry").file_name().to_string_lossy().into_owned()).collect()
}

/// The files outside `theory`, each with those that it rests on.
fn specs(root: &Path) -> BTreeSet<(String, String)> {
    let crates = folder_names(&root.join("crates"));
    let mut open: Vec<_> = crates.iter().flat_map(|name| cited_by(&root.join("crates").join(name))).collect();
    let mut found = BTreeSet::new();
    while let Some(spec) = open.pop() {
        if spec.0 == "theory" || !crates.contains(&spec.0) || !found.insert(spec.clone()) {
            continue;
        }
        let text = fs::read_to_string(spec_path(root, &spec)).expect("a file that is cited");
        open.extend(imports(&text).into_iter().map(|i| i.spec));
    }
    found
}

/// The table of docs/PROMISES.md: files, and their lines.
pub fn table(root: &Path) -> String {
    let theory = root.join("crates/theory/specs");
    let definitions: usize = folder_names(&theory).iter().map(|name| lines_of(&theory.join(name))).sum();
    let mut rows = vec![("crates/theory/specs/".to_string(), definitions)];
    for spec in specs(root) {
        rows.push((format!("crates/{}/specs/{}.antt", spec.0, spec.1), lines_of(&spec_path(root, &spec))));
    }
    rows.push(("include/mudzkvopi.h".to_string(), lines_of(&root.join("include/mudzkvopi.h"))));
    let all: usize = rows.iter().map(|(_, lines)| lines).sum();
    let row = |(file, lines): &(String, usize)| format!("| `{file}` | {lines} |\n");
    format!("| File | Lines |\n|---|---|\n{}| all | {all} |\n", rows.iter().map(row).collect::<String>())
}

pub const MARK: &str = "<!-- The table below is written by tests/believed. -->\n\n";

/// The page with the table in its place: behind the mark, up to the next empty line.
pub fn put_into(page: &str, table: &str) -> String {
    let (above, rest) = page.split_once(MARK).expect("the page's mark");
    let below = rest.split_once("\n\n").map_or("", |(_, below)| below);
    format!("{above}{MARK}{table}\n{below}")
}
