//! What the pages and the examples folder say, on the twin, and where it is linked on the library.

use std::fs;
use std::path::Path;
use twin::machine::Machine;
use twin::page::{self, Example};
use twin::program::{read, Setting};
use twin::translation::{translate, Form};
use twin::word::spell;
use twin::{believed, listing, tool, Answer, End, Refusal};

fn at_root(name: &str) -> std::path::PathBuf {
    Path::new(env!("CARGO_MANIFEST_DIR")).join("..").join(name)
}

fn page(name: &str) -> String {
    fs::read_to_string(at_root(name)).expect("the page")
}

const REFUSED_19: Answer = Answer::Refused(Refusal { number: 19, place: 0 });

/// Whether an example is one of a rule.
fn is_of(example: &Example, rule: u32) -> bool {
    matches!(example.answer, Answer::Refused(Refusal { number, .. }) if number == rule)
}

fn examples() -> Vec<Example> {
    let mut examples = page::examples(&page("docs/REFUSALS.md"));
    for rule in 1..=22 {
        assert!(examples.iter().any(|e| is_of(e, rule)), "the page has an example of {rule}");
    }
    for rule in [1, 2, 3, 4, 22, 19] {
        assert!(examples.iter().any(|e| e.kind == "listing" && is_of(e, rule)), "the page has a listing's example of {rule}");
    }
    for (kind, answer) in [("value", Answer::Untidy), ("value", Answer::Done { high: 0, low: 0 }), ("tidy", REFUSED_19)] {
        assert!(examples.iter().any(|e| e.kind == kind && e.answer == answer), "the page has an example of {kind}: {answer:?}");
    }
    examples.extend(page::examples(&page("docs/STUDENTS.md")));
    examples
}

#[test]
fn refusals() {
    for example in examples() {
        for case in example.cases() {
            assert_eq!(case.twin().answer, example.answer, "{}, to {}", example.line, case.name());
        }
    }
}

#[cfg(feature = "library")]
#[test]
fn refusals_of_the_library() {
    let tool = twin::library::RunTool::new("pages");
    for example in examples() {
        for case in example.cases() {
            assert_eq!(case.library(&tool), case.twin(), "{}, to {}", example.line, case.name());
        }
    }
}

#[test]
fn example_folders() {
    for folder in fs::read_dir(at_root("examples")).expect("the folder") {
        let folder = folder.expect("an entry").path();
        let file = |name: &str| fs::read(folder.join(name)).unwrap_or_default();
        let printed = tool::report(&file("program.txt"), &file("sheet.txt"));
        assert_eq!(printed.as_bytes(), file("expected.txt"), "{}", folder.display());
        assert_eq!(tool::label(&file("program.txt")).as_bytes(), file("label.txt"), "{}", folder.display());
    }
}

/// A page shows these files of an example as they are.
fn shows(shown: &str, example: &str, names: &[&str]) {
    let shown = page(shown).lines().map(|l| l.trim().to_string() + "\n").collect::<String>();
    for name in names {
        assert!(shown.contains(&page(&format!("examples/{example}/{name}"))), "{name} of examples/{example}");
    }
}

#[test]
fn examples_as_they_are_shown() {
    for shown in ["README.md", "docs/COURSE.md"] {
        shows(shown, "addition", &["program.txt", "sheet.txt", "expected.txt", "label.txt"]);
    }
    shows("docs/COURSE.md", "power", &["program.txt", "sheet.txt", "expected.txt"]);
}

/// The cells of a column, from 1, of a table of COURSE.md, from a row on.
fn column(section: &str, first: &str, column: usize) -> Vec<String> {
    let course = page("docs/COURSE.md");
    let (_, section) = course.split_once(section).expect("the section");
    let rows = section.lines().skip_while(|l| !l.starts_with(first)).take_while(|l| l.starts_with('|'));
    rows.map(|row| row.split('|').nth(column).expect("a cell").trim().trim_matches('`').to_string()).collect()
}

/// The symbols in the second cells of such a table.
fn decoded(section: &str, first: &str) -> String {
    column(section, first, 2).concat()
}

/// The program that COURSE.md has in digits and in primes is one program, with the label that it shows.
#[test]
fn both_spellings() {
    let labels = [1, 2].map(|n| tool::label((column("## Names in primes", "| `loop", n).join("\n") + "\n").as_bytes()));
    assert_eq!(labels[0], labels[1]);
    assert!(page("docs/COURSE.md").contains(&format!("It has one label, `{}`", labels[0].trim())));
}

/// The word that COURSE.md takes apart, one row of its table for each instruction, is the label of examples/addition.
#[test]
fn decoded_word() {
    assert_eq!(decoded("## A word, decoded", "| 1 |") + "\n", page("examples/addition/label.txt"));
}

/// The clear that COURSE.md takes apart is what the tidy form adds to the adder's 14 instructions.
#[test]
fn decoded_clear() {
    let adder = read(Setting::Any, b"loop X1\nX0 <- X0 + 1\nendloop X1\n").expect("an accepted program");
    let clear = spell(&translate(Form::Tidy, &adder)[14..]);
    assert_eq!(decoded("## Tidy words", "| 15 |").as_bytes(), clear);
}

/// The runs on registers of unequal length that COURSE.md works by hand.
#[test]
fn unequal_registers() {
    let course = page("docs/COURSE.md");
    let (_, section) = course.split_once("## Registers of unequal length").expect("the section");
    let (section, _) = section.split_once("\n## ").expect("another section");
    let section = section.split_whitespace().collect::<Vec<_>>().join(" ");
    let tally = "loop X1\nX0 <- X0 + 1\nendloop X1\nX2 <- X0\n";
    let rows: [(&str, &str, &[u16]); 3] =
        [("X0 <- X1\n", "X0 X1\n2 4\n", &[3, 5, 5]), ("X0 <- X1\n", "X0 X1\n2 3\n", &[3, 5, 5]), (tally, "X1\n3\n", &[5, 5, 2, 5, 5])];
    for (text, sheet, capacities) in rows {
        let capacities = [capacities, &vec![1; 64 - capacities.len()]].concat();
        let printed = tool::report_on(text.as_bytes(), sheet.as_bytes(), &capacities);
        let line = printed.lines().last().unwrap_or_default();
        assert!(section.contains(&format!("`{line}`")), "{line}");
    }
    // the steps of the first, as its table has them
    let table = column("## Registers of unequal length", "| 1 |", 3);
    let steps = table.iter().map(|cell| cell.rsplit(' ').next().and_then(|n| n.parse::<u32>().ok()).expect("steps"));
    assert_eq!(steps.sum::<u32>(), 20);
    // the word that is full alone
    let word = translate(Form::Plain, &read(Setting::Any, b"X0 <- X1\n").expect("an accepted program"));
    let mut machine = Machine::fresh(&[5, 5, 2], &[vec![], b"111".to_vec()]);
    assert_eq!(machine.run(&word, 1_000), (End::Full, 13));
    assert_eq!((word.len(), machine.lengths), (13, vec![3, 0, 2]));
}

/// The listing that COURSE.md works by hand: a row of a table for each instruction of its word, and one of another for each line done.
#[test]
fn decoded_listing() {
    let section = "## Scan-and-delete listings";
    let course = page("docs/COURSE.md");
    let (_, shown) = course.split_once(section).expect("the section");
    let block = shown.lines().skip_while(|l| !l.starts_with("    ")).map_while(|l| l.strip_prefix("    "));
    let text: String = block.map(|line| line.to_string() + "\n").collect();
    let listing = listing::read(text.as_bytes()).expect("an accepted listing");
    let word = listing::word(&listing);
    assert_eq!(decoded(section, "| 1 |").as_bytes(), spell(&word));
    let lines = column(section, "| `P1 3`", 1);
    let steps: Vec<u32> = column(section, "| `P1 3`", 4).iter().map(|n| n.parse().expect("steps")).collect();
    let contents = [b"#".to_vec(), b"1#".to_vec(), b"".to_vec()];
    let mut state = listing::State::fresh(&contents);
    for (at, line) in lines.iter().enumerate() {
        assert_eq!(*line, listing[state.line - 1].spelling(), "row {at}");
        let ran = listing::run(&listing, &mut state, 1);
        assert_eq!(ran.word_steps() - 1, steps[at], "row {at}");
    }
    let mut machine = Machine::alike(3, 9, &contents);
    assert_eq!(machine.run(&word, 99), (End::Halted, 1 + steps.iter().sum::<u32>()));
    assert_eq!((state.line, machine.register(1)), (listing.len() + 1, &b"#1#"[..]));
}

/// The students' page has every spelling that the program's reader takes.
#[test]
fn spellings() {
    let students = page("docs/STUDENTS.md");
    for line in ["X3 <- 0", "X3 <- X3 + 1", "X3 <- X5", "loop X3", "endloop X3", "while X3 != 0", "endwhile X3 != 0"] {
        assert!(students.contains(&format!("`{line}`")), "{line}");
        assert!(page("docs/REFUSALS.md").contains(&format!("`{line}`")), "{line}");
    }
}

/// What must be believed is found in the repository, and is what the page says.
#[test]
fn what_must_be_believed() {
    let (table, promises) = (believed::table(&at_root("")), page("docs/PROMISES.md"));
    assert_eq!(believed::put_into(&promises, &table), promises, "docs/PROMISES.md: tests/believed writes it");
}

/// How the twin came to be is said in the same words wherever it is said.
#[test]
fn the_twin() {
    let words = "separate code written from documents 01 and 02 by the same hand as the definitions and after them";
    for name in ["README.md", "docs/PROMISES.md", "docs/DECISIONS.md", "tests/src/lib.rs"] {
        let text = page(name).replace("//!", " ").replace(" in Rust", "").replace(',', " ").to_lowercase();
        let text = text.split_whitespace().collect::<Vec<_>>().join(" ");
        assert!(text.contains(words), "{name}");
    }
}
