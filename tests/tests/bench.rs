//! Document 01's bench examples, and the run tool's budgets, on the twin.

use twin::machine::Machine;
use twin::program::{read, variables, Setting};
use twin::source::{run, State};
use twin::translation::{translate, Form};
use twin::word::{self, spell};
use twin::{edges, tool, End, Refusal};

fn values(start: &[u32]) -> [u32; 32] {
    let mut values = [0; 32];
    values[..start.len()].copy_from_slice(start);
    values
}

/// The word's text; the source's end and steps; the word's end, steps and place; register 1 then.
type Both = (String, (End, u32), (End, u32, i32), String);

fn both(text: &str, capacity: u32, start: &[u32]) -> Both {
    let commands = read(Setting::Any, text.as_bytes()).expect("an accepted program");
    let table = translate(Form::Plain, &commands);
    let mut state = State::alike(capacity, values(start));
    let source = run(&commands, &mut state, 1000);
    let ones: Vec<_> = values(start)[..variables(&commands)].iter().map(|&v| vec![b'1'; v as usize]).collect();
    let mut machine = Machine::alike(64, capacity as usize, &ones);
    let (end, steps) = machine.run(&table, 1000);
    let first = String::from_utf8(machine.register(1).to_vec()).unwrap();
    (String::from_utf8(spell(&table)).unwrap(), (source.end, source.steps), (end, steps, machine.place), first)
}

fn word(text: &str, registers: &[&str]) -> (End, u32, i32, String) {
    let table = word::read(text.as_bytes()).expect("an accepted word");
    let contents: Vec<_> = registers.iter().map(|r| r.as_bytes().to_vec()).collect();
    let mut machine = Machine::alike(64, 1024, &contents);
    let (end, steps) = machine.run(&table, 1000);
    (end, steps, machine.place, String::from_utf8(machine.register(1).to_vec()).unwrap())
}

const ADDER: &str = "loop X1\nX0 <- X0 + 1\nendloop X1\n";
const ADDER_WORD: &str = "1###11#####1111###1111#111#1111####111#####111###11#111####1111#####111###1#111####";

#[test]
fn programs() {
    let (text, source, run, first) = both(ADDER, 1024, &[0, 3]);
    assert_eq!((text.as_str(), text.len(), source, run, first.as_str()), (ADDER_WORD, 83, (End::Halted, 7), (End::Halted, 37, 15), "111"));
    assert_eq!(both(ADDER, 1024, &[0, 0]), (ADDER_WORD.into(), (End::Halted, 1), (End::Halted, 7, 15), "".into()));
    assert_eq!(both("", 1024, &[]), ("1###".into(), (End::Halted, 0), (End::Halted, 1, 2), "".into()));
    assert_eq!(both("X0 <- X1\n", 1024, &[1, 2]).2 .1, 23);
    assert_eq!(both("X2 <- X2\n", 1024, &[]).0, "1###111#####11###111#");
    let clears = both("while X1 != 0\nX1 <- 0\nendwhile X1 != 0\n", 1024, &[0, 5]);
    assert_eq!((clears.1 .1, clears.2 .1), (4, 18));
    let full = both("X0 <- X0 + 1\n", 2, &[2]);
    assert_eq!((full.1, full.2), ((End::Full, 0), (End::Full, 1, 2)));
}

#[test]
fn words() {
    assert_eq!(word("11###", &[]), (End::Strayed, 1, 3, "".into()));
    assert_eq!(word("1####", &[]), (End::Strayed, 1, 0, "".into()));
    assert_eq!(word("1#####", &[""]), (End::Halted, 1, 2, "".into()));
    assert_eq!(word("1#####", &["1"]), (End::Strayed, 1, 3, "".into()));
    assert_eq!(word("11#####111111###111###1##1111####1#111111####", &["#", "1#"]), (End::Halted, 9, 8, "#1#".into()));
}

#[test]
fn texts() {
    let answer = |text: &str| read(Setting::Any, text.as_bytes()).map(|_| ());
    let refused = |number, place| Err(Refusal { number, place });
    assert_eq!(answer("X31 <- 0\n"), Ok(()));
    assert_eq!(answer("X32 <- 0\n"), refused(5, 1));
    assert_eq!(answer("X07 <- 0\n"), refused(4, 1));
    assert_eq!(answer("X3 <- X4 + 1\n"), refused(4, 1));
    assert_eq!(answer(&"X0 <- 0\n".repeat(512)), Ok(()));
    assert_eq!(answer(&"X0 <- 0\n".repeat(513)), refused(3, 513));
}

#[test]
fn run_tool() {
    let printed = "source-end source-steps word-end word-steps X0\nhalted 7 halted 37 3\nhalted 1 halted 7 0\n";
    assert_eq!(tool::report(ADDER.as_bytes(), b"X1\n3\n0\n"), printed);
}

#[test]
fn run_tool_budgets() {
    let ends = edges::budgets()
        .map(|(text, sheet)| tool::report(text.as_bytes(), sheet.as_bytes()).lines().last().unwrap_or_default().to_string());
    assert!(ends[0].starts_with("halted 100000 "), "{}", ends[0]);
    assert!(ends[1].starts_with("spent 100000 "), "{}", ends[1]);
    assert!(ends[2].contains(" halted 1000000 "), "{}", ends[2]);
    assert!(ends[3].contains(" spent 1000000 "), "{}", ends[3]);
}
