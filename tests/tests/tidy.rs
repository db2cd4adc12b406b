//! The value as the paper has it, and the tidy form (document 02, request 2): words, steps, values and rule 19 worked by hand, on the twin.

use twin::cases::{form_of, Case, Program, ANY, LOOP_ONLY, PLAIN, TIDY};
use twin::edges::{left_over, OTHER_FORMS};
use twin::machine::Machine;
use twin::program::{list, read, variables, Command, Kind, Setting};
use twin::translation::{translate, Form};
use twin::word::{self, spell};
use twin::{Answer, End, Refusal};

const ADDER: &str = "loop X1\nX0 <- X0 + 1\nendloop X1\n";

fn commands(text: &str) -> Vec<Command> {
    read(Setting::Any, text.as_bytes()).expect("an accepted program")
}

fn word_of(form: Form, text: &str) -> String {
    String::from_utf8(spell(&translate(form, &commands(text)))).expect("ASCII")
}

/// What the tidy form adds to a program's word.
fn added(text: &str) -> String {
    let plain = word_of(Form::Plain, text);
    word_of(Form::Tidy, text).strip_prefix(&plain).expect("the plain word comes first").to_string()
}

/// The end and the steps of a program's word, and its value: none if it is untidy.
fn ran(form: Form, text: &str, start: &[usize]) -> (End, u32, Option<usize>) {
    let ones: Vec<_> = start.iter().map(|&v| vec![b'1'; v]).collect();
    let mut machine = Machine::alike(64, 1024, &ones);
    let (end, steps) = machine.run(&translate(form, &commands(text)), 1_000_000);
    (end, steps, machine.value().map(|symbols| symbols.len()))
}

#[test]
fn clears_of_registers_2_to_k() {
    assert_eq!(added(""), "");
    assert_eq!(added("X0 <- X0 + 1\n"), "");
    assert_eq!(added("X1 <- X1 + 1\n"), "11#####11###11####");
    assert_eq!(added(ADDER), "11#####11###11####");
    assert_eq!(added("X2 <- X0\n"), "11#####11###11####111#####11###11####");
    assert_eq!(added("loop X3\nendloop X3\n"), "11#####11###11####111#####11###11####1111#####11###11####");
    assert_eq!(added("X31 <- 0\n").len(), 1_023);
}

/// "Clears" are the clears of document 01: the tidy word is the plain word of the program with `X1 <- 0` to `X(K-1) <- 0` after it.
#[test]
fn as_lines_of_the_program() {
    for text in ["", "X0 <- 0\n", ADDER, "while X4 != 0\nX4 <- X2\nendwhile X4 != 0\n", "X31 <- X31\n"] {
        let plain = commands(text);
        let clears = (1..variables(&plain) as u64).map(Command::Clear).collect();
        assert_eq!(translate(Form::Tidy, &plain), translate(Form::Plain, &[plain, clears].concat()), "{text}");
    }
}

#[test]
fn the_adder() {
    assert_eq!(ran(Form::Plain, ADDER, &[0, 3]), (End::Halted, 37, None));
    assert_eq!(ran(Form::Tidy, ADDER, &[0, 3]), (End::Halted, 45, Some(3)));
    assert_eq!(ran(Form::Plain, ADDER, &[0, 0]), (End::Halted, 7, Some(0)));
    assert_eq!(ran(Form::Tidy, ADDER, &[0, 0]), (End::Halted, 9, Some(0)));
    assert_eq!(ran(Form::Tidy, "", &[]), (End::Halted, 1, Some(0)));
    assert_eq!(ran(Form::Tidy, "X0 <- X0 + 1\n", &[4]), (End::Halted, 2, Some(5)));
}

/// The longest words known with their clears, in symbols and in instructions: 16 loops around 480 copies, and 512 copies.
#[test]
fn the_longest() {
    let copies = |count: usize| vec![Command::Copy { to: 31, from: 30 }; count];
    let deep = [vec![Command::Open(Kind::Loop, 31); 16], copies(480), vec![Command::Close(Kind::Loop, 31); 16]].concat();
    let sizes = |form, program: &[Command]| (translate(form, program).len(), spell(&translate(form, program)).len());
    assert_eq!((sizes(Form::Plain, &deep), sizes(Form::Tidy, &deep)), ((5_953, 311_044), (6_046, 312_067)));
    assert_eq!((translate(Form::Plain, &copies(512)).len(), translate(Form::Tidy, &copies(512)).len()), (6_145, 6_238));
}

/// "otherwise the answer is untidy": whatever the other register holds, and whichever it is.
#[test]
fn every_register_but_the_first() {
    let value = |registers: usize, contents: &[&str]| {
        let contents: Vec<_> = contents.iter().map(|c| c.as_bytes().to_vec()).collect();
        Machine::alike(registers, 4, &contents).value().map(|symbols| symbols.to_vec())
    };
    assert_eq!(value(1, &[""]), Some(b"".to_vec()));
    assert_eq!(value(1, &["1#1"]), Some(b"1#1".to_vec()));
    assert_eq!(value(3, &["11"]), Some(b"11".to_vec()));
    assert_eq!(value(3, &["11", "1"]), None);
    assert_eq!(value(3, &["11", "#"]), None);
    assert_eq!(value(3, &["11", "", "1"]), None);
    assert_eq!(value(3, &["", "", "#"]), None);
    for machine in left_over() {
        let others = machine.lengths[1..].iter().all(|&length| length == 0);
        let answer = if others { Answer::Done { high: 0, low: machine.lengths[0].into() } } else { Answer::Untidy };
        assert_eq!(Case::Value { machine: machine.clone() }.twin().answer, answer, "{machine:?}");
    }
}

/// The words that lecturers found: they halt with litter, the run still ends as halted, and there is no value. A word that is no program's
/// may have one.
#[test]
fn other_words() {
    let ran = |text: &str, contents: &[&str]| {
        let contents: Vec<_> = contents.iter().map(|c| c.as_bytes().to_vec()).collect();
        let mut machine = Machine::alike(3, 9, &contents);
        let (end, _) = machine.run(&word::read(text.as_bytes()).expect("a word"), 100);
        (end, machine.value().map(|symbols| String::from_utf8(symbols.to_vec()).expect("ASCII")))
    };
    assert_eq!(ran("1#11#", &[]), (End::Halted, None));
    assert_eq!(ran("1#11##", &[]), (End::Halted, None));
    assert_eq!(ran("1#1##", &[]), (End::Halted, Some("1#".into())));
    assert_eq!(ran("1#", &["", "", "#"]), (End::Halted, None));
    // document 01's example, which leaves register 2 empty
    assert_eq!(ran("11#####111111###111###1##1111####1#111111####", &["#", "1#"]), (End::Halted, Some("#1#".into())));
}

/// 19 goes by the size of the form that is asked for: the tidy adder has 101 symbols, the plain one 83.
#[test]
fn rule_19_by_form() {
    let answer = |form: u32, lent: usize, program: Program| Case::Translate { setting: ANY, form, program, lent }.twin();
    let no_room = Answer::Refused(Refusal { number: 19, place: 0 });
    for program in [Program::Text(ADDER.into()), Program::List(list(&commands(ADDER)))] {
        for form in [PLAIN].into_iter().chain(OTHER_FORMS) {
            assert_eq!(answer(form, 82, program.clone()).answer, no_room, "form {form}");
            assert_eq!(answer(form, 83, program.clone()).answer, Answer::Done { high: 14, low: 83 }, "form {form}");
        }
        for lent in [0, 82, 83, 100] {
            let outcome = answer(TIDY, lent, program.clone());
            assert_eq!((outcome.answer, outcome.memory), (no_room, vec![0xa5; lent]));
        }
        assert_eq!(answer(TIDY, 101, program.clone()).answer, Answer::Done { high: 17, low: 101 });
    }
    // the program's own rules come first, and under the LOOP-only setting 20 is one of them
    let banned = Program::Text(b"while X1 != 0\nendwhile X1 != 0\n".to_vec());
    let case = Case::Translate { setting: LOOP_ONLY, form: TIDY, program: banned, lent: 0 };
    assert_eq!(case.twin().answer, Answer::Refused(Refusal { number: 20, place: 1 }));
}

#[test]
fn numbers_of_a_form() {
    assert_eq!((form_of(PLAIN), form_of(TIDY)), (Form::Plain, Form::Tidy));
    assert!(OTHER_FORMS.into_iter().all(|form| form_of(form) == Form::Plain));
}
