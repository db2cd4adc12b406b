//! The LOOP-only lesson of document 02: rule 20 among the others, what becomes of lent memory, and who is accepted; on the twin.

use twin::cases::{Case, Program, ANY, LOOP_ONLY, PLAIN, TIDY};
use twin::edges::{beside_20, OTHER_SETTINGS};
use twin::program::{command, read, read_list, Command, Kind, Setting};
use twin::random::Random;
use twin::source::State;
use twin::{Answer, Refusal};

/// The number and the place of a refusal; 0 and 0 if there is none.
fn told<T>(result: Result<T, Refusal>) -> (u32, usize) {
    result.err().map_or((0, 0), |r| (r.number, r.place))
}

fn text_of(lines: &[&str]) -> Vec<u8> {
    lines.iter().flat_map(|line| line.bytes().chain([b'\n'])).collect()
}

/// Lines, the answer outside the setting, and the answer under it.
type Row<'a> = (Vec<&'a str>, (u32, usize), (u32, usize));

fn rows<'a>() -> Vec<Row<'a>> {
    let (opens, closes) = (vec!["loop X0"; 16], vec!["endloop X0"; 16]);
    vec![
        (vec![], (0, 0), (0, 0)),
        (vec!["loop X1", "X0 <- X0 + 1", "endloop X1"], (0, 0), (0, 0)),
        ([&opens[..], &closes].concat(), (0, 0), (0, 0)),
        (vec!["while X0 != 0", "endwhile X0 != 0"], (0, 0), (20, 1)),
        (vec!["loop X0", "while X1 != 0", "endwhile X1 != 0", "endloop X0"], (0, 0), (20, 2)),
        (vec!["while X0 != 0"], (8, 1), (20, 1)),
        (vec!["loop X0", "while X0 != 0"], (8, 2), (20, 2)),
        (vec!["loop X0"], (8, 1), (8, 1)),
        (vec!["while X32 != 0"], (5, 1), (5, 1)),
        (vec!["endwhile X32 != 0"], (5, 1), (5, 1)),
        (vec!["endwhile X0 != 0"], (7, 1), (20, 1)),
        (vec!["loop X0", "endwhile X0 != 0"], (7, 2), (20, 2)),
        (vec!["endloop X0"], (7, 1), (7, 1)),
        ([&opens[..], &["while X0 != 0"]].concat(), (6, 17), (20, 17)),
        ([&opens[..], &["loop X0"]].concat(), (6, 17), (6, 17)),
        (vec!["while X0 != 0", "X32 <- 0"], (5, 2), (20, 1)),
        (vec!["X32 <- 0", "while X0 != 0"], (5, 1), (5, 1)),
        (vec!["while X0 != 0", "endloop X0"], (7, 2), (20, 1)),
        (vec!["endloop X0", "while X0 != 0"], (7, 1), (7, 1)),
        (vec!["X0 <- 0"; 512].into_iter().chain(["while X0 != 0"]).collect(), (3, 513), (3, 513)),
        (vec!["X0 <- 0"; 511].into_iter().chain(["while X0 != 0"]).collect(), (8, 512), (20, 512)),
    ]
}

#[test]
fn rule_20_stands_after_5_and_before_6() {
    for (lines, outside, under) in rows() {
        let text = text_of(&lines);
        let numbers = lines.iter().flat_map(|line| command(line.as_bytes()).expect("a spelling").numbers());
        let list: Vec<u8> = numbers.map(|n| n as u8).collect();
        for (setting, answer) in [(Setting::Any, outside), (Setting::LoopOnly, under)] {
            assert_eq!(told(read(setting, &text)), answer, "{lines:?}, {setting:?}");
            assert_eq!(told(read_list(setting, &list)), answer, "{lines:?} as a list, {setting:?}");
        }
    }
}

#[test]
fn rules_1_to_4_come_first() {
    let long = [b"while X0 != 0\n".to_vec(), vec![b'\n'; 16_384]].concat();
    let under = |text: &[u8]| told(read(Setting::LoopOnly, text));
    assert_eq!(under(&long), (1, 0));
    assert_eq!(under(b"while X0 != 0\nendwhile X0 != 0"), (2, 2));
    assert_eq!(under(b"while X0 != 1\n"), (4, 1));
    assert_eq!(under(b"z\nwhile X0 != 0\n"), (4, 1));
    assert_eq!(under(b"while X0 != 0\nz\n"), (20, 1));
    let under = |list: &[u8]| told(read_list(Setting::LoopOnly, list));
    assert_eq!(under(&[6, 0, 1]), (4, 1));
    assert_eq!(under(&[6, 0]), (4, 1));
    assert_eq!(under(&[8, 0, 0, 6, 0, 0]), (4, 1));
    assert_eq!(under(&[6, 0, 0, 8, 0, 0]), (20, 1));
}

/// 20 comes before 19 and 9, and then nothing lent has changed. Every number but 0 counts as LOOP-only.
#[test]
fn before_19_and_9() {
    let state = State::alike(0, [0; 32]).numbers().to_vec();
    let texts = || Program::Text(text_of(&["while X0 != 0", "endwhile X0 != 0"]));
    let lists = || Program::List(vec![6, 0, 0, 7, 0, 0]);
    let of_program = |setting: u32, program: Program| {
        [
            (19, Case::Convert { setting, program: program.clone(), lent: 5 }),
            (19, Case::Translate { setting, form: PLAIN, program: program.clone(), lent: 5 }),
            (19, Case::Translate { setting, form: TIDY, program: program.clone(), lent: 5 }),
            (9, Case::RunSource { setting, program: program.clone(), state: state.clone(), budget: 9 }),
            (9, Case::RunSource { setting, program, state: state[..5].to_vec(), budget: 9 }),
        ]
    };
    for setting in [ANY, LOOP_ONLY].into_iter().chain(OTHER_SETTINGS) {
        for (late, case) in of_program(setting, texts()).into_iter().chain(of_program(setting, lists())) {
            let refusal = if setting == ANY { Refusal { number: late, place: 0 } } else { Refusal { number: 20, place: 1 } };
            let outcome = case.twin();
            assert_eq!(outcome.answer, Answer::Refused(refusal), "{case:?}");
            assert!(outcome.memory == state || outcome.memory == state[..5] || outcome.memory == [0xa5; 5], "{case:?}");
        }
    }
}

/// Where no line is a `while` or `endwhile` the setting makes no difference; what is accepted under it is what is accepted outside it and
/// has no such line.
#[test]
fn who_is_accepted() {
    let mut random = Random::new(3);
    let mut texts: Vec<Vec<u8>> = beside_20().into_iter().map(|(text, _)| text).collect();
    texts.extend((0..1500).map(|_| random.text(Setting::Any)));
    texts.extend((0..1500).map(|_| random.text(Setting::LoopOnly)));
    let of_while = |c: &Command| matches!(c, Command::Open(Kind::While, _) | Command::Close(Kind::While, _));
    let (mut with, mut without) = (0, 0);
    for text in texts {
        let (outside, under) = (read(Setting::Any, &text), read(Setting::LoopOnly, &text));
        if !text.split(|&b| b == b'\n').filter_map(command).any(|c| of_while(&c)) {
            assert_eq!(outside, under, "{}", text.escape_ascii());
            without += usize::from(under.is_ok());
        } else {
            assert!(under.is_err(), "{}", text.escape_ascii());
            with += usize::from(outside.is_ok());
        }
    }
    assert!(with > 100 && without > 500, "accepted outside the setting: {with} with a WHILE, {without} without");
}
