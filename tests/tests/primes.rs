//! Variables with primes (document 02, request 3): spellings, answers and sheets worked by hand, on the twin and, where it is linked, on
//! the library.

use twin::cases::{Case, Outcome, Program, ANY, PLAIN};
use twin::edges::SAMPLES;
use twin::program::{read, write, Setting};
use twin::random::Random;
use twin::spellings::{digits, every_choice, primes, respelled};
use twin::{Answer, Refusal};

#[cfg(not(feature = "library"))]
fn outcome(_test: &str, case: &Case) -> Outcome {
    case.twin()
}

/// What comes of a case on the library, with which the twin agrees. `test` keeps folders of the run tool apart.
#[cfg(feature = "library")]
fn outcome(test: &str, case: &Case) -> Outcome {
    let outcome = case.library(&twin::library::RunTool::new(test));
    assert_eq!(outcome, case.twin(), "{case:?}");
    outcome
}

/// The number and the place of a refusal; 0 and 0 if there is none.
fn told(outcome: Outcome) -> (u32, usize) {
    match outcome.answer {
        Answer::Refused(Refusal { number, place }) => (number, place),
        _ => (0, 0),
    }
}

/// The answer to a text, and its list.
fn list_of(test: &str, text: &[u8]) -> Outcome {
    outcome(test, &Case::Convert { setting: ANY, program: Program::Text(text.into()), lent: 1_536 })
}

/// The text that is written for the list of a text.
fn written(test: &str, text: &[u8]) -> Vec<u8> {
    let list = Program::Text(text.into()).converted(Setting::Any).expect("an accepted program");
    let written = outcome(test, &Case::Convert { setting: ANY, program: Program::List(list), lent: 16_384 });
    let Answer::Done { low, .. } = written.answer else { panic!("a list is refused: {:?}", written.answer) };
    written.memory[..low as usize].iter().map(|&b| b as u8).collect()
}

/// Programs of few names, in digits.
fn programs() -> Vec<Vec<u8>> {
    let others = ["X31 <- X30\n", "loop X3\nX5 <- X3\nX5 <- X5 + 1\nendloop X3\n", "while X12 != 0\nX12 <- 0\nendwhile X12 != 0\n"];
    SAMPLES.iter().map(|(text, _)| text.to_vec()).chain(others.map(|text| text.into())).collect()
}

/// "A variable may now be spelled as X and its index in primes": each choice at each name is the same program, with the same label.
#[test]
fn every_choice_of_spelling() {
    let label =
        |text: Vec<u8>| outcome("choice", &Case::Translate { setting: ANY, form: PLAIN, program: Program::Text(text), lent: 3_000 });
    for text in programs() {
        let (list, word) = (list_of("choice", &text), label(text.clone()));
        assert!(matches!((list.answer, word.answer), (Answer::Done { .. }, Answer::Done { .. })), "{}", text.escape_ascii());
        for spelled in every_choice(&text) {
            assert_eq!(list_of("choice", &spelled), list, "{}", spelled.escape_ascii());
            assert_eq!(label(spelled.clone()), word, "{}", spelled.escape_ascii());
        }
    }
}

/// "The writer always uses digits, so reading undoes writing for every program, and writing undoes reading only for texts in digits."
#[test]
fn written_in_digits() {
    for text in programs() {
        for (at, spelled) in every_choice(&text).enumerate() {
            let back = written("digits", &spelled);
            assert_eq!(back, text);
            assert_eq!(list_of("digits", &back), list_of("digits", &spelled));
            assert_eq!(back == spelled, at == 0, "{}", spelled.escape_ascii());
        }
    }
}

/// The same of programs by chance: a text in which some name is not followed by digits is never written back.
#[test]
fn written_in_digits_by_chance() {
    let mut random = Random::new(3);
    let (mut in_digits, mut in_primes) = (0, 0);
    for _ in 0..3000 {
        let text = random.text(Setting::Any);
        let Ok(commands) = read(Setting::Any, &text) else { continue };
        let back = written("chance", &text);
        assert_eq!(back, write(&commands));
        assert_eq!(list_of("chance", &back), list_of("chance", &text));
        let every_x = text.split(|&b| b == b'X').skip(1).all(|after| after.first().is_some_and(u8::is_ascii_digit));
        assert_eq!(back == text, every_x, "{}", text.escape_ascii());
        *(if every_x { &mut in_digits } else { &mut in_primes }) += 1;
    }
    assert!(in_digits > 500 && in_primes > 500, "{in_digits} in digits, {in_primes} not");
}

/// Lines and their answers.
#[test]
fn rules_4_and_5() {
    let rows: Vec<(String, u32)> = vec![
        ("X <- 0".into(), 0),
        ("X <- X".into(), 0),
        ("X <- X + 1".into(), 0),
        ("X0 <- X + 1".into(), 0),
        ("X3 <- X''' + 1".into(), 0),
        ("X''' <- X3 + 1".into(), 0),
        ("X3 <- X'' + 1".into(), 4),
        ("X' <- X + 1".into(), 4),
        ("X3' <- 0".into(), 4),
        ("X'3 <- 0".into(), 4),
        ("X0' <- 0".into(), 4),
        ("X'0 <- 0".into(), 4),
        ("X00 <- 0".into(), 4),
        ("X0 <- X3'".into(), 4),
        ("X ' <- 0".into(), 4),
        ("X <- '".into(), 4),
        (format!("{} <- 0", primes(31)), 0),
        (format!("{} <- 0", primes(32)), 5),
        (format!("X0 <- {}", primes(32)), 5),
        (format!("{} <- 0", primes(16_000)), 5),
        (format!("{} <- {} + 1", primes(8_000), primes(8_000)), 5),
        (format!("{} <- {} + 1", primes(8_000), primes(8_001)), 4),
        (format!("X40 <- {} + 1", primes(40)), 5),
        (format!("X40 <- {} + 1", primes(41)), 4),
        (format!("{} <- X40 + 1", primes(40)), 5),
        (format!("{} <- X40 + 1", primes(39)), 4),
        (format!("X65576 <- {} + 1", primes(40)), 4),
        (format!("X4294967336 <- {} + 1", primes(40)), 4),
        (format!("X18446744073709551656 <- {} + 1", primes(40)), 4),
        (format!("{}0 <- 0", primes(32)), 4),
        ("X32' <- 0".into(), 4),
    ];
    for (line, number) in rows {
        let place = usize::from(number > 0);
        assert_eq!(told(list_of("rules", format!("{line}\n").as_bytes())), (number, place), "{line}");
    }
}

/// "the two lines of a pair, may spell their variable both ways".
#[test]
fn pairs_match_by_index() {
    let pair = |open: &str, close: &str| {
        let loops = told(list_of("pairs", format!("loop {open}\nendloop {close}\n").as_bytes()));
        assert_eq!(told(list_of("pairs", format!("while {open} != 0\nendwhile {close} != 0\n").as_bytes())), loops);
        loops
    };
    for (open, close) in (0..32).flat_map(|open| (0..32).map(move |close| (open, close))) {
        for names in [digits, primes].into_iter().flat_map(|a| [digits, primes].map(|b| (a(open), b(close)))) {
            assert_eq!(pair(&names.0, &names.1), if open == close { (0, 0) } else { (7, 2) });
        }
    }
    assert_eq!(pair("X'", &primes(32)), (5, 2));
    assert_eq!(pair(&primes(32), "X32"), (5, 1));
}

/// Rule 1 stays in bytes: a program in primes may be too long though its digits form fits.
#[test]
fn rule_1_in_bytes() {
    let text = "X31 <- X30\n".repeat(512);
    let spelled = respelled(text.as_bytes(), primes);
    assert_eq!((told(list_of("bytes", text.as_bytes())), told(list_of("bytes", &spelled))), ((0, 0), (1, 0)));
    let line = |n: usize| format!("{} <- 0\n", primes(n));
    assert_eq!((line(16_377).len(), told(list_of("bytes", line(16_377).as_bytes()))), (16_384, (5, 1)));
    assert_eq!(told(list_of("bytes", line(16_378).as_bytes())), (1, 0));
    // 32 bytes a line, and 512 lines: the most that there are of both
    let most = format!("{} <- {}\n", primes(13), primes(12)).repeat(512);
    assert_eq!((most.len(), told(list_of("bytes", most.as_bytes()))), (16_384, (0, 0)));
}

/// "The rule holds in program lines and in sheet names, and `X1` and `X'` in one names line come twice"; values are in digits.
#[test]
fn sheets() {
    let report = |text: &str, sheet: String| outcome("sheets", &Case::Report { text: text.into(), sheet: sheet.into() });
    let refused = |sheet: &str| told(report("X0 <- X3\n", sheet.into()));
    for sheet in ["X\n", "X'''\n", "X X' X'' X'''\n1 2 3 4\n", "X0 X'\n1 2\n"] {
        assert_eq!(refused(sheet), (0, 0), "{sheet:?}");
    }
    for sheet in ["X3'\n", "X'3\n", "X0'\n", "X'0\n", "X00\n", "'\n", "X' \n", "X1 X1'\n"] {
        assert_eq!(refused(sheet), (16, 1), "{sheet:?}");
    }
    for sheet in ["X''''\n", "X4\n", "X1 X'\n1 2\n", "X' X1\n", "X X0\n", "X X\n", "X'' X'''' X2\n"] {
        assert_eq!(refused(sheet), (17, 1), "{sheet:?}");
    }
    for sheet in ["X'''\n'''\n", "X'''\n1'\n", "X'''\nX\n", "X'''\n\n", "X\n1 2\n"] {
        assert_eq!(refused(sheet), (16, 2), "{sheet:?}");
    }
    let wide = |n: usize| told(report("X31 <- X31 + 1\n", format!("{}\n", primes(n))));
    assert_eq!((wide(31), wide(32), wide(33), wide(4_094), wide(4_095)), ((0, 0), (17, 1), (17, 1), (17, 1), (16, 0)));
    let by_digits = report("X0 <- X3\nX0 <- X0 + 1\n", "X3 X0\n5 2\n".into());
    assert_eq!(report("X <- X'''\nX <- X0 + 1\n", "X''' X\n5 2\n".into()), by_digits);
}
