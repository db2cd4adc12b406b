//! No shared labels (document 02, request 7): the words of all small programs, of programs beside one another and of some that are easily
//! confused. Where the library is linked the words are those that it translates, else the twin's own.

use std::collections::HashMap;
use twin::cases::{form_of, outcome, Case, Outcome, Program, ANY, PLAIN, TIDY};
use twin::edges::SAMPLES;
use twin::program::{check, layout, list, read, read_list, variables, write, Command, Kind, Setting};
use twin::random::Random;
use twin::spellings::{digits, primes, respelled};
use twin::translation::translate;
use twin::word::{self, spell};
use twin::Answer;

/// What was written, where the output is as long as that.
fn symbols(outcome: Outcome) -> Vec<u8> {
    outcome.memory.iter().map(|&b| b as u8).collect()
}

/// The symbols of an accepted program's word.
fn label(form: u32, program: Program) -> Vec<u8> {
    let table = translate(form_of(form), &program.read(Setting::Any).expect("an accepted program"));
    let (high, low) = (table.len() as u32, spell(&table).len() as u32);
    let outcome = outcome(&Case::Translate { setting: ANY, form, program, lent: low as usize });
    assert_eq!(outcome.answer, Answer::Done { high, low });
    symbols(outcome)
}

fn label_of(form: u32, commands: &[Command]) -> Vec<u8> {
    label(form, Program::List(list(commands)))
}

/// The same of lines with `; ` between them.
fn label_of_lines(form: u32, lines: &str) -> Vec<u8> {
    label(form, Program::Text((lines.replace("; ", "\n") + "\n").into()))
}

/// How many labels these programs have; none is that of two different ones.
fn labels(form: u32, programs: &[Vec<Command>]) -> usize {
    let mut found = HashMap::new();
    for program in programs {
        let first = found.entry(label_of(form, program)).or_insert(program);
        assert_eq!(*first, program, "one label, form {form}");
    }
    found.len()
}

/// The accepted programs of up to so many lines over variables below `names`, each once.
fn programs(most: usize, names: u64) -> Vec<Vec<Command>> {
    let mut lines = Vec::new();
    for i in 0..names {
        lines.extend([Command::Clear(i), Command::Increment(i)]);
        lines.extend([Kind::Loop, Kind::While].into_iter().flat_map(|kind| [Command::Open(kind, i), Command::Close(kind, i)]));
        lines.extend((0..names).map(|from| Command::Copy { to: i, from }));
    }
    let accepted = |list: &&Vec<Command>| check(Setting::Any, &list.iter().copied().map(Some).collect::<Vec<_>>()).is_ok();
    let mut lists = vec![vec![]];
    let mut found = lists.clone();
    for _ in 0..most {
        lists = lists.iter().flat_map(|list| lines.iter().map(move |&line| [&list[..], &[line]].concat())).collect();
        found.extend(lists.iter().filter(accepted).cloned());
    }
    found
}

/// Those of up to 6 lines over X0, of up to 4 over X0 and X1, and of up to 3 over X0 to X2.
fn small_programs() -> Vec<Vec<Command>> {
    let found = [programs(6, 1), programs(4, 2), programs(3, 3)];
    assert_eq!(found.each_ref().map(|programs| programs.len()), [5_439, 6_349, 3_892]);
    found.concat()
}

/// How many of them are different: 257 of the second, those of up to 4 lines over X0, are among the first, and 685 of the third, those of
/// up to 3 lines over X0 and X1, are among the second. In all 14,738.
const DIFFERENT: usize = 5_439 + (6_349 - 257) + (3_892 - 685);

#[test]
fn small_programs_have_different_words() {
    assert_eq!(labels(PLAIN, &small_programs()), DIFFERENT);
}

/// The accepted programs that differ from this one in the kind of a line or pair, an index up to K, or a source, or have a line more or
/// less, or two neighbouring lines exchanged; and, by the way, itself.
fn neighbours(commands: &[Command]) -> Vec<Vec<Command>> {
    let lines: Vec<[u8; 3]> = commands.iter().map(|line| line.numbers().map(|n| n as u8)).collect();
    let partner = layout(commands).partner;
    let names = 0..=variables(commands) as u8;
    let mut lists = Vec::new();
    for (at, &line) in lines.iter().enumerate() {
        let put = |new: &[[u8; 3]], old: usize| [&lines[..at], new, &lines[at + old..]].concat();
        lists.extend([put(&[], 1), put(&[line, line], 1)]);
        lists.extend(lines.get(at + 1).map(|&next| put(&[next, line], 2)));
        let [kind, index, source] = line;
        let kinds = (1..=7).map(|kind| [kind, index, 0]);
        let changed = kinds.chain(names.clone().flat_map(|n| [[kind, n, source], [kind, index, n]]));
        for new in changed {
            let mut list = put(&[new], 1);
            if matches!((kind, new[0]), (4 | 6, 4 | 6)) {
                list[partner[at]] = [new[0] + 1, new[1], 0];
            }
            lists.push(list);
        }
    }
    lists.iter().filter_map(|list| read_list(Setting::Any, &list.concat()).ok()).collect()
}

#[test]
fn neighbours_have_different_words() {
    let mut random = Random::new(7);
    let mut pairs = 0;
    for _ in 0..400 {
        let (lines, names) = (1 + random.below(10), random.pick(&[1, 2, 3, 4, 5, 6, 32]));
        let program = random.program(Setting::Any, lines, names);
        let word = label_of(PLAIN, &program);
        for other in neighbours(&program) {
            assert_eq!(label_of(PLAIN, &other) == word, other == program, "{program:?} and {other:?}");
            pairs += usize::from(other != program);
        }
    }
    assert!(pairs > 20_000, "{pairs} pairs");
}

/// Programs whose words begin with so many instructions alike.
#[test]
fn lookalikes() {
    let rows = [
        // after a clear a loop or a while goes on with C a, F4 as a copy does, and then the loop with its counter, the while with a
        ("X1 <- X0", "X1 <- 0; loop X0; endloop X0", 6),
        ("X1 <- X0", "X1 <- 0; while X0 != 0; X1 <- X1 + 1; endwhile X0 != 0", 6),
        ("X0 <- X1", "X0 <- 0; while X1 != 0; X0 <- X0 + 1; endwhile X1 != 0", 6),
        // 13 instructions each, of which 2 differ: the second program walks through the copy's or the loop's in whiles
        ("X1 <- X0", "X1 <- 0; while X0 != 0; X2 <- X2 + 1; endwhile X0 != 0; while X2 != 0; endwhile X2 != 0", 6),
        ("loop X0; endloop X0", "while X0 != 0; X1 <- X1 + 1; endwhile X0 != 0; while X1 != 0; endwhile X1 != 0; X2 <- 0", 3),
        ("loop X0; endloop X0", "while X0 != 0; X0 <- X0 + 1; endwhile X0 != 0", 3),
        // C a, F2 begins a clear or a copy to itself, and C a a while, whose transfer is F3 at least
        ("X0 <- X0", "X0 <- 0", 3),
        ("X0 <- X0", "while X0 != 0; endwhile X0 != 0", 2),
        ("X0 <- X0; X0 <- X0 + 1", "while X0 != 0; X0 <- X0 + 1; endwhile X0 != 0", 2),
        // the one word goes on where the other ends
        ("X0 <- 0", "X0 <- 0; X0 <- 0", 4),
        ("loop X0; endloop X0", "loop X0; endloop X0; X0 <- X0 + 1", 13),
        // before, inside and behind a pair
        (
            "while X0 != 0; X0 <- X0 + 1; while X1 != 0; endwhile X1 != 0; endwhile X0 != 0",
            "while X0 != 0; while X1 != 0; X0 <- X0 + 1; endwhile X1 != 0; endwhile X0 != 0",
            4,
        ),
        ("loop X0; endloop X0; X0 <- X0 + 1", "loop X0; X0 <- X0 + 1; endloop X0", 11),
        ("loop X0; loop X0; endloop X0; endloop X0", "loop X0; endloop X0; loop X0; endloop X0", 11),
        // a variable named later moves the scratch register
        ("X0 <- X1", "X0 <- X1; X2 <- 0", 7),
    ];
    for (one, other, alike) in rows {
        let labels = [one, other].map(|lines| label_of_lines(PLAIN, lines));
        assert_ne!(labels[0], labels[1], "{one} and {other}");
        let tables = labels.map(|label| word::read(&label).expect("a word"));
        assert_eq!(tables[0].iter().zip(&tables[1]).take_while(|(a, b)| a == b).count(), alike, "{one} and {other}");
    }
}

/// "the same commands in the same order" is not the same text: spellings differ, and a label can come of a list.
#[test]
fn one_program_one_label() {
    let samples = SAMPLES.map(|(text, _)| read(Setting::Any, text).expect("an accepted program"));
    assert_eq!(labels(PLAIN, &samples), samples.len());
    let mut random = Random::new(7);
    let by_chance: Vec<_> = (0..500).map(|lines| random.program(Setting::Any, lines % 10, 5)).collect();
    for program in samples.iter().chain(&by_chance) {
        let (text, word) = (write(program), label_of(PLAIN, program));
        let mixed = |index| if random.once_in(2) { primes(index) } else { digits(index) };
        for spelled in [text.clone(), respelled(&text, primes), respelled(&text, mixed)] {
            assert_eq!(label(PLAIN, Program::Text(spelled)), word, "{}", text.escape_ascii());
        }
    }
}

/// Labels of different forms prove nothing: one tidy word is the plain word of a program with a clear more. Within the tidy form they do.
/// A listing may have the word of a program.
#[test]
fn across_forms() {
    assert_eq!(label_of_lines(TIDY, "X1 <- X1 + 1"), b"1###11#11#####11###11####");
    assert_eq!(label_of_lines(PLAIN, "X1 <- X1 + 1; X1 <- 0"), b"1###11#11#####11###11####");
    assert_eq!(labels(TIDY, &small_programs()), DIFFERENT);
    assert_eq!(label_of_lines(PLAIN, "X0 <- X0 + 1"), b"1###1#");
    assert_eq!(symbols(outcome(&Case::Listing { text: b"P1 1\n".to_vec(), lent: 6 })), b"1###1#");
}
