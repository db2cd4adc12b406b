//! Scan-and-delete listings (document 02, request 6): its claim on listings and registers by chance, and lines, words, steps and refusals
//! worked by hand. Where the library is linked the words are those that it translates, else the twin's own.

use std::collections::BTreeMap;
use twin::cases::{outcome, Case, Outcome};
use twin::edges::listings::{contents, largest, NEARLY, SAMPLES};
use twin::listing::{line, places, read, run, word, write, Line, Ran, State, LINES};
use twin::machine::{Machine, REGISTERS};
use twin::random::{rounds, Random};
use twin::word::{self, spell, Instruction};
use twin::{Answer, End, Refusal};

fn answer(text: &str, lent: usize) -> Answer {
    outcome(&Case::Listing { text: text.into(), lent }).answer
}

fn refused(text: &str) -> (u32, usize) {
    match answer(text, 600_000) {
        Answer::Refused(Refusal { number, place }) => (number, place),
        other => panic!("{text:?}: {other:?}"),
    }
}

/// The word of an accepted listing, as it is written into an output.
fn translated(listing: &[Line]) -> Vec<Instruction> {
    let length = spell(&word(listing)).len();
    let Outcome { answer, memory } = outcome(&Case::Listing { text: write(listing), lent: length });
    let symbols: Vec<u8> = memory.iter().map(|&b| b as u8).collect();
    let found = word::read(&symbols).expect("a word");
    assert_eq!(answer, Answer::Done { high: found.len() as u32, low: length as u32 }, "{listing:?}");
    found
}

fn symbols_of(text: &str) -> String {
    String::from_utf8(spell(&translated(&read(text.as_bytes()).expect("an accepted listing")))).expect("ASCII")
}

/// Both machines with these contents; within the steps that are to be done no register of the word's gets full.
fn both(contents: &[Vec<u8>], steps: usize) -> (State, Machine) {
    let longest = contents.iter().map(|symbols| symbols.len()).max().unwrap_or(0);
    (State::fresh(contents), Machine::alike(contents.len(), longest + steps, contents))
}

/// "with the same words in all registers".
fn same_words(state: &State, machine: &Machine) -> bool {
    state.registers.iter().zip(1..).all(|(symbols, r)| symbols.iter().eq(machine.register(r)))
}

/// The listing does so many lines, and its word the steps that these have: the word then stands where the listing does, with the same words
/// in all registers, and has halted exactly if the listing has.
fn in_step(listing: &[Line], word: &[Instruction], contents: &[Vec<u8>], lines: u32) -> Ran {
    let (mut state, mut machine) = both(contents, lines as usize);
    let ran = run(listing, &mut state, lines);
    let (end, steps) = machine.run(word, ran.word_steps());
    let told = format!("{listing:?} from {contents:?}, {lines} lines");
    assert_eq!((end == End::Halted, steps), (ran.halted, ran.word_steps()), "{told}");
    assert_ne!(end, End::Strayed, "{told}");
    assert_eq!(machine.place as usize, places(listing)[state.line - 1], "{told}");
    assert!(same_words(&state, &machine), "{told}: {state:?} and {machine:?}");
    ran
}

/// "a listing halts exactly when its word does": whichever halts within so many steps, the other does.
fn together(listing: &[Line], word: &[Instruction], contents: &[Vec<u8>], steps: u32) -> Option<Ran> {
    let (mut state, mut machine) = both(contents, steps as usize);
    let (end, taken) = machine.run(word, steps);
    assert!(matches!(end, End::Halted | End::Spent), "{listing:?} from {contents:?}: {end:?}");
    // a line takes at least one step of the word and at most two
    let ran = run(listing, &mut state, if end == End::Halted { taken } else { (steps - 1) / 2 });
    assert_eq!(ran.halted, end == End::Halted, "{listing:?} from {contents:?}");
    if ran.halted {
        assert_eq!(taken, ran.word_steps(), "{listing:?} from {contents:?}");
        assert!(same_words(&state, &machine), "{listing:?} from {contents:?}: {state:?} and {machine:?}");
    }
    ran.halted.then_some(ran)
}

#[test]
fn listing_and_word() {
    let mut random = Random::new(6);
    let (mut halted, mut on, mut long, mut done) = (0, 0, 0, [0; 2]);
    for round in 0..rounds(20_000) {
        let (lines, registers) = (random.below(16), 1 + random.below(4));
        let (lines, registers) = if round % 100 == 0 { (LINES - random.below(2), REGISTERS) } else { (lines, registers) };
        let listing = random.listing(lines, registers);
        assert_eq!(read(&write(&listing)).as_ref(), Ok(&listing));
        let (word, contents) = (translated(&listing), random.contents(registers, 9));
        match together(&listing, &word, &contents, 2_000) {
            Some(ran) => {
                halted += 1;
                long += usize::from(ran.word_steps() > 20);
                done[0] += ran.prints;
                done[1] += ran.scans;
            }
            None => on += 1,
        }
        let cut = random.below(60) as u32;
        in_step(&listing, &word, &contents, cut);
    }
    println!("{halted} halted, {long} of them after more than 20 steps, {on} went on; {done:?} lines");
    let enough = rounds(20_000) / 20;
    assert!(halted > 8 * enough && on > enough && long > enough, "{halted} halted, {long} of them late, {on} went on");
}

/// Texts by chance are turned down by each rule, and accepted, often.
#[test]
fn texts_by_chance() {
    let mut random = Random::new(22);
    let mut counts = BTreeMap::new();
    for _ in 0..10_000 {
        let number = read(&random.listing_text()).map_or_else(|r| r.number, |_| 0);
        *counts.entry(number).or_insert(0) += 1;
    }
    println!("{counts:?}");
    for (number, least) in [(0, 3_000), (1, 20), (2, 300), (3, 50), (4, 1_000), (22, 1_000)] {
        assert!(counts[&number] > least, "{counts:?}");
    }
}

/// Samples, line by line up to past their end.
#[test]
fn samples() {
    for (text, registers) in SAMPLES {
        let listing = read(text.as_bytes()).expect("a sample is accepted");
        let (word, contents) = (translated(&listing), contents(registers));
        let ends = (0..40).map(|lines| in_step(&listing, &word, &contents, lines).halted);
        assert_eq!(ends.last(), Some(together(&listing, &word, &contents, 99).is_some()), "{text}");
    }
}

/// The end of a listing with these registers: the lines that it did, and what the registers hold then.
fn ran(text: &str, registers: [&str; 3]) -> (u32, u32, [String; 3]) {
    let listing = read(text.as_bytes()).expect("an accepted listing");
    let mut state = State::fresh(&contents(registers));
    let ran = run(&listing, &mut state, 1_000);
    assert!(ran.halted, "{text}");
    let held = |r: usize| state.registers[r].iter().map(|&b| char::from(b)).collect();
    (ran.prints, ran.scans, [held(0), held(1), held(2)])
}

#[test]
fn lines_done() {
    let held = |registers: [&str; 3]| registers.map(String::from);
    // register 2 is moved to the end of register 1
    assert_eq!(ran(SAMPLES[0].0, ["#", "1#", ""]), (4, 5, held(["#1#", "", ""])));
    // "Scd goes to the next line on empty", "to line e for 1, f for #"
    assert_eq!(ran("Scd 1 3 4\nP1 2\nP1 2\nP1 2\n", ["", "", ""]), (3, 1, held(["", "111", ""])));
    assert_eq!(ran("Scd 1 3 4\nP1 2\nP1 2\nP1 2\n", ["1#", "", ""]), (2, 1, held(["#", "11", ""])));
    assert_eq!(ran("Scd 1 3 4\nP1 2\nP1 2\nP1 2\n", ["#1", "", ""]), (1, 1, held(["1", "1", ""])));
    // the end is a target
    assert_eq!(ran("Scd 1 3 2\nP# 1\n", ["1", "", ""]), (0, 1, held(["", "", ""])));
    // symbols go to the end, and come from the front
    assert_eq!(ran("P# 3\nP1 3\nScd 3 1 4\n", ["", "", "#1"]), (2, 1, held(["", "", "1#1"])));
}

/// Words symbol by symbol. A target is the place of its line's first instruction: line 1 is place 2.
#[test]
fn words() {
    assert_eq!(symbols_of(""), "1###");
    assert_eq!(symbols_of("P1 1\n"), "1###1#");
    assert_eq!(symbols_of("P# 3\n"), "1###111##");
    // C 1 at place 2, F3, then to line 1 from places 4 and 5: B2, B3
    assert_eq!(symbols_of("Scd 1 1 1\n"), "1###1#####111###11####111####");
    // to the end, place 6: F2, F1
    assert_eq!(symbols_of("Scd 2 2 2\n"), "1###11#####111###11###1###");
    assert_eq!(symbols_of("P1 1\nScd 1 3 2\nP# 2\n"), "1###1#1#####111###11###111####11##");
    let moves = "1###111#111#####111###111111111###11111111###1#111#111#####111###111###11###1##11#####111###111111111####1111####";
    assert_eq!((symbols_of(SAMPLES[0].0).as_str(), moves.len()), (moves, 113));
}

/// The longest word known, in symbols and in instructions.
#[test]
fn the_longest() {
    let word = translated(&largest());
    assert_eq!((word.len(), spell(&word).len()), (1_025, 414_212));
    let text = String::from_utf8(write(&largest())).expect("ASCII");
    assert_eq!(answer(&text, 414_211), Answer::Refused(Refusal { number: 19, place: 0 }));
}

#[test]
fn spellings() {
    assert_eq!(line(b"P1 64"), Some(Line::Print { symbol: b'1', register: 64 }));
    assert_eq!(line(b"P# 1"), Some(Line::Print { symbol: b'#', register: 1 }));
    assert_eq!(line(b"Scd 7 0 300"), Some(Line::Scan { register: 7, on_one: 0, on_hash: 300 }));
    for nearly in NEARLY {
        assert_eq!(line(nearly.as_bytes()), None, "{nearly:?}");
    }
}

#[test]
fn rules() {
    assert_eq!((refused(&"P".repeat(16_385)), refused("P1 1"), refused("P1 1\nz")), ((1, 0), (2, 1), (2, 2)));
    assert_eq!(refused(&"P1 1\n".repeat(257)), (3, 257));
    assert_eq!(refused(&("z\nScd 1 0 0\n".to_string() + &"P1 1\n".repeat(255))), (3, 257));
    assert_eq!(answer(&"P1 1\n".repeat(256), 600_000), Answer::Done { high: 257, low: 516 });
    for line in ["P1 0", "P1 65", "P# 01", "Scd 0 1 1", "Scd 65 1 1", "Scd 01 1 1", "Scd 1 01 1", "Scd 1 1 00", "P1 18446744073709551617"] {
        assert_eq!(refused(&format!("P1 1\n{line}\n")), (4, 2), "{line}");
    }
    for line in ["Scd 1 0 1", "Scd 1 1 0", "Scd 1 4 1", "Scd 1 1 4", "Scd 1 0 4", "Scd 1 1 18446744073709551617"] {
        assert_eq!(refused(&format!("P1 1\n{line}\n")), (22, 2), "{line}");
    }
    // line by line, and in one line 4 before 22
    assert_eq!((refused("Scd 1 9 1\nz\n"), refused("z\nScd 1 9 1\n"), refused("Scd 65 9 9\n")), ((22, 1), (4, 1), (4, 1)));
    // the count is that of all lines, and the line after the last is one of the targets
    assert_eq!(answer("Scd 1 3 3\nP1 1\n", 600_000), Answer::Done { high: 6, low: 29 });
    for (lent, found) in [(3, Answer::Refused(Refusal { number: 19, place: 0 })), (4, Answer::Done { high: 1, low: 4 })] {
        assert_eq!(answer("", lent), found);
    }
}
