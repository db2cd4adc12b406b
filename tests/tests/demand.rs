//! Demand 3, the claim on full, that of the LOOP-only lesson and that of tidy words, tried: programs by chance, their words run by the
//! twin, ends, steps, registers, charges and values compared. Where the library is linked the words are those that it translates and the
//! values those that it tells, else the twin's own.

use twin::cases::{ANY, LOOP_ONLY, PLAIN, TIDY};
use twin::machine::Machine;
use twin::program::{read, variables, write, Command, Kind, Setting};
use twin::random::Random;
use twin::source::{run, State};
use twin::translation::tidy_charges;
use twin::word::Instruction;
use twin::{Answer, End};

#[cfg(not(feature = "library"))]
fn translated(_setting: u32, form: u32, commands: &[Command]) -> Vec<Instruction> {
    twin::translation::translate(twin::cases::form_of(form), commands)
}

#[cfg(feature = "library")]
fn translated(setting: u32, form: u32, commands: &[Command]) -> Vec<Instruction> {
    let mut word = vec![0; 600_000];
    let Answer::Done { low, .. } = twin::library::translate(setting, form, &write(commands), &mut word) else {
        panic!("{commands:?} is refused")
    };
    twin::word::read(&word[..low as usize]).expect("a word")
}

#[cfg(not(feature = "library"))]
fn value(machine: &Machine) -> Answer {
    twin::cases::Case::Value { machine: machine.clone() }.twin().answer
}

#[cfg(feature = "library")]
fn value(machine: &Machine) -> Answer {
    twin::library::value(machine)
}

#[test]
fn source_and_word() {
    let mut random = Random::new(7);
    let (mut halted, mut full) = (0, 0);
    for _ in 0..4000 {
        let lines = random.below(12);
        let commands = random.program(Setting::Any, lines, 3);
        let k = variables(&commands);
        let capacity = 1 + random.below(9);
        let mut values = [0; 32];
        values[..k].fill_with(|| random.below(capacity + 1) as u32);
        let ones: Vec<_> = values[..k].iter().map(|&v| vec![b'1'; v as usize]).collect();
        let mut state = State::alike(capacity as u32, values);
        let mut machine = Machine::alike(64, capacity, &ones);
        let source = run(&commands, &mut state, 3_000);
        let (end, steps) = machine.run(&translated(ANY, PLAIN, &commands), 300_000);
        assert_ne!(end, End::Strayed);
        if source.end == End::Spent || end == End::Spent {
            continue;
        }
        assert_eq!(source.end, end, "{commands:?} from {values:?} within {capacity}");
        assert_eq!(u64::from(steps), 1 + source.charges, "{commands:?} from {values:?} within {capacity}");
        for r in 1..=64 {
            let ones = if r <= k { state.values[r - 1] as usize } else { 0 };
            if end == End::Halted || r <= k {
                assert_eq!(machine.register(r), vec![b'1'; ones], "register {r}: {commands:?} from {values:?}");
            }
        }
        match end {
            End::Halted => halted += 1,
            _ => full += 1,
        }
    }
    assert!(halted > 1000 && full > 100, "{halted} halted, {full} full");
}

/// What is accepted under the LOOP-only setting halts, and so does its word. Values are as high as the twin's machine can hold; a few
/// programs grow past that, or past the budget, and cannot be tried.
#[test]
fn loop_programs_halt() {
    const MOST: u32 = u16::MAX as u32;
    let mut random = Random::new(20);
    let (mut with_loops, mut outgrown) = (0, 0);
    for _ in 0..3000 {
        let lines = random.below(13);
        let commands = random.program(Setting::LoopOnly, lines, 3);
        assert_eq!(read(Setting::LoopOnly, &write(&commands)).as_ref(), Ok(&commands));
        let k = variables(&commands);
        let mut values = [0; 32];
        values[..k].fill_with(|| random.below(3) as u32);
        let ones: Vec<_> = values[..k].iter().map(|&v| vec![b'1'; v as usize]).collect();
        let mut state = State::alike(MOST, values);
        let mut machine = Machine::alike(k + 17, MOST as usize, &ones);
        let source = run(&commands, &mut state, 1_000_000);
        if source.end != End::Halted {
            assert!(state.values.iter().chain(&state.passes).any(|&n| n > 100), "{commands:?} from {values:?} goes on, and does not grow");
            outgrown += 1;
            continue;
        }
        let (end, steps) = machine.run(&translated(LOOP_ONLY, PLAIN, &commands), 100_000_000);
        assert_eq!((end, u64::from(steps)), (End::Halted, 1 + source.charges), "{commands:?} from {values:?}");
        with_loops += usize::from(commands.iter().any(|c| matches!(c, Command::Open(Kind::Loop, _))));
    }
    assert!(with_loops > 1500 && outgrown < 15, "{with_loops} with loops, {outgrown} not tried");
}

/// From the same start the tidy word ends as the plain word does. Where both halt its steps are the plain word's and the charges of its
/// clears, which go by the values of X1 to X(K-1), and it has a value, as many 1s as X0; where they are full it has come no further.
#[test]
fn tidy_words() {
    let mut random = Random::new(2);
    let (mut untidy, mut valued, mut full) = (0, 0, 0);
    for _ in 0..6000 {
        let (lines, names) = (random.below(12), 1 + random.below(5));
        let commands = random.program(Setting::Any, lines, names);
        let k = variables(&commands);
        let most = if random.once_in(4) { 1024 } else { 9 };
        let capacity = 1 + random.below(most);
        let mut values = [0; 32];
        values[..k].fill_with(|| random.below(capacity.min(40) + 1) as u32);
        let ones: Vec<_> = values[..k].iter().map(|&v| vec![b'1'; v as usize]).collect();
        let mut plain = Machine::alike(k + 17, capacity, &ones);
        let (mut tidy, mut state) = (plain.clone(), State::alike(capacity as u32, values));
        let source = run(&commands, &mut state, 3_000);
        let (end, steps) = plain.run(&translated(ANY, PLAIN, &commands), 300_000);
        if source.end == End::Spent || end == End::Spent {
            continue;
        }
        let (tidy_end, tidy_steps) = tidy.run(&translated(ANY, TIDY, &commands), 400_000);
        assert_eq!((source.end, end), (tidy_end, tidy_end), "{commands:?} from {values:?} within {capacity}");
        if end == End::Full {
            assert_eq!((steps, plain.place), (tidy_steps, tidy.place), "{commands:?} from {values:?} within {capacity}");
            full += 1;
            continue;
        }
        let charges = tidy_charges((2..=k).map(|r| plain.register(r)));
        let by_values: u64 = state.values[..k].iter().skip(1).map(|&v| 2 * u64::from(v) + 2).sum();
        assert_eq!((u64::from(tidy_steps), charges), (u64::from(steps) + charges, by_values), "{commands:?} from {values:?}");
        let x0 = if k == 0 { 0 } else { state.values[0] };
        assert_eq!(value(&tidy), Answer::Done { high: 0, low: x0 }, "{commands:?} from {values:?}");
        assert_eq!(tidy.register(1), vec![b'1'; x0 as usize], "{commands:?} from {values:?}");
        let clean = state.values[1..].iter().all(|&v| v == 0);
        assert_eq!(value(&plain), if clean { Answer::Done { high: 0, low: x0 } } else { Answer::Untidy }, "{commands:?} from {values:?}");
        *(if clean { &mut valued } else { &mut untidy }) += 1;
    }
    assert!(untidy > 1500 && valued > 500 && full > 100, "plain words: {untidy} untidy, {valued} with a value, {full} full");
}
