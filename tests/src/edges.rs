//! Cases at the limits: the last thing that each rule lets pass and the first that it turns down, alone and with faults of other rules.

pub mod drains;
pub mod listings;
pub mod returns;

use crate::machine::{self, Machine};
use crate::program::{self, list, read, variables, Command, Kind, Setting};
use crate::source::{self, State};
use crate::spellings::{digits, primes};
use crate::tool::WORD_BYTES;
use crate::translation::{translate, Form};
use crate::word::{spell, INSTRUCTIONS, SYMBOLS};

/// Indices at the limit and where numbers of 8, 32 or 64 bits start anew.
const INDICES: [&str; 10] =
    ["0", "9", "31", "32", "256", "287", "4294967296", "4294967327", "18446744073709551616", "340282366920938463463374607431768211456"];

/// Lines that are nearly a spelling.
pub const NEARLY: [&str; 63] = [
    "",
    " ",
    "X",
    "X0",
    "X0 <-",
    "X0 <- ",
    "x0 <- 0",
    "X0 <-0",
    "X0<- 0",
    " X0 <- 0",
    "X0 <- 0 ",
    "X0  <- 0",
    "X0 <- 00",
    "X0 <- 1",
    "X00 <- 0",
    "X0 <- X00",
    "X0 <- X0 + 2",
    "X0 <- X0 + 10",
    "X0 <- X0 +1",
    "X0 <- X1 + 1",
    "X0 <- X0 + 1 ",
    "X-1 <- 0",
    "X0 <- 0\r",
    "X0 <- 0\t",
    "\0",
    "loop",
    "loop ",
    "loop  X0",
    "loop X0 ",
    "loop x0",
    "LOOP X0",
    "endloop",
    "endloopX0",
    "while X0",
    "while X0 != 1",
    "while X0 !=0",
    "endwhile X0 != 00",
    "X3' <- 0",
    "X'3 <- 0",
    "X0' <- 0",
    "X'0 <- 0",
    "X ' <- 0",
    "X' ' <- 0",
    "'X <- 0",
    "x' <- 0",
    "X\" <- 0",
    "X` <- 0",
    "X\u{2019} <- 0",
    "X\u{2032} <- 0",
    "X' <- '",
    "X' <- ''",
    "X' <- X'0",
    "X' <- X'' + 1",
    "X <- X' + 1",
    "X'' <- X2' + 1",
    "X <- X + '",
    "X<- 0",
    "loop X'3",
    "loop X3'",
    "endloop X' ",
    "while X'0 != 0",
    "while X'",
    "endwhile X'!= 0",
];

/// Numbers of a setting that count as LOOP-only; some are 0 in their last 8, 16 or 31 bits.
pub const OTHER_SETTINGS: [u32; 7] = [2, 7, 255, 256, 65_536, 1 << 31, u32::MAX];

/// Numbers of a form that count as plain; some are the tidy form's in their last 8, 16 or 31 bits.
pub const OTHER_FORMS: [u32; 8] = [2, 3, 255, 256, 257, 65_537, (1 << 31) + 1, u32::MAX];

/// Lines that rule 20 or a rule beside it turns down, and some that none does, as text and as numbers.
const BESIDE_20: [(&str, [u8; 3]); 14] = [
    ("X0 <- 0", [1, 0, 0]),
    ("z", [8, 0, 0]),
    ("X32 <- 0", [1, 32, 0]),
    ("loop X0", [4, 0, 0]),
    ("loop X32", [4, 32, 0]),
    ("endloop X0", [5, 0, 0]),
    ("endloop X1", [5, 1, 0]),
    ("while X0 != 0", [6, 0, 0]),
    ("while X0 != 1", [6, 0, 1]),
    ("while X32 != 0", [6, 32, 0]),
    ("endwhile X0 != 0", [7, 0, 0]),
    ("endwhile X1 != 0", [7, 1, 0]),
    ("endwhile X0 != 1", [7, 0, 1]),
    ("endwhile X32 != 0", [7, 32, 0]),
];

/// Programs that halt, go on for ever, or get full, each with the values that it starts from.
pub const SAMPLES: [(&[u8], &[u32]); 13] = [
    (b"", &[]),
    (b"loop X1\nX0 <- X0 + 1\nendloop X1\n", &[0, 3]),
    (b"loop X0\nendloop X0\n", &[2]),
    (b"X0 <- X1\nX1 <- 0\nX2 <- X2\n", &[1, 2, 3]),
    (b"while X1 != 0\nX1 <- 0\nendwhile X1 != 0\n", &[0, 5]),
    (b"loop X0\nX0 <- 0\nloop X1\nendloop X1\nwhile X0 != 0\nendwhile X0 != 0\nendloop X0\n", &[2, 2]),
    (b"while X0 != 0\nX1 <- X0\nendwhile X0 != 0\n", &[1]),
    (b"X0 <- X0 + 1\nX0 <- X0 + 1\n", &[4]),
    (b"loop X0\nX0 <- X0 + 1\nX1 <- X0\nendloop X0\n", &[4]),
    (b"X1 <- X0\n", &[5, 2]),
    (b"X0 <- X0 + 1\nX2 <- X2\nX1 <- X2\nX2 <- X0\n", &[3, 1, 4]),
    (b"loop X1\nloop X0\nX2 <- X0\nendloop X0\nendloop X1\n", &[3, 2]),
    (b"X3 <- X3 + 1\nwhile X3 != 0\nX1 <- X3\nX3 <- X3 + 1\nendwhile X3 != 0\n", &[0, 1, 0, 1]),
];

fn values(start: &[u32]) -> [u32; 32] {
    let mut values = [0; 32];
    values[..start.len()].copy_from_slice(start);
    values
}

fn lines(lines: &[String]) -> Vec<u8> {
    lines.iter().flat_map(|line| line.bytes().chain([b'\n'])).collect()
}

/// So many pairs inside one another; every second one, or each, is a WHILE or none is.
fn nest(depth: usize, whiles: usize) -> Vec<Command> {
    let kind = |at: usize| if at % 2 < whiles { Kind::While } else { Kind::Loop };
    let opens = (0..depth).map(|at| Command::Open(kind(at), at as u64));
    let closes = (0..depth).rev().map(|at| Command::Close(kind(at), at as u64));
    opens.chain(closes).collect()
}

fn nests() -> Vec<Vec<Command>> {
    let mut found = Vec::new();
    for (depth, whiles) in [1, 2, 15, 16, 17].into_iter().flat_map(|depth| [0, 1, 2].map(|whiles| (depth, whiles))) {
        let whole = nest(depth, whiles);
        let mut wrong = whole.clone();
        wrong[depth] = Command::Close(Kind::Loop, 31);
        let mut beside = whole.clone();
        beside.splice(depth..depth, nest(1, whiles));
        found.extend([whole[..depth].to_vec(), whole[..depth + 1].to_vec(), whole[depth..].to_vec(), whole, wrong, beside]);
    }
    found
}

/// Accepted programs whose words are as long as the run tool's buffer, or nearly, or longer.
pub fn long_words() -> Vec<Vec<Command>> {
    let symbols = |commands: &[Command]| spell(&translate(Form::Plain, commands)).len();
    let to = |length: usize| {
        let mut commands = Vec::new();
        while symbols(&commands) + 300 < length {
            commands.push(Command::Copy { to: 31, from: 30 });
        }
        while symbols(&commands) < length {
            let rest = length - symbols(&commands);
            let index = if rest <= 33 { rest - 2 } else { (rest - 4).min(31) };
            commands.push(Command::Increment(index as u64));
        }
        commands
    };
    [WORD_BYTES - 1, WORD_BYTES, WORD_BYTES + 1, WORD_BYTES + 2].map(to).to_vec()
}

/// Programs as commands, good or not.
pub fn programs() -> Vec<Vec<Command>> {
    let mut found = nests();
    for count in [0, 1, 511, 512, 513, 514] {
        found.push(vec![Command::Increment(31); count]);
        let mut faulty = vec![Command::Copy { to: 0, from: 31 }; count];
        faulty.extend([Command::Clear(32), Command::Close(Kind::Loop, 0)]);
        found.push(faulty);
    }
    // the longest transfers: 480 copies inside 16 pairs, the outermost a LOOP or a WHILE
    for kind in [Kind::Loop, Kind::While] {
        let around = |outer: Command, inner: Command| [vec![outer], vec![inner; 15]].concat();
        let opens = around(Command::Open(kind, 31), Command::Open(Kind::Loop, 31));
        let mut closes = around(Command::Close(kind, 31), Command::Close(Kind::Loop, 31));
        closes.reverse();
        found.push([opens, vec![Command::Copy { to: 31, from: 30 }; 480], closes].concat());
    }
    found.extend(long_words());
    found
}

/// Program texts, good or not.
pub fn texts() -> Vec<Vec<u8>> {
    let mut found: Vec<_> = programs().iter().map(|p| program::write(p)).collect();
    for a in INDICES {
        found.push(lines(&[format!("X{a} <- 0")]));
        found.push(lines(&[format!("X{a} <- X{a}")]));
        found.push(lines(&[format!("loop X{a}"), format!("endloop X{a}")]));
        found.push(lines(&[format!("while X{a} != 0"), format!("endwhile X{a} != 0")]));
        for b in INDICES {
            found.push(lines(&[format!("X{a} <- X{b}")]));
            found.push(lines(&[format!("X{a} <- X{b} + 1")]));
            found.push(lines(&[format!("loop X{a}"), format!("endloop X{b}")]));
        }
    }
    for line in NEARLY {
        found.push(line.into());
        found.push(lines(&[line.into()]));
        found.push(lines(&["X0 <- 0".into(), "loop X1".into(), line.into(), "X32 <- 0".into()]));
        found.push(lines(&["endloop X1".into(), line.into()]));
    }
    for size in program::BYTES - 1..=program::BYTES + 2 {
        for byte in [b'\n', b'X', b'7', b'\'', b'\0', 0xff] {
            let mut text = vec![byte; size];
            text[0] = b'X';
            found.push(text.clone());
            text[size - 6..].copy_from_slice(b" <- 0\n");
            found.push(text);
        }
    }
    let cut = |text: &Vec<u8>| text[..text.len().saturating_sub(1)].to_vec();
    let cuts: Vec<_> = found.iter().filter(|t| t.len() < 99 || t.len() > 4000).map(cut).collect();
    found.extend(cuts);
    found
}

/// Names in both spellings, of indices at the limit, past it and of thousands, some where numbers of 16, 32 or 64 bits start anew, and some
/// that are in neither spelling.
fn names() -> Vec<String> {
    let indices = [0, 1, 3, 9, 10, 30, 31, 32, 33, 40, 41, 255, 256, 288, 7_999, 8_000];
    let beyond = ["8001", "65535", "65536", "65576", "4294967296", "4294967336"];
    let last = ["18446744073709551614", "18446744073709551615", "18446744073709551616", "18446744073709551617", "18446744073709551656"];
    let neither = ["X00", "X01", "X3'", "X'3", "X0'", "X'0", "X''0''", "X' ", "'", "0'"];
    let both = indices.into_iter().flat_map(|index| [digits(index), primes(index)]);
    let above = beyond.into_iter().chain(last).map(|index| format!("X{index}"));
    both.chain(above).chain(neither.map(String::from)).collect()
}

/// Texts that have names in either spelling, each two of them in each kind of line, good or not.
pub fn spellings() -> Vec<Vec<u8>> {
    let mut found = Vec::new();
    for a in names() {
        found.push(lines(&[format!("{a} <- 0")]));
        found.push(lines(&["X' <- 0".into(), format!("while {a} != 0")]));
        for b in names() {
            found.push(lines(&[format!("{a} <- {b}")]));
            found.push(lines(&[format!("{a} <- {b} + 1")]));
            found.push(lines(&[format!("loop {a}"), format!("endloop {b}")]));
            found.push(lines(&[format!("while {a} != 0"), "X <- 0".into(), format!("endwhile {b} != 0")]));
        }
    }
    // one more prime is one byte more, and 1 and not 5
    for count in program::BYTES - 8..program::BYTES - 5 {
        found.push(lines(&[format!("{} <- 0", primes(count))]));
        found.push(lines(&[format!("loop {}", primes(count + 1))]));
    }
    // 40 bytes a line, and 32: of these a text has room for 512
    for line in [format!("{} <- X31", primes(31)), format!("{} <- {}", primes(13), primes(12))] {
        found.extend([409, 410, 511, 512, 513].map(|count| lines(&vec![line.clone(); count])));
    }
    found
}

/// Programs as lists of numbers, good or not.
pub fn lists() -> Vec<Vec<u8>> {
    let mut found: Vec<_> = programs().iter().map(|p| list(p)).collect();
    let cut: Vec<_> = found.iter().flat_map(|l| [1, 2].map(|n| l[..l.len().saturating_sub(n)].to_vec())).collect();
    found.extend(cut);
    for kind in [0, 1, 2, 3, 4, 5, 6, 7, 8, 255] {
        for (index, third) in [0, 31, 32, 255].into_iter().flat_map(|i| [0, 1, 31, 32, 255].map(|t| (i, t))) {
            found.push(vec![kind, index, third]);
            found.push(vec![4, index, 0, kind, index, third, 5, index, 0]);
        }
    }
    found
}

/// Two lines beside rule 20 inside so many loops, closed or not: each pair of them as a text and as a list.
pub fn beside_20() -> Vec<(Vec<u8>, Vec<u8>)> {
    let (open, close) = ((String::from("loop X0"), [4, 0, 0]), (String::from("endloop X0"), [5, 0, 0]));
    let mut found = Vec::new();
    for (depth, closed) in [(0, false), (1, false), (1, true), (15, true), (16, false), (16, true)] {
        for (first, second) in BESIDE_20.into_iter().flat_map(|first| BESIDE_20.map(|second| (first, second))) {
            let mut commands = vec![open.clone(); depth];
            commands.extend([first, second].map(|(line, numbers)| (line.to_string(), numbers)));
            commands.extend(vec![close.clone(); if closed { depth } else { 0 }]);
            let (texts, numbers): (Vec<_>, Vec<_>) = commands.into_iter().unzip();
            found.push((lines(&texts), numbers.concat()));
        }
    }
    found
}

/// Texts with a `while` that rules 1 to 3 turn down, that is the last of 512 lines, and LOOP programs as long.
pub fn long_whiles() -> Vec<Vec<u8>> {
    let with_last = |count: usize, last: &str| lines(&[vec!["X0 <- 0".to_string(); count], vec![last.to_string()]].concat());
    let whiles = |bytes: usize| [b"while X0 != 0\n".to_vec(), vec![b'X'; bytes]].concat();
    let mut found = vec![whiles(program::BYTES - 13), whiles(program::BYTES - 14), whiles(1), b"while X0 != 0".to_vec()];
    for count in [510, 511, 512] {
        found.extend(["X0 <- 0", "while X0 != 0", "endwhile X0 != 0", "while X32 != 0", "endloop X0"].map(|last| with_last(count, last)));
    }
    found
}

/// Words, good or not.
pub fn words() -> Vec<Vec<u8>> {
    let ones = |n: usize, marks: usize| [vec![b'1'; n], vec![b'#'; marks]].concat();
    let mut found = vec![Vec::new(), vec![b'#'], vec![b'1'], vec![0]];
    let most = SYMBOLS as usize;
    for marks in 1..=6 {
        found.extend([ones(0, marks), ones(1, marks), ones(64, marks), ones(65, marks), [ones(1, 1), ones(2, marks), ones(1, 0)].concat()]);
        found.extend([most - 1, most, most + 1].map(|n| ones(n - marks, marks)));
    }
    for count in [INSTRUCTIONS - 1, INSTRUCTIONS, INSTRUCTIONS + 1] {
        for (operand, marks) in [(1, 3), (2, 3), (65, 1), (64, 5)] {
            let word = ones(operand, marks).repeat(count);
            found.extend([[&word[..], b"######"].concat(), [&word[..], b"1"].concat(), [&word[..], b"2"].concat(), word]);
        }
    }
    let mut late = ones(most - 1, 1);
    late[most - 1] = b'2';
    found.push(late);
    for (text, _) in SAMPLES {
        let commands = read(Setting::Any, text).expect("a sample is accepted");
        found.extend([Form::Plain, Form::Tidy].map(|form| spell(&translate(form, &commands))));
    }
    found
}

/// Kinds and operands, good or not, of the same number or not.
pub fn tables() -> Vec<(Vec<u8>, Vec<u32>)> {
    let most = SYMBOLS as u32;
    let mut found = vec![(vec![], vec![]), (vec![1], vec![]), (vec![], vec![1]), (vec![1, 1], vec![1]), (vec![1], vec![1, 1])];
    for kind in [0, 1, 2, 3, 4, 5, 6, 255] {
        for operand in [0, 1, 64, most - 6, most - 5, most - 1, most, u32::MAX - 254, u32::MAX - 1, u32::MAX] {
            found.extend([(vec![kind], vec![operand]), (vec![3, kind], vec![1, operand]), (vec![kind, 1], vec![operand, u32::MAX])]);
        }
    }
    for count in [INSTRUCTIONS - 1, INSTRUCTIONS, INSTRUCTIONS + 1] {
        for (kind, operand) in [(1, 1), (5, 68), (5, 69), (0, 1), (1, 0)] {
            found.push((vec![kind; count], vec![operand; count]));
            found.push((vec![kind; count], vec![operand; INSTRUCTIONS]));
        }
    }
    found
}

/// Numbers of registers at the limits and where numbers of 8 or 16 bits start anew.
const COUNTS: [usize; 9] = [0, 1, 2, 4, machine::REGISTERS, machine::REGISTERS + 1, 256 + 3, 65_536, 65_536 + 3];

/// Capacities at the limits.
const WIDTHS: [u16; 9] = [0, 1, 3, 5, machine::CAPACITY as u16, machine::CAPACITY as u16 + 1, 32_767, 32_768, u16::MAX];

/// Machines with small stores, of equal and of unequal capacities, whose sizes or layout are at or past a limit.
pub fn machines() -> Vec<Machine> {
    let contents = [b"1#11".to_vec(), b"#".to_vec()];
    [[4, 4, 4], [6, 1, 5], [4, 7, 1], [5, 2, 5]].iter().flat_map(|capacities| beside(&Machine::fresh(capacities, &contents))).collect()
}

/// A machine of three registers and 12 bytes, and those beside it.
fn beside(good: &Machine) -> Vec<Machine> {
    let mut found = vec![good.clone()];
    for count in COUNTS {
        let capacities: Vec<u16> = good.capacities.iter().copied().cycle().take(count).collect();
        found.push(Machine { capacities: capacities.clone(), ..good.clone() });
        found.push(Machine { capacities: capacities.clone(), lengths: vec![0; count], ..good.clone() });
        if count < 999 {
            found.push(Machine::fresh(&capacities, &[]));
        }
    }
    for (at, width) in (0..3).flat_map(|at| WIDTHS.map(|width| (at, width))) {
        let mut capacities = good.capacities.clone();
        capacities[at] = width;
        found.push(Machine { capacities: capacities.clone(), ..good.clone() });
        found.push(Machine::fresh(&capacities, &[]));
    }
    for width in WIDTHS {
        found.push(Machine { store: Vec::new(), ..Machine::alike(64, width.into(), &[]) });
    }
    // as many bytes in all, but the places begin elsewhere; 0 bytes of a register, and they are another's
    for (from, to) in [(0, 1), (0, 2), (1, 0), (1, 2), (2, 0), (2, 1)] {
        for moved in [1, good.capacities[from]] {
            let mut machine = good.clone();
            machine.capacities[from] -= moved;
            machine.capacities[to] += moved;
            found.push(machine);
        }
    }
    for (length, at) in [0, 1, 2, 3, 4, 5, 6, 7, 255, 256, 260, u16::MAX].into_iter().flat_map(|length| [0, 1, 2].map(|at| (length, at))) {
        let mut machine = good.clone();
        machine.lengths[at] = length;
        found.push(machine);
    }
    for (at, byte) in (0..12).flat_map(|at| [0, b'1', b'#', b'2', b'0', 0xff].map(|byte| (at, byte))) {
        let mut machine = good.clone();
        machine.store[at] = byte;
        found.push(machine);
    }
    for cut in 0..3 {
        found.push(Machine { lengths: good.lengths[..cut].to_vec(), ..good.clone() });
        found.push(Machine { capacities: good.capacities[..cut].to_vec(), ..good.clone() });
        found.push(Machine { store: good.store[..12 - cut - 1].to_vec(), ..good.clone() });
    }
    found.push(Machine { lengths: vec![0; 4], ..good.clone() });
    found.push(Machine { store: vec![0; 13], ..good.clone() });
    found
}

/// Machines as a halted word may leave them: something in register 1 or nothing, and something in one other register or in none.
pub fn left_over() -> Vec<Machine> {
    let mut found = Vec::new();
    for (registers, capacity) in [1, 2, 3, 19, machine::REGISTERS].into_iter().flat_map(|r| [1, 3, machine::CAPACITY].map(|c| (r, c))) {
        let contents = [b"".to_vec(), b"1".to_vec(), b"#".to_vec(), [b"1".repeat(capacity - 1), b"#".to_vec()].concat()];
        for (first, other) in contents.iter().flat_map(|first| contents.iter().map(move |other| (first, other))) {
            for at in 1..registers.max(2) {
                let mut all = vec![first.clone()];
                all.resize(at, Vec::new());
                all.push(other.clone());
                all.truncate(registers);
                found.push(Machine::alike(registers, capacity, &all));
            }
        }
    }
    found
}

/// The capacities of 64 registers: all alike; a short X1, of which copies are full; short helpers, behind the first four registers; a long
/// one among short ones; and the last variables short.
pub const CAPACITIES: [[u16; 64]; 5] = {
    let mut found = [[5; 64]; 5];
    found[1][1] = 3;
    let mut at = 4;
    while at < 64 {
        found[2][at] = 2;
        found[3][at] = 9;
        at += 1;
    }
    found[3][0] = 8;
    found[3][2] = 1;
    found[4][2] = 4;
    found[4][3] = 6;
    found
};

/// The capacities of 64 registers and those beside them: one of the first ten, or the last, at a limit or beside what it was; and another
/// number of them.
pub fn beside_capacities(capacities: &[u16; 64]) -> Vec<Vec<u16>> {
    let mut found = vec![capacities.to_vec()];
    for at in (0..10).chain([63]) {
        for width in [0, capacities[at] - 1, capacities[at] + 1, 1_024, 1_025, u16::MAX] {
            let mut list = capacities.to_vec();
            list[at] = width;
            found.push(list);
        }
    }
    found.extend([0, 1, 20, 63, 65, 256 + 64, 65_536 + 64].map(|count| capacities.iter().copied().cycle().take(count).collect()));
    found
}

/// States of a sample program as numbers, each of them put at or past a limit.
pub fn states(commands: &[Command], start: &[u32], capacities: &[u16; 64]) -> Vec<Vec<u32>> {
    let k = variables(commands);
    let fresh = fresh(commands, start, capacities).0.numbers().to_vec();
    let mut found = vec![fresh.clone(), fresh[..81].to_vec(), fresh[..51].to_vec(), Vec::new(), [&fresh[..], &[0]].concat()];
    let mut with = |changes: &[(usize, u32)]| {
        let mut state = fresh.clone();
        changes.iter().for_each(|&(at, value)| state[at] = value);
        found.push(state);
    };
    let lines = commands.len() as u32;
    for line in (0..lines + 3).chain([u32::MAX]) {
        for passes in [[0, 0], [1, 0], [3, 3], [4, 0], [5, 5], [6, 0], [5, 4], [1, 6], [8, 3], [9, 5], [0, 1], [u32::MAX, 0]] {
            with(&[(source::LINE, line), (source::PASSES, passes[0]), (source::PASSES + 1, passes[1])]);
        }
    }
    for (at, value) in [(source::STEPS, u32::MAX), (source::NUMBERS - 1, 1), (source::PASSES + 2, 1)] {
        with(&[(at, value)]);
    }
    // capacities of variables below K, at K and past it
    for at in (0..k + 2).chain([31]).filter(|&at| at < 32) {
        let value = fresh[source::VALUES + at];
        for capacity in [0, 1, value.saturating_sub(1), value, source::CAPACITY, source::CAPACITY + 1, 5_000, 65_536 + 5, u32::MAX] {
            with(&[(at, capacity)]);
        }
        for value in [0, 1, 3, 4, 5, 6, 8, 9, u32::MAX] {
            with(&[(source::VALUES + at, value)]);
            with(&[(source::VALUES + at, value), (at, u32::MAX)]);
        }
    }
    found
}

/// The fresh state and the fresh machine of a sample on these registers; what does not fit there is cut.
pub fn fresh(commands: &[Command], start: &[u32], capacities: &[u16; 64]) -> (State, Machine) {
    let cut = start.iter().zip(capacities).map(|(&v, &c)| v.min(c.into()));
    let start: Vec<u32> = cut.take(variables(commands)).collect();
    let ones: Vec<_> = start.iter().map(|&v| vec![b'1'; v as usize]).collect();
    (State::fresh(std::array::from_fn(|i| capacities[i].into()), values(&start)), Machine::fresh(capacities, &ones))
}

/// Sheets for a program of variables X0 to X3, good or not.
pub fn sheets() -> Vec<Vec<u8>> {
    let mut found: Vec<Vec<u8>> = [
        "",
        "\n",
        "\n\n",
        "\n\n\n",
        "\n0\n",
        "X1",
        "X1\n",
        "X1\n\n",
        "X1\n1",
        "X1\n1\n",
        "X1\n1 2\n",
        "X1 X2\n1\n",
        "X1 X2\n1 2\n",
        " X1\n",
        "X1 \n",
        "X1  X2\n",
        "X1,X2\n",
        "x1\n",
        "X\n",
        "X01\n",
        "X3\n",
        "X4\n",
        "X32\n",
        "X4294967297\n",
        "X18446744073709551617\n",
        "X1 X1\n",
        "X1 X2 X1\n",
        "X4 \n",
        "X4\n1 1\n",
        "X1\n1025 1\n",
        "X1\n1024\n",
        "X1\n1025\n",
        "X1\n01\n",
        "X1\n00\n",
        "X1\n-1\n",
        "X1\n+1\n",
        "X1\n1 \n",
        "X1\n 1\n",
        "X1\n4294967297\n",
        "X1\n1\n1025\n1 1\n",
        "X1\n18446744073709551617\n",
        "X1\n1\n1 1\n1025\n",
        "X1\r\n1\r\n",
        "X0 X1 X2 X3\n1024 1024 1024 1024\n",
        "X3 X2 X1 X0\n4 3 2 1\n",
        "X1\n1\0\n",
        "X\n1\n",
        "X'\n1\n",
        "X''' X\n1 2\n",
        "X1 X'\n1 2\n",
        "X' X1\n1 2\n",
        "X X0\n1 2\n",
        "X X\n1 2\n",
        "X0 X1 X'' X'''\n1 2 3 4\n",
        "X X' X'' X''' X0\n",
        "X''''\n",
        "X X''''\n",
        "X3'\n",
        "X'3\n",
        "X0'\n",
        "X'0\n",
        "X' \n",
        " X\n",
        "X  X1\n",
        "X,X'\n",
        "XX'\n",
        "'\n",
        "X'\n'\n",
        "X'\n'''\n",
        "X'\nX\n",
        "X'\n1'\n",
    ]
    .map(|s| s.into())
    .to_vec();
    for count in [31, 32, 33, 255, 256, 257, 4_093, 4_094, 4_095] {
        found.push(lines(&[primes(count)]));
        found.push(lines(&[format!("X1 {}", primes(count)), "1 2".into()]));
        found.push(lines(&[format!("{} X1'", primes(count))]));
    }
    for size in [crate::sheet::BYTES - 1, crate::sheet::BYTES, crate::sheet::BYTES + 1] {
        found.push(vec![b'\n'; size]);
        found.push([b"X1\n".to_vec(), vec![b'9'; size - 4], b"\n".to_vec()].concat());
        found.push([b"X1\n".to_vec(), vec![b'9'; size - 3]].concat());
    }
    found
}

/// Programs and sheets for the run tool: a source that halts after exactly its budget of steps, and one step later; then a word so.
pub fn budgets() -> [(String, &'static str); 4] {
    let passes = "loop X1\nloop X2\nendloop X2\nendloop X1\n";
    let of_source = "X1 X2\n369 269\n";
    let of_word = "X1 X2 X3\n369 299 738\n";
    [
        (passes.into(), of_source),
        (format!("{passes}X0 <- X0 + 1\n"), of_source),
        (format!("{passes}X3 <- 0\nX0 <- X0 + 1\n"), of_word),
        (format!("{passes}X3 <- 0\nX0 <- X0 + 1\nX0 <- X0 + 1\n"), of_word),
    ]
}
