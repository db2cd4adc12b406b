//! The program text: commands, spellings, the list of three numbers a command, rules 1 to 8, and rule 20 of the LOOP-only lesson. Names
//! are spelled in digits or, by request 3 of document 02, in primes.

use crate::{refuse, Refusal};
use std::borrow::Cow;

pub const BYTES: usize = 16_384;
pub const LINES: usize = 512;
pub const INDEX: u64 = 31;
pub const OPEN: usize = 16;

/// What a lesson lets students write: LOOP and WHILE, or LOOP alone.
#[derive(Clone, Copy, PartialEq, Eq, Debug)]
pub enum Setting {
    Any,
    LoopOnly,
}

#[derive(Clone, Copy, PartialEq, Eq, Debug)]
pub enum Kind {
    Loop,
    While,
}

/// A command whose indices are numbers; `u64::MAX` stands for every larger one.
#[derive(Clone, Copy, PartialEq, Eq, Debug)]
pub enum Command {
    Clear(u64),
    Increment(u64),
    Copy { to: u64, from: u64 },
    Open(Kind, u64),
    Close(Kind, u64),
}

impl Command {
    pub fn indices(self) -> Vec<u64> {
        match self {
            Command::Clear(i) | Command::Increment(i) | Command::Open(_, i) | Command::Close(_, i) => vec![i],
            Command::Copy { to, from } => vec![to, from],
        }
    }

    /// "The writer always uses digits".
    pub fn spelling(self) -> String {
        match self {
            Command::Clear(i) => format!("X{i} <- 0"),
            Command::Increment(i) => format!("X{i} <- X{i} + 1"),
            Command::Copy { to, from } => format!("X{to} <- X{from}"),
            Command::Open(Kind::Loop, i) => format!("loop X{i}"),
            Command::Close(Kind::Loop, i) => format!("endloop X{i}"),
            Command::Open(Kind::While, i) => format!("while X{i} != 0"),
            Command::Close(Kind::While, i) => format!("endwhile X{i} != 0"),
        }
    }

    pub fn numbers(self) -> [u64; 3] {
        match self {
            Command::Clear(i) => [1, i, 0],
            Command::Increment(i) => [2, i, 0],
            Command::Copy { to, from } => [3, to, from],
            Command::Open(Kind::Loop, i) => [4, i, 0],
            Command::Close(Kind::Loop, i) => [5, i, 0],
            Command::Open(Kind::While, i) => [6, i, 0],
            Command::Close(Kind::While, i) => [7, i, 0],
        }
    }

    fn from_numbers(numbers: &[u8]) -> Option<Command> {
        let &[kind, index, source] = numbers else { return None };
        let (index, source) = (u64::from(index), u64::from(source));
        match (kind, source) {
            (3, _) => Some(Command::Copy { to: index, from: source }),
            (1, 0) => Some(Command::Clear(index)),
            (2, 0) => Some(Command::Increment(index)),
            (4, 0) => Some(Command::Open(Kind::Loop, index)),
            (5, 0) => Some(Command::Close(Kind::Loop, index)),
            (6, 0) => Some(Command::Open(Kind::While, index)),
            (7, 0) => Some(Command::Close(Kind::While, index)),
            _ => None,
        }
    }
}

/// A number at the front of a text, as its digits without leading zero, which are the same for equal numbers of any size; and what
/// follows.
pub type Front<'a> = Option<(Cow<'a, [u8]>, &'a [u8])>;

/// A numeral without leading zero.
pub fn numeral(text: &[u8]) -> Front<'_> {
    let count = text.iter().take_while(|b| b.is_ascii_digit()).count();
    let (digits, rest) = text.split_at(count);
    let proper = count == 1 || (count > 1 && digits[0] != b'0');
    proper.then_some((digits.into(), rest))
}

/// The index of a name, in whichever spelling, and what follows the name. "A variable may now be spelled as X and its index in primes, and
/// a bare X is index 0".
pub fn name(text: &[u8]) -> Front<'_> {
    let index = text.strip_prefix(b"X")?;
    if index.first().is_some_and(u8::is_ascii_digit) {
        return numeral(index);
    }
    let primes = index.iter().take_while(|&&b| b == b'\'').count();
    Some((primes.to_string().into_bytes().into(), &index[primes..]))
}

/// The number that digits spell, at most `u64::MAX`.
pub fn value(digits: &[u8]) -> u64 {
    digits.iter().fold(0, |n: u64, d| n.saturating_mul(10).saturating_add(u64::from(d - b'0')))
}

/// The number at the front of a text of which nothing is left but `back`.
pub fn whole(front: Front, back: &[u8]) -> Option<u64> {
    let (digits, rest) = front?;
    (rest == back).then(|| value(&digits))
}

fn whole_name(text: &[u8], back: &[u8]) -> Option<u64> {
    whole(name(text), back)
}

/// The command that a line spells, if it is one of the spellings.
pub fn command(line: &[u8]) -> Option<Command> {
    if let Some(rest) = line.strip_prefix(b"loop ") {
        return Some(Command::Open(Kind::Loop, whole_name(rest, b"")?));
    }
    if let Some(rest) = line.strip_prefix(b"endloop ") {
        return Some(Command::Close(Kind::Loop, whole_name(rest, b"")?));
    }
    if let Some(rest) = line.strip_prefix(b"while ") {
        return Some(Command::Open(Kind::While, whole_name(rest, b" != 0")?));
    }
    if let Some(rest) = line.strip_prefix(b"endwhile ") {
        return Some(Command::Close(Kind::While, whole_name(rest, b" != 0")?));
    }
    let (to, rest) = name(line)?;
    let source = rest.strip_prefix(b" <- ")?;
    if source == b"0" {
        return Some(Command::Clear(value(&to)));
    }
    let (from, rest) = name(source)?;
    match rest {
        b"" => Some(Command::Copy { to: value(&to), from: value(&from) }),
        b" + 1" if to == from => Some(Command::Increment(value(&to))),
        _ => None,
    }
}

/// Rules 3 to 8 and 20, of lines or of the commands of a list; `None` is a line that is no spelling. 20 "stands after 5 and before 6".
pub fn check(setting: Setting, lines: &[Option<Command>]) -> Result<Vec<Command>, Refusal> {
    if lines.len() > LINES {
        return refuse(3, LINES + 1);
    }
    let mut open: Vec<(usize, Kind, u64)> = Vec::new();
    let mut commands = Vec::new();
    for (at, line) in lines.iter().enumerate() {
        let place = at + 1;
        let Some(command) = *line else { return refuse(4, place) };
        if command.indices().iter().any(|&i| i > INDEX) {
            return refuse(5, place);
        }
        if setting == Setting::LoopOnly && matches!(command, Command::Open(Kind::While, _) | Command::Close(Kind::While, _)) {
            return refuse(20, place);
        }
        match command {
            Command::Open(..) if open.len() == OPEN => return refuse(6, place),
            Command::Open(kind, index) => open.push((place, kind, index)),
            Command::Close(kind, index) => match open.pop() {
                Some((_, k, i)) if (k, i) == (kind, index) => {}
                _ => return refuse(7, place),
            },
            _ => {}
        }
        commands.push(command);
    }
    match open.last() {
        Some(&(place, ..)) => refuse(8, place),
        None => Ok(commands),
    }
}

/// The lines of a text, by rules 1 and 2.
pub fn lines(text: &[u8]) -> Result<Vec<&[u8]>, Refusal> {
    if text.len() > BYTES {
        return refuse(1, 0);
    }
    let feeds = text.iter().filter(|&&b| b == b'\n').count();
    if text.last().is_some_and(|&b| b != b'\n') {
        return refuse(2, feeds + 1);
    }
    Ok(text.split(|&b| b == b'\n').take(feeds).collect())
}

/// A text, by rules 1 to 8 and 20.
pub fn read(setting: Setting, text: &[u8]) -> Result<Vec<Command>, Refusal> {
    let commands: Vec<_> = lines(text)?.into_iter().map(command).collect();
    check(setting, &commands)
}

/// A list of three numbers a command, by rules 3 to 8 and 20.
pub fn read_list(setting: Setting, list: &[u8]) -> Result<Vec<Command>, Refusal> {
    let commands: Vec<_> = list.chunks(3).map(Command::from_numbers).collect();
    check(setting, &commands)
}

pub fn list(commands: &[Command]) -> Vec<u8> {
    commands.iter().flat_map(|c| c.numbers()).map(|n| n as u8).collect()
}

pub fn write(commands: &[Command]) -> Vec<u8> {
    commands.iter().map(|c| c.spelling() + "\n").collect::<String>().into_bytes()
}

/// "K is the highest index named plus 1, or 0."
pub fn variables(commands: &[Command]) -> usize {
    commands.iter().flat_map(|c| c.indices()).map(|i| i as usize + 1).max().unwrap_or(0)
}

/// For each line the line of its partner, both counted from 0, and the loops whose body or closing line holds it.
pub struct Layout {
    pub partner: Vec<usize>,
    pub depth: Vec<usize>,
}

pub fn layout(commands: &[Command]) -> Layout {
    let mut partner = vec![0; commands.len()];
    let mut depth = vec![0; commands.len() + 1];
    let mut open: Vec<(usize, Kind)> = Vec::new();
    for (at, command) in commands.iter().enumerate() {
        depth[at] = open.iter().filter(|(_, k)| *k == Kind::Loop).count();
        match command {
            Command::Open(kind, _) => open.push((at, *kind)),
            Command::Close(..) => {
                let (from, _) = open.pop().expect("an accepted program is well nested");
                partner[from] = at;
                partner[at] = from;
            }
            _ => {}
        }
    }
    Layout { partner, depth }
}
