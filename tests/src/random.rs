//! Cases by chance, the same for the same seed: programs, listings, words, states, sheets, and damage to them.

use crate::cases::{form_of, ANY, LOOP_ONLY, PLAIN, TIDY};
use crate::edges::drains::{counted, drain, mark};
use crate::edges::{listings, NEARLY, OTHER_FORMS, OTHER_SETTINGS};
use crate::listing::{self, Line};
use crate::machine::{self, Machine};
use crate::program::{self, list, variables, write, Command, Kind, Setting, OPEN};
use crate::source::{self, State};
use crate::spellings::{digits, primes, respelled};
use crate::translation::{add, backward, cases, forward, spread, translate};
use crate::word::{spell, Instruction};
use crate::End;

/// So many cases by chance, or as many as ROUNDS says.
pub fn rounds(usual: usize) -> usize {
    std::env::var("ROUNDS").ok().and_then(|n| n.parse().ok()).unwrap_or(usual)
}

/// A run by chance that hasn't ended after so many steps has a budget of at most that.
pub const LONGEST: u32 = 20_000;

/// A generator of 64-bit numbers (splitmix64).
pub struct Random(u64);

impl Random {
    pub fn new(seed: u64) -> Random {
        Random(seed)
    }

    fn bits(&mut self) -> u64 {
        self.0 = self.0.wrapping_add(0x9e37_79b9_7f4a_7c15);
        let mut z = self.0;
        z = (z ^ (z >> 30)).wrapping_mul(0xbf58_476d_1ce4_e5b9);
        z = (z ^ (z >> 27)).wrapping_mul(0x94d0_49bb_1331_11eb);
        z ^ (z >> 31)
    }

    /// A number below `n`.
    pub fn below(&mut self, n: usize) -> usize {
        (self.bits() % n.max(1) as u64) as usize
    }

    /// True once in `n` times.
    pub fn once_in(&mut self, n: usize) -> bool {
        self.below(n) == 0
    }

    pub fn pick<T: Copy>(&mut self, from: &[T]) -> T {
        from[self.below(from.len())]
    }

    /// Mostly small, sometimes at or past a limit.
    fn near(&mut self, small: usize, limit: usize) -> usize {
        match self.below(8) {
            0 => limit,
            1 => limit + 1,
            2 => limit.saturating_sub(1),
            _ => self.below(small),
        }
    }

    /// A well-nested program of about `lines` lines over variables below `names`, with no WHILE under the LOOP-only setting.
    pub fn program(&mut self, setting: Setting, lines: usize, names: usize) -> Vec<Command> {
        let mut commands = Vec::new();
        let mut open: Vec<(Kind, u64)> = Vec::new();
        while commands.len() < lines {
            let index = self.below(names) as u64;
            let command = match self.below(10) {
                0 => Command::Clear(index),
                1..=3 => Command::Increment(index),
                4 | 5 => Command::Copy { to: index, from: self.below(names) as u64 },
                6 | 7 if open.len() < OPEN => {
                    let is_while = setting == Setting::Any && self.once_in(3);
                    Command::Open(if is_while { Kind::While } else { Kind::Loop }, index)
                }
                _ => match open.last() {
                    Some(&(kind, index)) => Command::Close(kind, index),
                    None => Command::Increment(index),
                },
            };
            match command {
                Command::Open(kind, index) => open.push((kind, index)),
                Command::Close(..) => {
                    open.pop();
                }
                _ => {}
            }
            commands.push(command);
        }
        while let Some((kind, index)) = open.pop() {
            commands.push(Command::Close(kind, index));
        }
        commands
    }

    /// Mostly few, sometimes at or past the limit.
    fn lines(&mut self, limit: usize) -> usize {
        match self.below(12) {
            0 => 0,
            1 => self.near(40, limit),
            2 => 1,
            _ => 1 + self.below(14),
        }
    }

    fn sized_program(&mut self, setting: Setting) -> Vec<Command> {
        let lines = self.lines(program::LINES);
        let names = if self.once_in(6) { 32 } else { 1 + self.below(5) };
        let mut commands = self.program(setting, lines, names);
        if self.once_in(20) {
            let depth = OPEN - 2 + self.below(4);
            let index = self.below(names) as u64;
            commands.splice(0..0, vec![Command::Open(Kind::Loop, index); depth]);
            commands.extend(vec![Command::Close(Kind::Loop, index); depth]);
        }
        commands
    }

    /// A setting as the C entries are given it: any, LOOP-only, or once in a while a number that counts as LOOP-only.
    pub fn setting(&mut self) -> u32 {
        match self.below(8) {
            0..=3 => ANY,
            4..=6 => LOOP_ONLY,
            _ => self.pick(&OTHER_SETTINGS),
        }
    }

    /// A form likewise: plain, tidy, or once in a while a number that counts as plain.
    pub fn form(&mut self) -> u32 {
        match self.below(8) {
            0..=2 => PLAIN,
            3..=6 => TIDY,
            _ => self.pick(&OTHER_FORMS),
        }
    }

    /// An index above the limit, or just below it; once in a while one of thousands.
    fn large(&mut self) -> usize {
        if self.once_in(4) {
            1000 + self.below(6000)
        } else {
            30 + self.below(5)
        }
    }

    /// A text whose names are in digits, with none, some or all of them in primes; once in a while one of its variables has a large index,
    /// or some of its names have the next one.
    pub fn respell(&mut self, text: &[u8]) -> Vec<u8> {
        let in_primes = self.pick(&[0, 0, 1, 2, 4]);
        let moved = self.once_in(12).then(|| (self.below(3), self.large()));
        let slips = self.once_in(12);
        respelled(text, |index| {
            let index = moved.filter(|(from, _)| *from == index).map_or(index, |(_, to)| to);
            let next = usize::from(slips && self.once_in(6));
            self.name(index + next, in_primes)
        })
    }

    /// A name, in primes so many times of four.
    fn name(&mut self, index: usize, in_primes: usize) -> String {
        if self.below(4) < in_primes {
            primes(index)
        } else {
            digits(index)
        }
    }

    /// An increment by its form, of a large index; its names are of one variable or nearly.
    fn large_increment(&mut self) -> String {
        let index = self.large();
        let other = index - 1 + self.pick(&[0, 1, 1, 2]);
        format!("{} <- {} + 1", self.name(index, 2), self.name(other, 2))
    }

    fn insert_line(&mut self, text: &mut Vec<u8>, line: &str) {
        let starts: Vec<_> = [0].into_iter().chain((1..text.len()).filter(|&at| text[at - 1] == b'\n')).collect();
        let at = self.pick(&starts);
        text.splice(at..at, line.bytes().chain([b'\n']));
    }

    /// A program's text, damaged or not.
    pub fn text(&mut self, setting: Setting) -> Vec<u8> {
        let written = write(&self.sized_program(setting));
        let mut text = self.respell(&written);
        if self.once_in(20) {
            let line = self.large_increment();
            self.insert_line(&mut text, &line);
        }
        self.spoil(&mut text, b"X0123456789'' <-+1=!loopendwhile\n\r\t\0\xff", &NEARLY);
        text
    }

    /// A text of lines damaged with these bytes, with one of these lines more, or of another size; or as it was.
    fn spoil(&mut self, text: &mut Vec<u8>, with: &[u8], nearly: &[&str]) {
        if self.once_in(3) {
            let times = 1 + self.below(3);
            for _ in 0..times {
                self.damage(text, with);
            }
        }
        if self.once_in(10) {
            let line = self.pick(nearly);
            self.insert_line(text, line);
        }
        if self.once_in(40) {
            text.resize(self.near(program::BYTES, program::BYTES), b'\n');
        }
    }

    /// A listing of so many lines, with targets among them or behind the last, and registers up to `registers`.
    pub fn listing(&mut self, lines: usize, registers: usize) -> Vec<Line> {
        let line = |_| {
            let register = 1 + self.below(registers);
            if self.once_in(2) {
                return Line::Print { symbol: self.pick(b"1#"), register };
            }
            let mut target = || 1 + self.below(lines + 1) as u64;
            Line::Scan { register, on_one: target(), on_hash: target() }
        };
        (0..lines).map(line).collect()
    }

    /// A line for a listing of so many lines, of which one number is at or past a limit, or no numeral.
    fn odd_line(&mut self, lines: usize) -> String {
        let limits = [machine::REGISTERS, lines + 1, lines + 1];
        let mut numbers = limits.map(|limit| (1 + self.below(limit)).to_string());
        let at = self.below(3);
        numbers[at] = match self.below(8) {
            0 => limits[at].to_string(),
            1 | 2 => (limits[at] + 1).to_string(),
            3 => "0".into(),
            4 => format!("0{}", numbers[at]),
            5 => numbers[at].repeat(9),
            6 => self.pick(&["4294967297", "18446744073709551617"]).into(),
            _ => self.pick(&["x", ""]).into(),
        };
        let [n, e, f] = numbers;
        match self.below(8) {
            0 => format!("P1 {n}"),
            1 => format!("P# {n}"),
            _ => format!("Scd {n} {e} {f}"),
        }
    }

    /// A listing's text, damaged or not.
    pub fn listing_text(&mut self) -> Vec<u8> {
        let lines = self.lines(listing::LINES);
        let registers = if self.once_in(6) { machine::REGISTERS } else { 1 + self.below(5) };
        let mut text = listing::write(&self.listing(lines, registers));
        if self.once_in(2) {
            let line = self.odd_line(lines + 1);
            self.insert_line(&mut text, &line);
        }
        self.spoil(&mut text, b"P1#Scd  0123456789\n\r\t\0\xff", &listings::NEARLY);
        text
    }

    /// A program as a list of numbers, damaged or not.
    pub fn list(&mut self, setting: Setting) -> Vec<u8> {
        let mut list = list(&self.sized_program(setting));
        if self.once_in(3) {
            self.damage(&mut list, &[0, 1, 2, 3, 4, 5, 6, 7, 8, 31, 32, 255]);
        }
        list
    }

    /// One byte changed, dropped or put in, or a part of the text repeated or cut.
    pub fn damage(&mut self, text: &mut Vec<u8>, with: &[u8]) {
        let at = self.below(text.len() + 1);
        let byte = self.pick(with);
        match self.below(6) {
            0 if at < text.len() => text[at] = byte,
            1 if at < text.len() => {
                text.remove(at);
            }
            2 => text.truncate(at),
            3 => {
                let part = text[at..(at + self.below(40)).min(text.len())].to_vec();
                text.splice(at..at, part);
            }
            4 => {
                let byte = if self.once_in(3) { b'\'' } else { b'1' + self.below(9) as u8 };
                text.splice(at..at, vec![byte; self.below(30)]);
            }
            _ => text.insert(at, byte),
        }
    }

    /// A number at or beside the end of a run of `n` steps, or another.
    pub fn around(&mut self, n: u32) -> u32 {
        match self.below(8) {
            0 => 0,
            1 => n.saturating_sub(1),
            2 => n,
            3 => n + 1,
            4 => u32::MAX,
            5 => self.below(3000) as u32,
            _ => self.below(n as usize + 1) as u32,
        }
    }

    /// A count of steps whose largest value is near the end of a run of `n` steps, or another.
    pub fn count(&mut self, n: u32) -> u32 {
        if self.once_in(3) {
            u32::MAX - self.around(n)
        } else {
            self.below(100) as u32
        }
    }

    /// Mostly small; once in a while the largest there is.
    fn capacity(&mut self) -> usize {
        if self.once_in(20) {
            machine::CAPACITY
        } else {
            1 + self.below(12)
        }
    }

    /// The length of a register, or a value, within a capacity.
    fn amount(&mut self, capacity: usize) -> usize {
        if self.once_in(4) {
            capacity - self.below(2)
        } else {
            self.below(capacity + 1)
        }
    }

    /// Capacities of so many registers: all alike, each by chance, or one that is longer than the others.
    pub fn capacities(&mut self, registers: usize) -> Vec<u16> {
        let of_all = self.capacity() as u16;
        let mut found = vec![of_all; registers];
        match self.below(4) {
            0 => {}
            1 => found[self.below(registers)] = self.capacity() as u16,
            2 => found[self.below(registers)] = self.pick(&[2, 30, 1_023, machine::CAPACITY as u16]),
            _ => found.fill_with(|| self.capacity() as u16),
        }
        found
    }

    /// The same of 64 registers for a program of `k` variables. In half of them the registers behind the variables' are as long as the
    /// longest of these; in the others one is shorter, which need not be one that the word names, or all are by chance.
    pub fn capacities_for(&mut self, k: usize) -> Vec<u16> {
        let mut found = self.capacities(machine::REGISTERS);
        let (variables, helpers) = found.split_at_mut(k);
        if self.once_in(2) {
            variables.fill_with(|| 1 + self.below(12) as u16);
        }
        let largest = variables.iter().max().copied().unwrap_or(1);
        match self.below(4) {
            0 | 1 => helpers.iter_mut().for_each(|c| *c = largest.max(*c)),
            2 => {
                helpers.iter_mut().for_each(|c| *c = largest.max(*c));
                helpers[self.below(4)] = 1.max(largest.saturating_sub(1 + self.below(3) as u16));
            }
            _ => helpers.fill_with(|| 1 + self.below(usize::from(largest)) as u16),
        }
        found
    }

    /// A source state for a program; most pass rule 9.
    pub fn state(&mut self, commands: &[Command]) -> State {
        let k = variables(commands).min(32);
        let capacities = self.capacities(32);
        let mut values = [0; 32];
        values.iter_mut().zip(&capacities).take(k).for_each(|(v, &c)| *v = self.amount(c.into()) as u32);
        let mut state = State::fresh(std::array::from_fn(|i| capacities[i].into()), values);
        if self.once_in(6) {
            state.line = self.below(commands.len() + 3) as u32;
            for passes in &mut state.passes {
                let capacity = self.pick(&capacities[..k.max(1)]);
                *passes = if self.once_in(2) { self.below(usize::from(capacity) + 2) as u32 } else { 0 };
            }
        }
        if self.once_in(2) {
            let odd = [0, 5_000, u32::MAX];
            state.capacities[k..].fill_with(|| self.pick(&odd));
        }
        if self.once_in(16) {
            let at = self.below(k + 1).min(31);
            state.capacities[at] = self.pick(&[0, 1, source::CAPACITY, source::CAPACITY + 1, u32::MAX]);
        }
        if self.once_in(24) {
            state.values[self.below(32)] = self.pick(&[1, source::CAPACITY, source::CAPACITY + 1, u32::MAX]);
        }
        state
    }

    /// A table of instructions that stay near one another; its registers are below `registers`, its transfers short.
    pub fn table(&mut self, registers: usize) -> Vec<Instruction> {
        let count = 1 + self.below(12);
        (0..count)
            .map(|_| {
                let kind = 1 + self.below(5) as u8;
                let most = if matches!(kind, 3 | 4) { count + 2 } else { registers };
                Instruction { kind, operand: 1 + self.below(most) as u32 }
            })
            .collect()
    }

    /// A word, damaged or not.
    pub fn word(&mut self, registers: usize) -> Vec<u8> {
        let mut word = spell(&self.table(registers));
        if self.once_in(3) {
            self.damage(&mut word, b"1##12\n\0");
        }
        word
    }

    fn symbols(&mut self, capacity: usize, marks: usize) -> Vec<u8> {
        (0..self.amount(capacity)).map(|_| if self.below(6) < marks { b'#' } else { b'1' }).collect()
    }

    /// A machine; most pass rule 10.
    pub fn machine(&mut self) -> Machine {
        let registers = 1 + self.below(6);
        let capacities = self.capacities(registers);
        let contents: Vec<_> = capacities.iter().map(|&c| self.symbols(c.into(), 2)).collect();
        let mut machine = Machine::fresh(&capacities, &contents);
        if self.once_in(6) {
            machine.place = self.pick(&[i32::MIN, i32::MIN + 1, -1, 0, 2, 3, 9, i32::MAX - 1, i32::MAX]);
        }
        let at = self.below(registers);
        match self.below(28) {
            0 => machine.capacities.push(1),
            1 => machine.capacities[at] = self.pick(&[0, 1025, u16::MAX]),
            2 => machine.store.push(0),
            3 => machine.lengths.push(0),
            4 => machine.lengths[at] += 1,
            6 => machine.capacities.swap(0, at),
            7 => {
                // the places begin elsewhere, and are as many bytes in all
                machine.capacities[0] += 1;
                machine.capacities[at] -= 1;
            }
            5 => {
                let at = self.below(machine.store.len());
                machine.store[at] = self.pick(b"1#2\0\xff");
            }
            _ => {}
        }
        machine
    }

    /// A machine as a halted word may leave it: often something in register 1 alone, or in one more.
    pub fn left_over(&mut self) -> Machine {
        let mut machine = self.machine();
        if machine.check().is_err() || self.once_in(4) {
            return machine;
        }
        let kept = if self.once_in(2) { 1 + self.below(machine.registers()) } else { 1 };
        for r in (2..=machine.registers()).filter(|&r| r != kept) {
            machine.empty(r);
        }
        machine
    }

    /// The word of a program, in one of its forms, and a machine that starts it, mostly with 1s only in its registers.
    pub fn translated(&mut self) -> (Vec<u8>, Machine) {
        let lines = self.below(14);
        let commands = self.program(Setting::Any, lines, 3);
        let k = variables(&commands);
        let capacities = self.capacities_for(k);
        let marks = usize::from(self.once_in(5));
        let contents: Vec<_> = capacities[..k].iter().map(|&c| self.symbols(c.into(), marks)).collect();
        (spell(&translate(form_of(self.form()), &commands)), Machine::fresh(&capacities, &contents))
    }

    /// The start of a run, or the middle of it, if the machine has accepted its instructions; with a budget and a count of steps around its
    /// end.
    pub fn started(&mut self, accepted: Option<Vec<Instruction>>, mut machine: Machine) -> (Machine, u32) {
        let mut budget = self.below(3000) as u32;
        if let Some(table) = accepted {
            let (end, ended) = machine.clone().run(&table, LONGEST);
            let done = if self.once_in(2) { self.below(ended as usize + 1) as u32 } else { 0 };
            machine.run(&table, done);
            budget = self.around(ended - done);
            if end == End::Spent {
                budget = budget.min(LONGEST);
            }
            machine.steps = self.count(ended - done);
        }
        (machine, budget)
    }

    fn register(&mut self, registers: usize) -> usize {
        1 + self.below(registers)
    }

    /// One instruction; few append `#`.
    fn loose(&mut self, registers: usize) -> Instruction {
        let register = self.register(registers);
        match self.below(16) {
            0 => mark(register),
            1..=6 => add(register),
            7..=9 => cases(register),
            10..=13 => forward(1 + self.below(6)),
            _ => backward(1 + self.below(8)),
        }
    }

    /// A loop that empties a register, or nearly one.
    fn one_drain(&mut self, registers: usize) -> Vec<Instruction> {
        let a = self.register(registers);
        let itself = self.once_in(8);
        let mut to: Vec<_> = (0..self.below(5)).map(|_| self.register(registers)).collect();
        to.retain(|&r| r != a || itself);
        let mut word = drain(a, &to);
        if self.once_in(4) {
            let at = self.below(word.len());
            word[at] = self.loose(registers);
        }
        word
    }

    /// A word of such loops, inside one another, and of what stands between them.
    pub fn drains(&mut self, registers: usize) -> Vec<Instruction> {
        let mut word = Vec::new();
        for _ in 0..1 + self.below(4) {
            word.extend(match self.below(8) {
                0 | 1 => vec![self.loose(registers)],
                2 => spread(self.register(registers), self.register(registers), self.register(registers)),
                3 => {
                    let body = self.drains(registers);
                    counted(self.register(registers), &body)
                }
                _ => self.one_drain(registers),
            });
        }
        word
    }

    /// Registers of these capacities that hold 1s; once in five times there is one `#`.
    fn ones(&mut self, capacities: &[u16], most: usize) -> Machine {
        let mut contents: Vec<_> = capacities.iter().map(|&c| vec![b'1'; self.amount(most.min(c.into()))]).collect();
        if self.once_in(5) {
            let at = self.below(contents.len());
            let place = self.below(contents[at].len());
            contents[at].get_mut(place).into_iter().for_each(|symbol| *symbol = b'#');
        }
        Machine::fresh(capacities, &contents)
    }

    /// Such a word, and a machine with 1s that starts it at any place.
    pub fn drains_on_ones(&mut self) -> (Vec<Instruction>, Machine) {
        let registers = 1 + self.below(5);
        let word = self.drains(registers);
        let unnamed = self.pick(&[0, 0, 1]);
        let capacities = self.capacities(registers + unnamed);
        let mut machine = self.ones(&capacities, machine::CAPACITY);
        if self.once_in(3) {
            machine.place = self.below(word.len() + 3) as i32;
        }
        (word, machine)
    }

    /// A word of a few instructions, none of which appends `#`, and a machine with few 1s that starts it; most go round for ever.
    pub fn going_round(&mut self) -> (Vec<Instruction>, Machine) {
        let (registers, last) = (1 + self.below(4), 1 + self.below(11));
        let mut word: Vec<_> = (0..last)
            .map(|at| match self.below(9) {
                0 | 1 => add(self.register(registers)),
                2..=4 => cases(self.register(registers)),
                5 | 6 if at > 0 => backward(1 + self.below(at)),
                _ => forward(1 + self.below(3)),
            })
            .collect();
        word.push(backward(1 + self.below(last)));
        let capacities: Vec<_> = (0..registers).map(|_| self.pick(&[1, 2, 5, 9, 30, 300])).collect();
        let most = self.pick(&[3, 9, 300]);
        (word, self.ones(&capacities, most))
    }

    /// The word of a program whose variables have values up to 1,000, and a machine with few registers that it does not name.
    pub fn translated_to_thousands(&mut self) -> (Vec<Instruction>, Machine) {
        let (lines, names) = (1 + self.below(9), 1 + self.below(3));
        let commands = self.program(Setting::Any, lines, names);
        let word = translate(form_of(self.form()), &commands);
        let named = word.iter().filter_map(|i| i.register()).max().unwrap_or(0);
        let mut capacities = vec![machine::CAPACITY as u16; 1 + named];
        if self.once_in(2) {
            capacities.fill_with(|| 1 + self.below(machine::CAPACITY) as u16);
        }
        let most = self.pick(&[3, 40, 1_000]);
        let mut machine = self.ones(&capacities, most);
        (variables(&commands) + 1..=named).for_each(|r| machine.empty(r));
        (word, machine)
    }

    /// What so many registers hold to start with: at most so many symbols, some of them #.
    pub fn contents(&mut self, registers: usize, most: usize) -> Vec<Vec<u8>> {
        (0..registers).map(|_| self.symbols(most, 3)).collect()
    }

    /// The word of a listing, and a machine that starts it, with both symbols in its registers.
    pub fn listed(&mut self) -> (Vec<u8>, Machine) {
        let lines = self.below(14);
        let registers = 1 + self.below(4);
        let word = spell(&listing::word(&self.listing(lines, registers)));
        let capacity = self.capacity();
        (word, Machine::alike(registers, capacity, &self.contents(registers, capacity)))
    }

    /// A sheet for a program of `k` variables on these registers, damaged or not.
    pub fn sheet(&mut self, k: usize, capacities: &[u16]) -> Vec<u8> {
        let names = self.below(k.min(4) + 1);
        let first = self.below(k.max(1));
        let line: Vec<_> = (0..names).map(|n| format!("X{}", (first + n) % k.max(1))).collect();
        let mut sheet = line.join(" ") + "\n";
        for _ in 0..self.below(4) {
            let values = (0..names).map(|n| {
                let capacity = capacities.get((first + n) % k.max(1)).copied().unwrap_or(machine::CAPACITY as u16);
                self.near(20.min(usize::from(capacity) + 1), capacity.into()).to_string()
            });
            let values: Vec<_> = values.collect();
            sheet += &(values.join(" ") + "\n");
        }
        let mut sheet = self.respell(sheet.as_bytes());
        if self.once_in(3) {
            self.damage(&mut sheet, b"X0123456789'' \n\r\0");
        }
        sheet
    }
}
