//! What is measured: each piece of work once by the library and once by the twin, or by plain C, on the same input, with the same checks.

use crate::timing::Work;
use std::hint::black_box;
use std::path::PathBuf;
use std::process::{Command as Process, Stdio};
use std::rc::Rc;
use std::{env, fs};
use twin::cases::{form_of, split, Program, ANY};
use twin::library::{self, Code};
use twin::listing;
use twin::machine::Machine;
use twin::program::{self, read, read_list, Command, Kind, Setting};
use twin::source::{check, run, State};
use twin::spellings::primes;
use twin::translation::{translate, Form};
use twin::word::{self, spell, Instruction};

pub const MULTIPLY: &[u8] = b"X0 <- 0\nloop X1\nloop X2\nX0 <- X0 + 1\nendloop X2\nendloop X1\n";
pub const BUSY: &[u8] = b"while X1 != 0\nX0 <- X1\nX2 <- X0\nloop X2\nX3 <- 0\nX3 <- X3 + 1\nendloop X2\nendwhile X1 != 0\n";
/// Copies X0 to X1 for ever.
pub const COPIES: &[u8] = b"while X0 != 0\nX1 <- X0\nendwhile X0 != 0\n";
/// Copies X1 to itself for ever.
pub const TO_ITSELF: &[u8] = b"while X1 != 0\nX1 <- X1\nendwhile X1 != 0\n";
/// X0 becomes X1 - 1.
pub const PREDECESSOR: &[u8] = b"X0 <- 0\nX2 <- 0\nloop X1\nX0 <- X2\nX2 <- X2 + 1\nendloop X1\n";
/// Spent, the source and the word.
pub const SPENT: &[u8] = b"X0 <- X0 + 1\nwhile X0 != 0\nX1 <- X1\nendwhile X0 != 0\n";

/// So many loops on X31 around so many `X31 <- X30`. 16 around 480 have the longest word known.
pub fn nested(depth: usize, copies: usize) -> Vec<u8> {
    let mut commands = vec![Command::Open(Kind::Loop, 31); depth];
    commands.extend(vec![Command::Copy { to: 31, from: 30 }; copies]);
    commands.extend(vec![Command::Close(Kind::Loop, 31); depth]);
    program::write(&commands)
}

/// So many loops on X1 around an increment of X0.
pub fn loops(depth: usize) -> Vec<u8> {
    ["loop X1\n".repeat(depth), "X0 <- X0 + 1\n".into(), "endloop X1\n".repeat(depth)].concat().into_bytes()
}

/// A text of as many lines and as many bytes as one may have, in primes.
pub fn in_primes() -> Vec<u8> {
    format!("{} <- {}\n", primes(13), primes(12)).repeat(512).into_bytes()
}

/// The program of a text, and the same as its list.
pub fn as_text(text: &[u8]) -> Program {
    Program::Text(text.into())
}

pub fn as_list(text: &[u8]) -> Program {
    Program::List(program::list(&read(Setting::Any, text).expect("an accepted program")))
}

pub fn word_of(text: &[u8]) -> Vec<u8> {
    spell(&translate(Form::Plain, &read(Setting::Any, text).expect("an accepted program")))
}

/// As many copies in 16 loops as make about so many symbols.
pub fn in_16_loops(length: usize) -> Vec<u8> {
    let (none, most) = (word_of(&nested(16, 0)).len(), word_of(&nested(16, 480)).len());
    nested(16, length.saturating_sub(none) * 480 / (most - none))
}

/// A word of about so many symbols, all of it cases on register 40, which is empty: it halts after a step for each 45 symbols.
pub fn cases_word(symbols: usize) -> Vec<u8> {
    spell(&vec![Instruction { kind: 5, operand: 40 }; symbols / 45])
}

/// A word that moves the symbols of register 1 to register 2 and back for ever.
pub fn moving_word() -> Vec<u8> {
    let half = |from: u32, to: u32, on_empty: (u8, u32)| [(5, from), on_empty, (3, 3), (2, to), (4, 4), (1, to), (4, 6)];
    let moves = [half(1, 2, (3, 6)), half(2, 1, (4, 8))].concat();
    spell(&moves.into_iter().map(|(kind, operand)| Instruction { kind, operand }).collect::<Vec<_>>())
}

pub fn reading(name: &str, size: usize, text: &[u8]) -> Work {
    let (text, again) = (text.to_vec(), text.to_vec());
    let mut list = [0; 1536];
    Work::new(
        name,
        size,
        move || {
            black_box(library::read_program(ANY, black_box(&text), &mut list));
        },
        move || {
            black_box(read(Setting::Any, black_box(&again)).map(|c| program::list(&c))).ok();
        },
    )
}

pub fn writing(name: &str, size: usize, text: &[u8]) -> Work {
    let list = program::list(&read(Setting::Any, text).expect("an accepted program"));
    let again = list.clone();
    let mut written = vec![0; 16_384];
    Work::new(
        name,
        size,
        move || {
            black_box(library::write_program(ANY, black_box(&list), &mut written));
        },
        move || {
            black_box(read_list(Setting::Any, black_box(&again)).map(|c| program::write(&c))).ok();
        },
    )
}

pub fn translating(name: &str, size: usize, form: u32, program: Program) -> Work {
    let again = program.clone();
    let mut word = vec![0; 400_000];
    Work::new(
        name,
        size,
        move || {
            black_box(match black_box(&program) {
                Program::Text(text) => library::translate(ANY, form, text, &mut word),
                Program::List(list) => library::translate_list(ANY, form, list, &mut word),
            });
        },
        move || {
            black_box(black_box(&again).read(Setting::Any).map(|c| spell(&translate(form_of(form), &c)))).ok();
        },
    )
}

pub fn translating_listing(name: &str, size: usize, text: &[u8]) -> Work {
    let (text, again) = (text.to_vec(), text.to_vec());
    let mut word = vec![0; 600_000];
    Work::new(
        name,
        size,
        move || {
            black_box(library::translate_listing(black_box(&text), &mut word));
        },
        move || {
            black_box(listing::read(black_box(&again)).map(|l| spell(&listing::word(&l)))).ok();
        },
    )
}

pub fn running_source(name: &str, program: Program, values: &[u32]) -> Work {
    let mut start = [0; 32];
    start[..values.len()].copy_from_slice(values);
    let fresh = State::alike(1024, start);
    let (numbers, again) = (fresh.numbers(), program.clone());
    Work::new(
        name,
        0,
        move || {
            let mut state = numbers;
            black_box(match black_box(&program) {
                Program::Text(text) => library::run_source(ANY, text, &mut state, 100_000),
                Program::List(list) => library::run_source_list(ANY, list, &mut state, 100_000),
            });
        },
        move || {
            let mut state = fresh.clone();
            let commands = black_box(&again).read(Setting::Any).expect("an accepted program");
            check(&commands, &state).expect("a good state");
            black_box(run(&commands, &mut state, 100_000));
        },
    )
}

/// The kinds and operands of a word.
fn numbers_of(text: &[u8]) -> (Vec<u8>, Vec<u32>) {
    split(&word::read(text).expect("a word"))
}

/// A word written by the library, as a work of which the other half is still to be said.
fn writes(text: &[u8]) -> impl FnMut() + 'static {
    let (kinds, operands) = numbers_of(text);
    let mut written = vec![0; 600_000];
    move || {
        black_box(library::write_word(black_box(&kinds), black_box(&operands), &mut written));
    }
}

/// A word read by the library, likewise.
fn reads(text: &[u8]) -> impl FnMut() + 'static {
    let text = text.to_vec();
    let (mut kinds, mut operands) = (vec![0; 8192], vec![0; 8192]);
    move || {
        black_box(library::read_word(black_box(&text), &mut kinds, &mut operands));
    }
}

pub fn writing_word(name: &str, size: usize, text: &[u8]) -> Work {
    let table = word::read(text).expect("a word");
    Work::new(name, size, writes(text), move || {
        black_box(word::check_table(black_box(&table)).map(|()| spell(&table))).ok();
    })
}

pub fn reading_word(name: &str, size: usize, text: &[u8]) -> Work {
    let again = text.to_vec();
    Work::new(name, size, reads(text), move || {
        black_box(word::read(black_box(&again))).ok();
    })
}

extern "C" {
    fn plain_read_word(word: *const u8, len: usize, kinds: *mut u8, operands: *mut u32, room: usize) -> usize;
    fn plain_write_word(kinds: *const u8, operands: *const u32, count: usize, word: *mut u8, room: usize) -> usize;
}

/// A word written by the library and by plain.c.
pub fn writing_plainly(name: &str, text: &[u8]) -> Work {
    let (kinds, operands) = numbers_of(text);
    let (mut written, symbols) = (vec![0; 600_000], text.len());
    Work::new(name, symbols, writes(text), move || {
        let (kinds, operands) = (black_box(&kinds), black_box(&operands));
        let done = unsafe { plain_write_word(kinds.as_ptr(), operands.as_ptr(), kinds.len(), written.as_mut_ptr(), written.len()) };
        assert_eq!(black_box(done), symbols);
    })
}

/// A word read by the library and by plain.c.
pub fn reading_plainly(name: &str, text: &[u8]) -> Work {
    let (again, count) = (text.to_vec(), numbers_of(text).0.len());
    let (mut kinds, mut operands) = (vec![0; 8192], vec![0; 8192]);
    Work::new(name, text.len(), reads(text), move || {
        let text = black_box(&again);
        let done = unsafe { plain_read_word(text.as_ptr(), text.len(), kinds.as_mut_ptr(), operands.as_mut_ptr(), kinds.len()) };
        assert_eq!(black_box(done), count);
    })
}

/// Most word runs are of at most so many steps.
pub const STEPS: u32 = 100_000;

/// A word run for at most so many steps, from its text or, where `read` says so, from its table, which is then read beforehand.
pub fn running_word(name: &str, size: usize, text: &[u8], fresh: &Machine, read: bool) -> Work {
    running_for(name, size, text, fresh, read, STEPS)
}

fn running_for(name: &str, size: usize, text: &[u8], fresh: &Machine, read: bool, budget: u32) -> Work {
    let (text, machine, again) = (text.to_vec(), fresh.clone(), fresh.clone());
    let (kinds, operands) = numbers_of(&text);
    let (table, whole) = (word::read(&text).expect("a word"), text.clone());
    Work::new(
        name,
        size,
        move || {
            let mut machine = machine.clone();
            let code = if read { Code::Table(&kinds, &operands) } else { Code::Word(&text) };
            black_box(library::run(&mut machine, black_box(code), budget));
        },
        move || {
            let mut machine = again.clone();
            if read {
                machine.accept_table(black_box(&table)).expect("a good machine and table");
                black_box(machine.run(&table, budget));
            } else {
                let table = machine.accept(black_box(&whole)).expect("a good machine and word");
                black_box(machine.run(&table, budget));
            }
        },
    )
}

/// A program's word run likewise for at most so many steps, from these values.
pub fn running_program(name: &str, text: &[u8], values: &[usize], budget: u32) -> Work {
    let word = word_of(text);
    let named = word::read(&word).expect("a word").iter().filter_map(|i| i.register()).max().unwrap_or(1);
    let ones: Vec<_> = values.iter().map(|&v| vec![b'1'; v]).collect();
    running_for(name, 0, &word, &Machine::alike(named, 1024, &ones), false, budget)
}

/// The value of a machine.
pub fn valuing(name: &str, machine: &Machine) -> Work {
    let (machine, again) = (machine.clone(), machine.clone());
    Work::new(
        name,
        0,
        move || {
            black_box(library::value(black_box(&machine)));
        },
        move || {
            black_box(black_box(&again).check().map(|()| again.value())).ok();
        },
    )
}

/// A report of so many products of 30 and 30.
pub fn reporting_products(name: &str, rows: usize) -> Work {
    reporting(name, rows, MULTIPLY, &("X1 X2\n".to_string() + &"30 30\n".repeat(rows)))
}

/// The run tool that RUN_TOOL names against the twin's, as processes in one folder, on a program and a sheet of so many rows.
pub fn reporting(name: &str, rows: usize, text: &[u8], sheet: &str) -> Work {
    let folder = env::temp_dir().join(format!("benchmark-{}-{rows}", std::process::id()));
    fs::create_dir_all(&folder).expect("a folder for the files");
    fs::write(folder.join("program.txt"), text).expect("a file in the folder");
    fs::write(folder.join("sheet.txt"), sheet).expect("a file in the folder");
    let tool = env::var_os("RUN_TOOL").expect("RUN_TOOL names the run tool");
    let twin = env::current_exe().expect("this program's path").with_file_name("twin-tool");
    let folder = Rc::new(Folder(folder));
    let runs = |path: PathBuf| {
        let folder = folder.clone();
        move || {
            let done = Process::new(&path).current_dir(&folder.0).stdout(Stdio::null()).status().expect("the tool runs");
            assert!(done.success());
        }
    };
    Work::new(name, rows, runs(tool.into()), runs(twin))
}

/// A folder that goes when this does.
struct Folder(PathBuf);

impl Drop for Folder {
    fn drop(&mut self) {
        fs::remove_dir_all(&self.0).ok();
    }
}
