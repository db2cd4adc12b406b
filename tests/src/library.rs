//! The library's C entries, as safe functions that answer in the twin's types, and the run tool. The declarations are those of
//! `include/mudzkvopi.h`.

use crate::machine::Machine;
use crate::{Answer, End, Refusal};
use std::path::PathBuf;
use std::process::Command;
use std::{env, fs, process};

extern "C" {
    fn mudzkvopi_read_program(setting: u32, text: *const u8, text_len: usize, list: *mut u8, list_len: usize) -> u64;
    fn mudzkvopi_write_program(setting: u32, list: *const u8, list_len: usize, text: *mut u8, text_len: usize) -> u64;
    fn mudzkvopi_translate(setting: u32, form: u32, text: *const u8, text_len: usize, word: *mut u8, word_len: usize) -> u64;
    fn mudzkvopi_translate_list(setting: u32, form: u32, list: *const u8, list_len: usize, word: *mut u8, word_len: usize) -> u64;
    fn mudzkvopi_translate_listing(text: *const u8, text_len: usize, word: *mut u8, word_len: usize) -> u64;
    fn mudzkvopi_run_source(setting: u32, text: *const u8, text_len: usize, state: *mut u32, state_len: usize, budget: u32) -> u64;
    fn mudzkvopi_run_source_list(setting: u32, list: *const u8, list_len: usize, state: *mut u32, state_len: usize, budget: u32) -> u64;
    fn mudzkvopi_read_word(
        word: *const u8,
        word_len: usize,
        kinds: *mut u8,
        kinds_len: usize,
        operands: *mut u32,
        operands_len: usize,
    ) -> u64;
    fn mudzkvopi_write_word(
        kinds: *const u8,
        kinds_len: usize,
        operands: *const u32,
        operands_len: usize,
        word: *mut u8,
        word_len: usize,
    ) -> u64;
    fn mudzkvopi_run_word(
        capacities: *const u16,
        capacities_len: usize,
        store: *mut u8,
        store_len: usize,
        lengths: *mut u16,
        lengths_len: usize,
        place: *mut i32,
        steps: *mut u32,
        word: *const u8,
        word_len: usize,
        budget: u32,
    ) -> u64;
    fn mudzkvopi_run_table(
        capacities: *const u16,
        capacities_len: usize,
        store: *mut u8,
        store_len: usize,
        lengths: *mut u16,
        lengths_len: usize,
        place: *mut i32,
        steps: *mut u32,
        kinds: *const u8,
        kinds_len: usize,
        operands: *const u32,
        operands_len: usize,
        budget: u32,
    ) -> u64;
    fn mudzkvopi_value(
        capacities: *const u16,
        capacities_len: usize,
        store: *const u8,
        store_len: usize,
        lengths: *const u16,
        lengths_len: usize,
    ) -> u64;
    fn mudzkvopi_report_on(
        text: *const u8,
        text_len: usize,
        sheet: *const u8,
        sheet_len: usize,
        capacities: *const u16,
        capacities_len: usize,
        out: *mut u8,
        out_len: usize,
    ) -> u64;
}

fn unpack(packed: u64) -> Answer {
    let low = packed as u32;
    let high = (packed >> 32) as u32 & 0xff_ffff;
    match packed >> 56 {
        0 => Answer::Done { high, low },
        1 => Answer::Ended(End::Halted, low),
        2 => Answer::Ended(End::Strayed, low),
        3 => Answer::Ended(End::Spent, low),
        4 => Answer::Ended(End::Full, low),
        5 => {
            assert_eq!((high, low), (0, 0), "bits that are not named are 0");
            Answer::Untidy
        }
        _ => Answer::Refused(Refusal { number: high, place: low as usize }),
    }
}

// Each call hands over whole slices, which is all that the entries ask for.

pub fn read_program(setting: u32, text: &[u8], list: &mut [u8]) -> Answer {
    unpack(unsafe { mudzkvopi_read_program(setting, text.as_ptr(), text.len(), list.as_mut_ptr(), list.len()) })
}

pub fn write_program(setting: u32, list: &[u8], text: &mut [u8]) -> Answer {
    unpack(unsafe { mudzkvopi_write_program(setting, list.as_ptr(), list.len(), text.as_mut_ptr(), text.len()) })
}

pub fn translate(setting: u32, form: u32, text: &[u8], word: &mut [u8]) -> Answer {
    unpack(unsafe { mudzkvopi_translate(setting, form, text.as_ptr(), text.len(), word.as_mut_ptr(), word.len()) })
}

pub fn translate_list(setting: u32, form: u32, list: &[u8], word: &mut [u8]) -> Answer {
    unpack(unsafe { mudzkvopi_translate_list(setting, form, list.as_ptr(), list.len(), word.as_mut_ptr(), word.len()) })
}

pub fn translate_listing(text: &[u8], word: &mut [u8]) -> Answer {
    unpack(unsafe { mudzkvopi_translate_listing(text.as_ptr(), text.len(), word.as_mut_ptr(), word.len()) })
}

pub fn run_source(setting: u32, text: &[u8], state: &mut [u32], budget: u32) -> Answer {
    unpack(unsafe { mudzkvopi_run_source(setting, text.as_ptr(), text.len(), state.as_mut_ptr(), state.len(), budget) })
}

pub fn run_source_list(setting: u32, list: &[u8], state: &mut [u32], budget: u32) -> Answer {
    unpack(unsafe { mudzkvopi_run_source_list(setting, list.as_ptr(), list.len(), state.as_mut_ptr(), state.len(), budget) })
}

pub fn read_word(word: &[u8], kinds: &mut [u8], operands: &mut [u32]) -> Answer {
    unpack(unsafe {
        mudzkvopi_read_word(word.as_ptr(), word.len(), kinds.as_mut_ptr(), kinds.len(), operands.as_mut_ptr(), operands.len())
    })
}

pub fn write_word(kinds: &[u8], operands: &[u32], word: &mut [u8]) -> Answer {
    unpack(unsafe { mudzkvopi_write_word(kinds.as_ptr(), kinds.len(), operands.as_ptr(), operands.len(), word.as_mut_ptr(), word.len()) })
}

/// What a machine runs: a word, or the kinds and operands of a table.
#[derive(Clone, Copy)]
pub enum Code<'a> {
    Word(&'a [u8]),
    Table(&'a [u8], &'a [u32]),
}

pub fn run(machine: &mut Machine, code: Code, budget: u32) -> Answer {
    let Machine { capacities, store, lengths, place, steps } = machine;
    let (capacities, registers) = (capacities.as_ptr(), capacities.len());
    let (store, size, lengths, count) = (store.as_mut_ptr(), store.len(), lengths.as_mut_ptr(), lengths.len());
    unpack(unsafe {
        match code {
            Code::Word(word) => {
                let (word, len) = (word.as_ptr(), word.len());
                mudzkvopi_run_word(capacities, registers, store, size, lengths, count, place, steps, word, len, budget)
            }
            Code::Table(kinds, operands) => {
                let (kinds, k, operands, o) = (kinds.as_ptr(), kinds.len(), operands.as_ptr(), operands.len());
                mudzkvopi_run_table(capacities, registers, store, size, lengths, count, place, steps, kinds, k, operands, o, budget)
            }
        }
    })
}

pub fn value(machine: &Machine) -> Answer {
    let Machine { capacities, store, lengths, .. } = machine;
    unpack(unsafe { mudzkvopi_value(capacities.as_ptr(), capacities.len(), store.as_ptr(), store.len(), lengths.as_ptr(), lengths.len()) })
}

pub fn report_on(text: &[u8], sheet: &[u8], capacities: &[u16], out: &mut [u8]) -> Answer {
    let (text, t, sheet, s) = (text.as_ptr(), text.len(), sheet.as_ptr(), sheet.len());
    unpack(unsafe { mudzkvopi_report_on(text, t, sheet, s, capacities.as_ptr(), capacities.len(), out.as_mut_ptr(), out.len()) })
}

/// The run tool that RUN_TOOL names, and a folder for its files, which goes when this does.
pub struct RunTool {
    path: PathBuf,
    folder: PathBuf,
}

impl RunTool {
    /// `name` keeps folders of one process apart.
    pub fn new(name: &str) -> RunTool {
        let path = env::var_os("RUN_TOOL").expect("RUN_TOOL names the run tool").into();
        let folder = env::temp_dir().join(format!("{name}-{}", process::id()));
        fs::create_dir_all(&folder).expect("a folder for the run tool");
        RunTool { path, folder }
    }

    /// What it prints for a program and a sheet.
    pub fn run(&self, text: &[u8], sheet: &[u8]) -> String {
        fs::write(self.folder.join("program.txt"), text).expect("a file in the folder");
        fs::write(self.folder.join("sheet.txt"), sheet).expect("a file in the folder");
        let output = Command::new(&self.path).current_dir(&self.folder).output().expect("the run tool runs");
        String::from_utf8_lossy(&output.stdout).into_owned()
    }
}

impl Drop for RunTool {
    fn drop(&mut self) {
        fs::remove_dir_all(&self.folder).ok();
    }
}
