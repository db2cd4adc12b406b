//! Listings at the limits of rules 1 to 4, 22 and 19, alone and with faults of each other, and listings to be run.

use super::lines;
use crate::listing::{self, Line, LINES};
use crate::machine::REGISTERS;
use crate::program::BYTES;

/// Lines that are nearly one of a listing.
pub const NEARLY: [&str; 58] = [
    "",
    " ",
    "P",
    "P1",
    "P#",
    "P1 ",
    "P# ",
    "P1  1",
    " P1 1",
    "P1 1 ",
    "P1 1 1",
    "P# 1 1",
    "P1 1 1 1",
    "P11",
    "P#1",
    "P 1",
    "P0 1",
    "P2 1",
    "P11 1",
    "P## 1",
    "P1# 1",
    "p1 1",
    "p# 1",
    "#1 1",
    "P1\t1",
    "P1,1",
    "P1(1)",
    "P1 1.",
    "P1 X1",
    "P1 1'",
    "P1 one",
    "P1 1\r",
    "P1 1\0",
    "P1 \u{661}",
    "\0",
    "Scd",
    "Scd ",
    "Scd 1",
    "Scd 1 ",
    "Scd 1 1",
    "Scd 1 1 ",
    "Scd 1 1 1 ",
    "Scd 1 1 1 1",
    "Scd  1 1 1",
    "Scd 1  1 1",
    "Scd 1 1  1",
    " Scd 1 1 1",
    "Scd1 1 1",
    "Scd 1,1,1",
    "Scd 1[1,1]",
    "Scd\t1 1 1",
    "Scd 1 1 1\r",
    "scd 1 1 1",
    "SCD 1 1 1",
    "Sc 1 1 1",
    "Scdd 1 1 1",
    "X0 <- 0",
    "loop X0",
];

/// Numbers where those of 8, 16, 32, 64 or 128 bits start anew, and what is no numeral.
const ANEW: [&str; 12] = [
    "256",
    "257",
    "320",
    "65535",
    "65536",
    "65537",
    "4294967297",
    "4294967360",
    "18446744073709551615",
    "18446744073709551617",
    "18446744073709551680",
    "340282366920938463463374607431768211457",
];
const NO_NUMERALS: [&str; 10] = ["", "00", "01", "064", "+1", "-1", "1'", "x", "1x", "#"];

/// Listings that halt or go on for ever, each with what registers 1 to 3 hold: the first moves register 2 to the end of register 1.
pub const SAMPLES: [(&str, [&str; 3]); 12] = [
    ("P1 3\nScd 3 7 7\nP1 1\nP1 3\nScd 3 7 7\nP# 1\nScd 2 3 6\n", ["#", "1#", ""]),
    ("P1 3\nScd 3 7 7\nP1 1\nP1 3\nScd 3 7 7\nP# 1\nScd 2 3 6\n", ["", "", "#"]),
    ("", ["1", "#", ""]),
    ("P1 1\n", ["#", "", ""]),
    ("P# 2\nP1 2\n", ["", "1", ""]),
    ("Scd 1 2 2\n", ["11", "", ""]),
    ("Scd 1 1 1\n", ["1#1", "#", ""]),
    ("Scd 1 1 2\n", ["11#1", "", ""]),
    ("Scd 1 2 1\n", ["##1#", "", ""]),
    ("Scd 2 1 3\nScd 1 3 1\n", ["#1", "1#1", ""]),
    ("P# 1\nScd 1 2 1\n", ["11", "", ""]),
    ("P1 2\nScd 1 1 3\nScd 2 1 2\nP# 3\n", ["1#1#", "", "1"]),
];

/// The registers of a sample.
pub fn contents(registers: [&str; 3]) -> Vec<Vec<u8>> {
    registers.map(|symbols| symbols.as_bytes().to_vec()).to_vec()
}

/// As many lines as there may be, each an Scd whose targets are both the first line or both the line after the last, whichever is further.
pub fn largest() -> Vec<Line> {
    let further = |at: usize| if at <= LINES / 2 { LINES as u64 + 1 } else { 1 };
    (1..=LINES).map(|at| Line::Scan { register: REGISTERS, on_one: further(at), on_hash: further(at) }).collect()
}

/// So many lines, with one of them, counted from 1, in place of another.
fn with_line(count: usize, at: usize, line: &str) -> Vec<u8> {
    let mut all = vec!["P1 1".to_string(); count];
    all[at - 1] = line.into();
    lines(&all)
}

/// Numbers of registers within the limits, outside them, and none.
fn registers() -> Vec<String> {
    let small = (0..=REGISTERS + 2).chain([99, 100, 255]).map(|n| n.to_string());
    small.chain(ANEW.into_iter().chain(NO_NUMERALS).map(String::from)).collect()
}

/// Targets in a listing of so many lines within the limits, outside them, and none.
fn targets(count: usize) -> Vec<String> {
    let near = [0, 1, 2, count - 1, count, count + 1, count + 2, count + 3, 10 * count, 10 * count + 10, LINES + 1, LINES + 2];
    let near = near.into_iter().map(|n| n.to_string()).chain([format!("0{count}"), format!("{count}0")]);
    near.chain(ANEW.into_iter().chain(NO_NUMERALS).map(String::from)).collect()
}

/// Each register in each kind of line; each two targets in short listings; in longer ones each target in the first line and in the last.
fn numbers() -> Vec<Vec<u8>> {
    let mut found = Vec::new();
    for n in registers() {
        found.extend([format!("P1 {n}"), format!("P# {n}"), format!("Scd {n} 1 2"), format!("Scd {n} 0 3")].map(|line| lines(&[line])));
    }
    for count in [1, 2, 8] {
        for (e, f) in targets(count).iter().flat_map(|e| targets(count).into_iter().map(move |f| (e.clone(), f))) {
            found.push(with_line(count, count, &format!("Scd 1 {e} {f}")));
        }
    }
    for count in [9, 10, 98, 99, 100, LINES - 2, LINES - 1, LINES] {
        for (target, at) in targets(count).into_iter().flat_map(|target| [1, count].map(|at| (target.clone(), at))) {
            found.push(with_line(count, at, &format!("Scd 1 {target} 1")));
            found.push(with_line(count, at, &format!("Scd 64 {} {target}", count + 1)));
        }
    }
    found
}

/// Two lines, each good or turned down by 4, by 22, or by the first of both; line 3 is the one after them.
fn faults() -> Vec<Vec<u8>> {
    let kinds =
        ["P# 64", "Scd 1 3 1", "z", "", "P1 0", "P# 65", "Scd 1 0 1", "Scd 1 1 4", "Scd 1 0 4", "Scd 65 0 4", "Scd 1 01 9", "Scd 1 9 01"];
    kinds.into_iter().flat_map(|first| kinds.map(|second| lines(&[first.into(), second.into()]))).collect()
}

/// Listings of as many lines as there may be, and of more, good or not.
fn long() -> Vec<Vec<u8>> {
    let mut found = Vec::new();
    for count in [1, 2, LINES - 1, LINES, LINES + 1, LINES + 2, 511, 512, 513] {
        for line in ["P1 64".to_string(), "P# 1".into(), "".into(), format!("Scd 64 1 {}", count + 1), format!("Scd 1 {} 1", count + 2)] {
            found.push(lines(&vec![line; count]));
        }
        for at in [1, count] {
            found.extend(["z", "Scd 1 0 1", "Scd 0 1 1"].map(|line| with_line(count, at, line)));
            found.extend([count, count + 1, count + 2].map(|target| with_line(count, at, &format!("Scd 1 1 {target}"))));
        }
    }
    for target in [1, LINES / 2, LINES + 1] {
        found.push(lines(&vec![format!("Scd {REGISTERS} {target} {target}"); LINES]));
    }
    found
}

/// Texts of as many bytes as there may be, and of more.
fn wide() -> Vec<Vec<u8>> {
    let mut found = Vec::new();
    for size in BYTES - 1..=BYTES + 2 {
        for byte in [b'\n', b'P', b'7', b' ', b'\0', 0xff] {
            found.push(vec![byte; size]);
            for (front, back) in [("P1 ", "\n"), ("Scd 1 1 ", "\n"), ("Scd 1 ", " 1\n"), ("Scd ", " 1 1\n"), ("P1 1\nScd 1 3 1", "\n")] {
                let between = vec![byte; size - front.len() - back.len()];
                found.push([front.as_bytes(), &between, back.as_bytes()].concat());
            }
        }
    }
    // 64 bytes a line, of which a text has room for 256; and 63
    for (digits, count) in [(55, LINES - 1), (55, LINES), (55, LINES + 1), (54, LINES), (54, LINES + 1)] {
        found.push(lines(&vec![format!("Scd 1 1 {}", "7".repeat(digits)); count]));
    }
    found
}

/// Lines that are nearly one of a listing, alone, and before and after faults of 22; and the samples.
fn short() -> Vec<Vec<u8>> {
    let mut found: Vec<Vec<u8>> = SAMPLES.map(|(text, _)| text.into()).to_vec();
    for line in NEARLY {
        found.push(lines(&[line.into()]));
        found.push(lines(&["P1 1".into(), line.into(), "Scd 1 0 1".into()]));
        found.push(lines(&["Scd 1 9 1".into(), line.into()]));
    }
    found
}

/// Listings' texts, good or not; some without their last LF too.
pub fn texts() -> Vec<Vec<u8>> {
    let whole = [faults(), long(), wide(), short(), vec![listing::write(&largest())]].concat();
    let cut: Vec<_> = whole.iter().map(|t| t[..t.len().saturating_sub(1)].to_vec()).collect();
    [numbers(), whole, cut].concat()
}
