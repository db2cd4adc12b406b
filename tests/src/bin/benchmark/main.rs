//! The library against the twin, and words read and written against plain C: the same work on the same input, all built for release, in one
//! run. `benchmark [FOLDER]` prints the tables of docs/MEASURES.md; where its folder is given they are put there, behind the line of MARK,
//! and speed.svg and growth.svg are drawn.

mod pictures;
mod timing;
mod works;

use std::path::Path;
use std::time::Duration;
use std::{env, fs};
use timing::{measure, Row, Work};
use twin::cases::{PLAIN, TIDY};
use twin::edges::listings::{self, SAMPLES};
use twin::edges::returns::{never_the_same, to_and_fro};
use twin::listing;
use twin::machine::Machine;
use twin::translation::forward;
use twin::word::spell;
use works::*;

const MARK: &str = "<!-- What follows is written by tests/benchmark. -->\n";

/// One kind of work, by how many lines, loops or symbols its input has, and what its time is divided by.
pub struct Growth {
    pub name: &'static str,
    pub by: &'static str,
    pub each: &'static str,
    pub sizes: Vec<usize>,
}

/// A kind of work, and its times for each of its sizes.
pub type Grown<'a> = (&'a Growth, &'a [Row]);

fn micros(time: Duration) -> String {
    format!("{:.2} µs", time.as_secs_f64() * 1e6)
}

fn speed() -> Vec<Work> {
    let largest = nested(16, 480);
    let moving = moving_word();
    let unequal = Machine::fresh(&[60, 1024], &[vec![b'1'; 60]]);
    let first = |length: usize| Machine::alike(2, 1024, &[vec![b'1'; length]]);
    let sixty = |r: usize, registers: usize| Machine::alike(registers, 1024, &[vec![vec![]; r - 1], vec![vec![b'1'; 60]]].concat());
    let growing = |a: usize, b: usize, c: usize| spell(&never_the_same(a, b, c, &[forward(1)]));
    vec![
        reading("read 6 lines", 6, MULTIPLY),
        reading("read 512 lines", 512, &largest),
        reading("read 512 lines in primes, 16,384 bytes", 512, &in_primes()),
        writing("write 512 lines", 512, &largest),
        translating("translate 6 lines", 6, PLAIN, as_text(MULTIPLY)),
        translating("translate 6 lines, tidy", 6, TIDY, as_text(MULTIPLY)),
        translating("translate the largest, 311,044 symbols", 512, PLAIN, as_text(&largest)),
        translating("translate the largest, tidy, 312,067 symbols", 512, TIDY, as_text(&largest)),
        translating("translate the largest, from its list", 512, PLAIN, as_list(&largest)),
        translating_listing("translate a listing of 7 lines", 7, SAMPLES[0].0.as_bytes()),
        translating_listing("translate the largest listing, 414,212 symbols", 256, &listing::write(&listings::largest())),
        running_source("source run, 1,862 steps", as_text(MULTIPLY), &[0, 30, 30]),
        running_source("source run, 100,000 steps", as_text(BUSY), &[0, 100]),
        running_source("source run, 100,000 steps, from a list", as_list(BUSY), &[0, 100]),
        reading_word("read a word of 100,000 symbols", 0, &cases_word(100_000)),
        writing_word("write a word of 100,000 symbols", 0, &cases_word(100_000)),
        running_word("word run, 100,000 steps, 1,000 symbols", 0, &moving, &first(1000), false),
        running_word("word run, 100,000 steps, 60 symbols", 0, &moving, &first(60), false),
        running_word("word run, 100,000 steps, 6 symbols", 0, &moving, &first(6), false),
        running_word("word run, 1 step, 64 registers of 1,024", 0, b"1###", &Machine::alike(64, 1024, &[]), false),
        running_word("word run, 100,000 steps, 60 symbols, unequal", 0, &moving, &unequal, false),
        running_word("table run, 100,000 steps, 60 symbols", 0, &moving, &first(60), true),
        running_word("table run, 1 step, 64 registers of 1,024", 0, b"1###", &Machine::alike(64, 1024, &[]), true),
        running_program("word run, 100,000 steps, copies of 1,000", COPIES, &[1000], STEPS),
        running_program("word run, 100,000 steps, copies of 100", COPIES, &[100], STEPS),
        running_program("word run, 100,000 steps, copies of 6", COPIES, &[6], STEPS),
        running_program("word run, 100,000 steps, copies of 1", COPIES, &[1], STEPS),
        running_program("word run, a product of 30 and 30", MULTIPLY, &[0, 30, 30], STEPS),
        running_program("word run, the predecessor of 100", PREDECESSOR, &[0, 100], STEPS),
        running_program("word run, 10 loops of 2 in one another", &loops(10), &[0, 2], STEPS),
        running_word("word run, 100,000 steps, 60 ones, other loops", 0, &spell(&to_and_fro(1, 2)), &first(60), false),
        running_word("word run, 100,000 steps, no return", 0, &growing(1, 2, 3), &sixty(1, 3), false),
        running_word("word run, no return, 64 registers", 0, &growing(62, 63, 64), &sixty(62, 64), false),
        running_program("word run, 1,000,000 steps, copies to itself", TO_ITSELF, &[0, 1], 1_000_000),
        running_program("word run, 1,000,000 steps, copies of 100", COPIES, &[100], 1_000_000),
        valuing("value, 64 registers of 1,024", &Machine::alike(64, 1024, &[vec![b'1'; 1024]])),
    ]
}

fn reports() -> Vec<Work> {
    let spent = "\n".repeat(4096);
    vec![
        reporting_products("report of no runs: start-up", 0),
        reporting_products("report of 6 runs", 6),
        reporting_products("report of 400 runs", 400),
        reporting("report of 4,095 runs, all spent", 4095, SPENT, &spent).once(),
    ]
}

fn against_plain_c() -> Vec<Work> {
    let (cases, largest) = (cases_word(100_000), word_of(&nested(16, 480)));
    vec![
        reading_plainly("read a word of 100,000 symbols, 45 an instruction", &cases),
        reading_plainly("read the largest program's word, 311,044 symbols", &largest),
        reading_plainly("read a word of the shortest instructions", &b"1#".repeat(8192)),
        writing_plainly("write a word of 100,000 symbols, 45 an instruction", &cases),
        writing_plainly("write the largest program's word, 311,044 symbols", &largest),
        writing_plainly("write a word of the shortest instructions", &b"1#".repeat(8192)),
    ]
}

/// The kinds of growth, and their works one after the other.
fn growths() -> (Vec<Growth>, Vec<Work>) {
    let lines = [8, 16, 32, 64, 128, 256, 512];
    let depths = [1, 2, 4, 8, 16];
    let sizes = [1_000, 3_000, 10_000, 30_000, 100_000, 300_000];
    let translated = [10_000, 20_000, 50_000, 100_000, 200_000, 300_000];
    let deep = |depth: usize| nested(depth, 512 - 2 * depth);
    let translate = |text: Vec<u8>| translating("", word_of(&text).len(), PLAIN, as_text(&text));
    let machine = Machine::alike(64, 16, &[]);
    let (mut growths, mut works) = (Vec::new(), Vec::new());
    let mut growth = |name, by, each, sizes: &[usize], work: &dyn Fn(usize) -> Work| {
        growths.push(Growth { name, by, each, sizes: sizes.to_vec() });
        works.extend(sizes.iter().map(|&size| work(size)));
    };
    growth("read plain lines", "lines", "line", &lines, &|n| reading("", n, &nested(0, n)));
    growth("translate plain lines", "lines", "line", &lines, &|n| translating("", n, PLAIN, as_text(&nested(0, n))));
    growth("read 512 lines", "loops", "line", &depths, &|depth| reading("", 512, &deep(depth)));
    growth("translate 512 lines", "loops", "symbol", &depths, &|depth| translate(deep(depth)));
    growth("translate in 16 loops", "symbols", "symbol", &translated, &|n| translate(in_16_loops(n)));
    growth("read a word", "symbols", "symbol", &sizes, &|n| reading_word("", n, &cases_word(n)));
    growth("run a word", "symbols", "symbol", &sizes, &|n| running_word("", n, &cases_word(n), &machine, false));
    (growths, works)
}

fn speed_table(rows: &[Row], other: &str) -> String {
    let line = |row: &Row| format!("| {} | {} | {} | {:.2} |\n", row.name, micros(row.library), micros(row.other), row.ratio());
    format!("| Work | Library | {other} | Ratio |\n|---|---|---|---|\n{}\n", rows.iter().map(line).collect::<String>())
}

fn growth_table((growth, rows): &Grown) -> String {
    let Growth { name, by, each, sizes } = growth;
    let part = |time: Duration, row: &Row| format!("{:.2} ns", time.as_secs_f64() * 1e9 / row.size as f64);
    let line = |(size, row): (&usize, &Row)| {
        format!("| {size} | {} | {} | {} | {} |\n", micros(row.library), micros(row.other), part(row.library, row), part(row.other, row))
    };
    let head = format!("| {name}, {by} | Library | Twin | Library, a {each} | Twin, a {each} |\n|---|---|---|---|---|\n");
    head + &sizes.iter().zip(*rows).map(line).collect::<String>() + "\n"
}

fn main() {
    let (speed, reports, plain) = (speed(), reports(), against_plain_c());
    let (growths, grown) = growths();
    let counts = [speed.len(), reports.len(), plain.len()];
    let rows = measure(speed.into_iter().chain(reports).chain(plain).chain(grown).collect());
    let (speed, rest) = rows.split_at(counts[0]);
    let (reports, rest) = rest.split_at(counts[1]);
    let (plain, mut rest) = rest.split_at(counts[2]);
    let grown: Vec<Grown> = growths
        .iter()
        .map(|growth| {
            let (rows, others) = rest.split_at(growth.sizes.len());
            rest = others;
            (growth, rows)
        })
        .collect();
    let tables = format!(
        "\n{}![times of the library, the twin's = 1](speed.svg)\n\n## Words, against plain C\n\n{}## The whole report\n\n{}\
         ## Growth\n\n![times against sizes](growth.svg)\n\n{}",
        speed_table(speed, "Twin"),
        speed_table(plain, "Plain C"),
        speed_table(reports, "Twin"),
        grown.iter().map(growth_table).collect::<String>().trim_end().to_string() + "\n"
    );
    print!("{tables}");
    let Some(folder) = env::args().nth(1) else { return };
    let file = |name: &str| Path::new(&folder).join(name);
    let page = fs::read_to_string(file("MEASURES.md")).expect("the page");
    let (above, _) = page.split_once(MARK).expect("the page's mark");
    fs::write(file("MEASURES.md"), format!("{above}{MARK}{tables}")).expect("the page can be written");
    fs::write(file("speed.svg"), pictures::speed(&speed.iter().chain(reports).collect::<Vec<_>>())).expect("the picture can be written");
    fs::write(file("growth.svg"), pictures::growth(&grown)).expect("the picture can be written");
}
