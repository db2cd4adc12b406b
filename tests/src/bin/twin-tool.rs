//! The run tool once more, on the twin: prints the report of the folder that is given, or with `label` before it the label.

use std::{env, fs, path::Path};
use twin::tool;

fn main() {
    let mut arguments: Vec<String> = env::args().skip(1).collect();
    let folder = arguments.pop().unwrap_or_else(|| ".".into());
    let file = |name: &str| fs::read(Path::new(&folder).join(name)).unwrap_or_default();
    if arguments == ["label"] {
        print!("{}", tool::label(&file("program.txt")));
    } else {
        print!("{}", tool::report(&file("program.txt"), &file("sheet.txt")));
    }
}
