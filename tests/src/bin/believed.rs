//! Writes the list of what must be believed into docs/PROMISES.md of the repository whose folder is given.

use std::path::Path;
use std::{env, fs};
use twin::believed::{put_into, table};

fn main() {
    let root = env::args().nth(1).unwrap_or_else(|| ".".into());
    let root = Path::new(&root);
    let page = root.join("docs/PROMISES.md");
    let text = fs::read_to_string(&page).expect("the page");
    let table = table(root);
    print!("{table}");
    fs::write(&page, put_into(&text, &table)).expect("the page can be written");
}
