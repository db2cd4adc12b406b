//! Where the feature `library` asks for them: links the library's C entries, and the plain C that the benchmark compares them with.

use std::env;
use std::path::Path;
use std::process::Command;

fn main() {
    println!("cargo:rerun-if-env-changed=MUDZKVOPI_LIB");
    println!("cargo:rerun-if-changed=plain.c");
    if env::var_os("CARGO_FEATURE_LIBRARY").is_some() {
        let folder = env::var("MUDZKVOPI_LIB").expect("MUDZKVOPI_LIB names the folder of libhost.a");
        println!("cargo:rerun-if-changed={folder}/libhost.a");
        println!("cargo:rustc-link-search=native={folder}");
        println!("cargo:rustc-link-lib=static=host");
        plain();
    }
}

/// Compiles plain.c into an archive of its own.
fn plain() {
    let out = env::var("OUT_DIR").expect("a folder for what is built");
    let (object, archive) = (Path::new(&out).join("plain.o"), Path::new(&out).join("libplain.a"));
    let run = |command: &mut Command| assert!(command.status().expect("a C compiler and ar").success());
    run(Command::new("cc").args(["-std=c99", "-O3", "-Wall", "-Wextra", "-c", "plain.c", "-o"]).arg(&object));
    run(Command::new("ar").arg("rcs").arg(&archive).arg(&object));
    println!("cargo:rustc-link-search=native={out}");
    println!("cargo:rustc-link-lib=static=plain");
}
