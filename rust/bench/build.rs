//! Compiles engines.c, as a program in C would be; the library comes with the crate.

use std::env;
use std::process::Command;

fn main() {
    let out = env::var("OUT_DIR").unwrap();
    let run = |tool: &str, usual: &str, words: &[&str]| {
        let tool = env::var(tool).unwrap_or_else(|_| usual.into());
        assert!(Command::new(&tool).args(words).status().unwrap().success(), "{tool}");
    };
    let (object, archive) = (format!("{out}/engines.o"), format!("{out}/libengines.a"));
    let flags = ["-std=gnu11", "-O2", "-Wall", "-Wextra", "-fPIC", "-I../../c/include"];
    run("CC", "cc", &[&flags[..], &["-c", "engines.c", "-o", &object]].concat());
    run("AR", "ar", &["crs", &archive, &object]);
    println!("cargo:rustc-link-search=native={out}");
    println!("cargo:rustc-link-lib=static=engines");
    println!("cargo:rerun-if-changed=engines.c");
    println!("cargo:rerun-if-changed=../../c");
}
