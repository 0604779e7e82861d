//! What the sources may not say. The exported macros are expanded among names that aren't the crate's. So they hold no `unsafe`,
//! which would trust these names; call nothing by method syntax, where a trait of the caller's may come first; and begin each path
//! with `$crate` or `::core`. And each type of a class is invariant in it.

#![forbid(unsafe_code)]

use std::fs;
use std::path::{Path, PathBuf};

/// A word, a number with what follows it, a string, or one other character.
fn tokens(text: &str) -> Vec<&str> {
    let is_word = |c: char| c.is_alphanumeric() || c == '_';
    let (mut tokens, mut rest) = (Vec::new(), text);
    while let Some(first) = rest.chars().next() {
        let length = if rest.starts_with("//") {
            rest.find('\n').unwrap_or(rest.len())
        } else if first == '"' {
            2 + rest[1..].find('"').expect("a string ends")
        } else if is_word(first) {
            rest.find(|c| !is_word(c)).unwrap_or(rest.len())
        } else {
            first.len_utf8()
        };
        let (token, after) = rest.split_at(length);
        if !token.starts_with("//") && !first.is_whitespace() {
            tokens.push(token);
        }
        rest = after;
    }
    tokens
}

/// The exported macros of a file: their names, and the tokens between their braces.
fn exported(text: &str) -> Vec<(&str, Vec<&str>)> {
    let mut found = Vec::new();
    for part in text.split("\n#[macro_export]\n").skip(1) {
        let body = &part[..part.find("\n}\n").expect("a macro ends")];
        let mut tokens = tokens(body.strip_prefix("macro_rules! ").expect("it is a macro by example"));
        found.push((tokens[0], tokens.split_off(2)));
    }
    found
}

/// What the caller's names may change in an expansion.
fn faults(tokens: &[&str]) -> Vec<String> {
    const OF_THE_LANGUAGE: [&str; 10] =
        ["async", "await", "break", "derive", "enum", "fn", "impl", "let", "loop", "match"];
    let mut faults = Vec::new();
    let at = |index: usize| tokens.get(index).copied().unwrap_or("");
    for (index, token) in tokens.iter().enumerate() {
        let (before, next) = (at(index.wrapping_sub(1)), at(index + 1));
        let is_name = token.starts_with(|c: char| c.is_alphabetic() || c == '_') && !OF_THE_LANGUAGE.contains(token);
        let is_path = next == ":" && at(index + 2) == ":";
        if *token == "unsafe" {
            faults.push("unsafe".into());
        } else if before == "." && is_name && (next == "(" || is_path) {
            faults.push(format!(".{token}()"));
        } else if is_name && ["$", ":", "fn"].contains(&before) {
            // A fragment or a place of one in a pattern; a function of the macro's own; or after `::`, whose first name counts.
            let is_root = before == ":" && at(index.wrapping_sub(2)) == ":" && {
                let root = at(index.wrapping_sub(3));
                !root.starts_with(|c: char| c.is_alphanumeric() || c == '_' || c == '>')
            };
            if is_root && *token != "core" {
                faults.push(format!("::{token}"));
            }
        } else if is_name && (["!", "("].contains(&next) || is_path) {
            faults.push((*token).into());
        }
    }
    faults
}

fn sources(folder: &Path, found: &mut Vec<PathBuf>) {
    for entry in fs::read_dir(folder).unwrap() {
        let path = entry.unwrap().path();
        if path.is_dir() {
            sources(&path, found);
        } else {
            found.push(path);
        }
    }
}

fn texts() -> Vec<String> {
    let mut files = Vec::new();
    sources(&Path::new(env!("CARGO_MANIFEST_DIR")).join("src"), &mut files);
    files.into_iter().map(|file| fs::read_to_string(file).unwrap()).collect()
}

/// A `PhantomData` of a class by which a type isn't invariant in it.
fn lends(text: &str) -> bool {
    let once = text.replace("OfClass<C> = PhantomData<fn(C) -> C>", "");
    once.split("PhantomData<").skip(1).any(|it| {
        let end = it.find(['\n', ';', ',']).unwrap_or(it.len());
        it[..end].split(|c: char| !c.is_alphanumeric()).any(|word| word == "C")
    })
}

#[test]
fn each_type_of_a_class_is_invariant() {
    assert!(!texts().iter().any(|text| lends(text)));
    assert!(lends("class: PhantomData<fn() -> C>,") && lends("PhantomData<*mut C>") && !lends("PhantomData<*mut T>,"));
}

#[test]
fn nothing_is_left_to_the_callers_names() {
    let (mut names, mut all) = (Vec::new(), Vec::new());
    for text in texts() {
        for (name, tokens) in exported(&text) {
            names.push(name.to_string());
            all.extend(faults(&tokens).into_iter().map(|fault| format!("{name}!: {fault}")));
        }
    }
    names.sort();
    assert_eq!(names, ["class", "transaction"]);
    assert!(all.is_empty(), "{all:?}");
}

/// One of each kind is found.
#[test]
fn planted_faults_are_found() {
    let told = |body: &str| faults(&exported(&format!("\n#[macro_export]\nmacro_rules! m {{\n{body}\n}}\n"))[0].1);
    let none: [&str; 0] = [];
    assert_eq!(
        told("($x:expr) => { $crate::f::<u8>(&mut $x).await; // unsafe f(x.g())\n ::core::iter::empty() };"),
        none
    );
    assert_eq!(told("($x:expr) => { let y = unsafe { $crate::f($x) }; };"), ["unsafe"]);
    assert_eq!(told("($x:ident) => { match $x.begin_now_() { y => y } };"), [".begin_now_()"]);
    assert_eq!(told("($x:ident) => { $x.into::<u8>() };"), [".into()"]);
    assert_eq!(told("($x:expr) => { concat!(\"it's \", $x) };"), ["concat"]);
    assert_eq!(told("($x:expr) => { match $x { Ok(x) => x, other => other } };"), ["Ok"]);
    assert_eq!(told("($x:expr) => { Result::map($x) };"), ["Result"]);
    assert_eq!(told("($x:expr) => { ::std::mem::drop($x) };"), ["::std"]);
}
