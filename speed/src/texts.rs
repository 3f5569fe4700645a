//! The texts: licences that Debian's packages install, notes made of them, and notes made to be slow.

use std::collections::{BTreeMap, HashSet};
use std::fs;

pub const MOST: usize = 1 << 20;
const LINES_MOST: usize = 1 << 16;
/// shorter ones are mostly references to another text
const SHORTEST: usize = 100;

pub type Shelf = BTreeMap<String, String>;

fn ascii(path: &std::path::Path) -> String {
    let bytes = fs::read(path).unwrap_or_default();
    bytes.into_iter().filter(|b| b.is_ascii()).map(char::from).collect()
}

/// base-files' common licences, and the licence paragraphs of all installed machine-readable copyright files; of equal names and of equal texts the first.
pub fn debian() -> Shelf {
    let mut found = common();
    let mut files: Vec<_> = fs::read_dir("/usr/share/doc").expect("/usr/share/doc").map(|e| e.unwrap().path().join("copyright")).collect();
    files.sort();
    for file in files {
        let text = ascii(&file);
        if text.lines().take(5).any(|l| l.starts_with("Format:") && l.contains("copyright-format")) {
            paragraphs(&text, &mut found);
        }
    }
    let mut shelf = Shelf::new();
    let mut texts = HashSet::new();
    for (name, text) in found {
        if texts.insert(text.split_whitespace().collect::<String>().to_lowercase()) {
            shelf.entry(name).or_insert(text);
        }
    }
    shelf
}

fn common() -> Vec<(String, String)> {
    let folder = fs::read_dir("/usr/share/common-licenses").expect("common licences");
    let files = folder.map(|e| e.unwrap()).filter(|e| e.file_type().unwrap().is_file());
    let mut all: Vec<_> = files.map(|e| (e.file_name().into_string().unwrap(), ascii(&e.path()))).collect();
    all.sort();
    all
}

/// `License: NAME` and the indented lines below it, ` .` for a blank one.
fn paragraphs(text: &str, found: &mut Vec<(String, String)>) {
    let mut lines = text.lines().peekable();
    while let Some(line) = lines.next() {
        let Some(name) = line.strip_prefix("License:") else { continue };
        let mut body = String::new();
        while let Some(more) = lines.next_if(|l| l.starts_with([' ', '\t'])) {
            body += if more.trim() == "." { "" } else { &more[1..] };
            body.push('\n');
        }
        let name: String = name.trim().chars().map(|c| if c.is_ascii_graphic() { c } else { '_' }).take(64).collect();
        if !name.is_empty() && body.len() >= SHORTEST && body.len() <= MOST {
            found.push((name, body));
        }
    }
}

/// Of the longest `count` texts, `times` of each: the text, then the text with every 11th, 12th.. word made another.
pub fn grown(shelf: &Shelf, count: usize, times: usize) -> Shelf {
    let mut by_length: Vec<_> = shelf.iter().collect();
    by_length.sort_by_key(|(name, text)| (std::cmp::Reverse(text.len()), *name));
    let mut out = Shelf::new();
    for (name, text) in by_length.into_iter().take(count) {
        for k in 0..times {
            let stem: String = name.chars().take(60).collect();
            out.insert(format!("{stem}~{k}"), if k == 0 { text.clone() } else { edited(text, 10 + k) });
        }
    }
    out
}

fn edited(text: &str, every: usize) -> String {
    let lines = text.split('\n').scan(0, |at, line| {
        let words = line.split(' ').map(|word| {
            *at += 1;
            if *at % every == 0 { format!("v{every}{word}") } else { word.to_string() }
        });
        Some(words.collect::<Vec<_>>().join(" "))
    });
    lines.collect::<Vec<_>>().join("\n")
}

// ---- notes

pub fn notes(shelf: &Shelf) -> Vec<(&'static str, String)> {
    let text = |name: &str| shelf.get(name).unwrap_or_else(|| panic!("no {name} among the installed texts")).clone();
    let mit = text(if shelf.contains_key("Expat") { "Expat" } else { "MIT" });
    let header = "// Copyright 2020 A. Nobody\n// Licensed under the Apache License, Version 2.0, see the file LICENSE\n// for what it permits and what it limits.\n";
    let mut mass = String::new();
    for licence in shelf.values().cycle() {
        if mass.len() + licence.len() + 1 > MOST {
            break;
        }
        mass += licence;
        mass.push('\n');
    }
    let source = commented(&mit) + &code(60) + &commented(&text("BSD")) + &code(40);
    vec![("3-line header", header.into()), ("MIT", mit), ("Apache-2.0", text("Apache-2.0")), ("GPL-3", text("GPL-3")), ("source, two licences", source), ("1 MiB of licences", mass)]
}

fn commented(text: &str) -> String {
    text.lines().map(|line| format!(" * {line}\n")).collect()
}

fn code(lines: usize) -> String {
    (0..lines).map(|i| format!("    if (table[{i}].count > limit_{}) total += weigh(table[{i}].name, {});\n", i % 7, i * 37 % 101)).collect()
}

// ---- hostile notes: each as long as the limits let it be

pub fn hostile() -> Vec<(&'static str, String)> {
    let lines = |make: &dyn Fn(usize) -> String| cut((0..LINES_MOST).map(make).collect::<Vec<_>>().join("\n"));
    vec![
        ("one line of words", filled("permission is hereby granted ")),
        ("one word", filled("a")),
        ("65,536 lines", lines(&|i| format!("line {:010}", i * 7919 % LINES_MOST))),
        ("32,768 prefixes", lines(&|i| format!("p{:012} {}", (i / 2) * 7919 % 32768, i % 2))),
        ("65,535 newlines", "\n".repeat(LINES_MOST - 1)),
        ("blank lines of spaces", lines(&|_| " ".repeat(15))),
        ("copyright lines", lines(&|_| "copyright 20201".into())),
        ("copyright, one line", filled("copyright ")),
        ("license version", filled("license version ")),
        ("license lines", lines(&|_| "license version".into())),
        ("URLs only", filled("http://a ")),
        ("shortest URLs", filled("http:// ")),
        ("random letters", random()),
        ("one bigram", filled("a ")),
        ("words of 8,191 alike", long_words()),
        ("punctuation", filled("-_=*\"'")),
    ]
}

fn filled(with: &str) -> String {
    with.repeat(MOST / with.len() + 1)[..MOST].to_string()
}

fn cut(mut text: String) -> String {
    text.truncate(MOST);
    text
}

/// One-letter words drawn from 26: as many bigrams as fit.
fn random() -> String {
    let mut x = 12345u32;
    let mut draw = || {
        x ^= x << 13;
        x ^= x >> 17;
        x ^= x << 5;
        char::from(b'a' + (x % 26) as u8)
    };
    (0..MOST / 2).flat_map(|_| [draw(), ' ']).collect()
}

/// Words that differ in their last letter only: each comparison of two reads all of both.
fn long_words() -> String {
    (0..128).map(|i| "x".repeat(8190) + if i * 37 % 128 < 64 { "a " } else { "b " }).collect()
}
