//! One question on each line of standard input, one answer on each line of standard output: the table in ../README.md.

use std::io::{BufRead, Write};

use crate::counted::{self, Count, Findings, Limits, Spent, Stored};
use crate::detection::{
    LicenseEntry, LicenseType, Store, TextData,
    scan::{IdentifiedLicense, ScanMode, ScanResult, Scanner},
};
use crate::{ngram::NgramSet, preproc, settled};

pub fn answer_all() {
    let mut out = std::io::stdout().lock();
    let mut shelf = Shelf::default();
    for line in std::io::stdin().lock().lines() {
        let line = line.expect("a line of text");
        let words: Vec<&str> = line.split_whitespace().collect();
        if words.is_empty() || words[0].starts_with('#') {
            continue;
        }
        let answer = shelf.answer(words[0], &words[1..]);
        writeln!(out, "{answer}").expect("standard output");
        out.flush().expect("standard output");
    }
}

// ---- the stored texts

/// A stored text's licence, and the text as it came. Its number is its place in the shelf.
struct Item {
    name: String,
    raw: String,
}

#[derive(Default)]
struct Shelf {
    items: Vec<Item>,
    /// the items' texts with their kinds, in their order
    texts: Vec<Stored>,
    /// the same texts as the original keeps them, made at the first scan that asks for it
    store: Option<Store>,
}

impl Shelf {
    fn clear(&mut self) {
        *self = Self::default();
    }

    fn add(&mut self, name: String, kind: u8, raw: String) {
        let text = settled::text(&raw);
        self.texts.push(Stored { kind, text });
        self.items.push(Item { name, raw });
        self.store = None;
    }

    /// All texts compiled anew, and a store with fresh maps: the original's ties fall in another order.
    fn shuffle(&mut self) {
        for (item, stored) in self.items.iter().zip(&mut self.texts) {
            stored.text = settled::text(&item.raw);
        }
        self.store = None;
    }

    /// Makes the store where there is none.
    fn stock(&mut self) {
        if self.store.is_some() {
            return;
        }
        let mut store = Store::new();
        for (item, Stored { kind, text }) in self.items.iter().zip(&self.texts) {
            let variant = match kind {
                2 => {
                    store.insert_entry(item.name.clone(), LicenseEntry::new(text.clone()));
                    continue;
                }
                3 => LicenseType::Alternate,
                4 => LicenseType::Header,
                other => panic!("kind {other}"),
            };
            store
                .add_variant(&item.name, variant, text.clone())
                .expect("the original before its variants");
        }
        self.store = Some(store);
    }

    fn stocked(&self) -> &Store {
        self.store.as_ref().expect("a store")
    }

    /// The number of a text that the original names.
    fn number(&self, license: &IdentifiedLicense<'_>) -> usize {
        let entry = &self.stocked().licenses[license.name];
        let (kind, texts) = match license.kind {
            LicenseType::Original => (2, std::slice::from_ref(&entry.original)),
            LicenseType::Alternate => (3, &entry.alternates[..]),
            LicenseType::Header => (4, &entry.headers[..]),
        };
        let nth = texts
            .iter()
            .position(|text| std::ptr::eq(text, license.data))
            .expect("a text of the store");
        let mut like = (0..self.items.len())
            .filter(|&i| self.items[i].name == license.name && self.texts[i].kind == kind);
        like.nth(nth).expect("an item of the shelf")
    }

    // ---- answers

    fn answer(&mut self, question: &str, w: &[&str]) -> String {
        match question {
            // passes
            "lines" => {
                let text = TextData::new(&unhex(w[0]));
                joined(text.lines().iter().map(|line| hex(line)))
            }
            "linepass" => hex(&preproc::PREPROC_NORMALIZE[count(w[0]) - 1](unhex(w[1]).into())),
            "pass" => hex(&preproc::PREPROC_AGGRESSIVE[count(w[0]) - 1](unhex(w[1]).into())),
            "passes" => hex(&preproc::apply_aggressive(&unhex(w[0]))),
            "view" => hex(&viewed(w).text_processed),
            "share" => format!("{}", (0.8f32 * count(w[0]) as f32) as u32),

            // tables
            "table" => {
                let table = settled::text(&unhex(w[0])).match_data;
                tabled(table.size, table.map.iter())
            }
            "bigrams" => {
                let table = NgramSet::from_str(&unhex(w[0]), 2);
                tabled(table.size, table.map.iter())
            }

            // scores
            "score" => bits(viewed(w).match_score(&settled::text(&unhex(w[3])))),
            "scores" => {
                let view = viewed(w);
                joined(self.texts.iter().map(|stored| bits(view.match_score(&stored.text))))
            }

            // bounds
            "bounds" => {
                let (found, score) = viewed(w).optimize_bounds(&settled::text(&unhex(w[3])));
                bounded(&found, score)
            }
            "countbounds" => {
                let mut made = Count::new(u64::MAX);
                match counted::bounds(&viewed(w), &settled::text(&unhex(w[3])), &mut made) {
                    Ok((found, score)) => format!("{} {}", made.made(), bounded(&found, score)),
                    Err(Spent) => unreachable!("a budget of 2^64 - 1"),
                }
            }

            // the stored texts
            "clear" => {
                self.clear();
                "ok".into()
            }
            "add" => {
                self.add(unhex(w[0]), w[1].parse().expect("a kind"), unhex(w[2]));
                "ok".into()
            }
            "shuffle" => {
                self.shuffle();
                "ok".into()
            }

            // scans
            "eliminate" => {
                self.stock();
                let scanner = Scanner::new(self.stocked())
                    .confidence_threshold(float(w[0]))
                    .shallow_limit(float(w[1]))
                    .optimize(w[2] == "1")
                    .max_passes(w[3].parse().expect("passes"));
                self.scanned(&scanner.scan(&TextData::new(&unhex(w[4]))))
            }
            "down" => {
                self.stock();
                let step_size = count(w[2]);
                let scanner = Scanner::with_scan_mode(self.stocked(), ScanMode::TopDown { step_size })
                    .confidence_threshold(float(w[0]))
                    .shallow_limit(float(w[1]));
                self.scanned(&scanner.scan(&TextData::new(&unhex(w[3]))))
            }
            "counteliminate" => self.eliminating(&self.texts, w),
            "countdown" => self.going_down(&self.texts, w),
            "firsteliminate" => self.eliminating(&self.alike(), w),
            "firstdown" => self.going_down(&self.alike(), w),
            "placed" => placed(&self.answer(w[0], &w[1..]), &unhex(w[w.len() - 1])),
            other => panic!("no such question: {other}"),
        }
    }

    /// The stored texts as if of one kind: of equal scores the earliest wins, which is one order of the original's maps.
    fn alike(&self) -> Vec<Stored> {
        let alike = |s: &Stored| Stored {
            kind: 0,
            text: s.text.clone(),
        };
        self.texts.iter().map(alike).collect()
    }

    /// Elimination by the counted copy.
    fn eliminating(&self, stored: &[Stored], w: &[&str]) -> String {
        let text = settled::text(&unhex(w[5]));
        let passes = w[3].parse().expect("passes");
        self.counting(w[4], |made, out| {
            counted::elimination(stored, limits(w), w[2] == "1", passes, &text, made, out)
        })
    }

    /// Top-down by the counted copy.
    fn going_down(&self, stored: &[Stored], w: &[&str]) -> String {
        let text = settled::text(&unhex(w[4]));
        self.counting(w[3], |made, out| {
            counted::topdown(stored, limits(w), count(w[2]), &text, made, out)
        })
    }

    /// What the original found.
    fn scanned(&self, result: &ScanResult<'_>) -> String {
        let named = result.license.as_ref().map(|license| self.number(license));
        let mut out = verdict(result.score, named);
        for c in &result.containing {
            let (first, after) = c.line_range;
            out += &range(self.number(&c.license), first, after, c.score);
        }
        out
    }

    /// What the counted copy found: refusal and count before the rest.
    fn counting(
        &self,
        budget: &str,
        scan: impl FnOnce(&mut Count, &mut Findings) -> Result<(), Spent>,
    ) -> String {
        let mut made = Count::new(budget.parse().expect("a budget"));
        let mut findings = Findings::default();
        let refusal = match scan(&mut made, &mut findings) {
            Ok(()) => 0,
            Err(Spent) => 12,
        };
        let mut out = format!("{refusal} {} {}", made.made(), verdict(findings.score, findings.named));
        for f in &findings.found {
            out += &range(f.number, f.first, f.after, f.score);
        }
        out
    }
}

fn limits(w: &[&str]) -> Limits {
    Limits {
        threshold: float(w[0]),
        shallow: float(w[1]),
    }
}

/// The view of three words: start, end, text.
fn viewed(w: &[&str]) -> TextData {
    settled::view(&TextData::new(&unhex(w[2])), count(w[0]), count(w[1]))
}

// ---- how answers are written

fn verdict(score: f32, named: Option<usize>) -> String {
    let named = named.map_or("none".into(), |number| number.to_string());
    format!("{} {named}", bits(score))
}

fn range(number: usize, first: usize, after: usize, score: f32) -> String {
    format!(" ; {number} {first} {after} {}", bits(score))
}

/// The answer of a scan with the bytes of each range behind it.
fn placed(answer: &str, text: &str) -> String {
    let lines: Vec<&str> = text.split('\n').collect();
    let mut parts = answer.split(" ; ");
    let mut out = parts.next().expect("a verdict").to_string();
    for range in parts {
        let told: Vec<&str> = range.split(' ').collect();
        let (start, end) = places(text, &lines, count(told[1]), count(told[2]));
        out += &format!(" ; {range} {start} {end}");
    }
    out
}

/// Where the lines lie in the memory of the text that they are slices of; behind the last line, and there alone, its end.
fn places(text: &str, lines: &[&str], first: usize, after: usize) -> (usize, usize) {
    let place = |line: &str| line.as_ptr() as usize - text.as_ptr() as usize;
    let start = lines.get(first).map_or(text.len(), |line| place(line));
    let end = lines[first..after].last().map_or(start, |line| place(line) + line.len());
    (start, end)
}

fn bounded(found: &TextData, score: f32) -> String {
    let (first, after) = found.lines_view();
    format!("{first} {after} {}", bits(score))
}

/// The total, then count:bigram for each bigram, in the order of their bytes.
fn tabled<'a>(total: usize, entries: impl Iterator<Item = (&'a String, &'a u32)>) -> String {
    let mut entries: Vec<_> = entries.collect();
    entries.sort();
    let rest = entries.iter().map(|(bigram, n)| format!("{n}:{}", hex(bigram)));
    joined(std::iter::once(total.to_string()).chain(rest))
}

fn joined(words: impl Iterator<Item = String>) -> String {
    words.collect::<Vec<_>>().join(" ")
}

fn bits(x: f32) -> String {
    format!("{:08x}", x.to_bits())
}

fn hex(s: &str) -> String {
    if s.is_empty() {
        return "-".into();
    }
    s.bytes().map(|b| format!("{b:02x}")).collect()
}

// ---- how questions are read

fn unhex(s: &str) -> String {
    if s == "-" {
        return String::new();
    }
    let byte = |i| u8::from_str_radix(&s[i..i + 2], 16).expect("two hex digits");
    let bytes = (0..s.len()).step_by(2).map(byte).collect();
    String::from_utf8(bytes).expect("UTF-8")
}

fn float(s: &str) -> f32 {
    f32::from_bits(u32::from_str_radix(s, 16).expect("float bits"))
}

fn count(s: &str) -> usize {
    s.parse().expect("a number")
}
