//! The original's time and ours, in one run: speed/README.md says what is measured. `speed [quick]`: quick leaves out the 1 MiB notes and the grown books.

mod clock;
mod ours;
mod texts;

use clock::{race, side};
use oracle::detection::{
    LicenseEntry, Store, TextData,
    scan::{ScanMode, ScanResult, Scanner},
};
use ours::Lent;
use texts::Shelf;

// the original's own defaults
const THRESHOLD: f32 = 0.9;
const SHALLOW: f32 = 0.99;
const PASSES: u16 = 10;
/// of equal scores and prefixes the original takes any: it is asked again before an answer counts as another
const DRAWS: usize = 8;
/// stored texts of a grown book: with five of each it stays below the limit of 1,024
const GROWN: usize = 204;

const HEAD: &str = "| job | note | ours | check taken off | original | ratio | ratio, check taken off | answers |\n|---|---|---|---|---|---|---|---|";

/// The same texts as a book for us and as the original's store, both made before any clock starts.
struct Library {
    name: String,
    book: Vec<u8>,
    stored: Vec<TextData>,
    store: Store,
}

impl Library {
    fn new(name: &str, shelf: &Shelf) -> Self {
        let mut library = Self { name: name.into(), book: Vec::new(), stored: Vec::new(), store: Store::new() };
        for (name, text) in shelf {
            let mut lent = Lent::new(text);
            let made = lent.compile();
            assert_eq!(made.refusal, 0, "{name} is not compiled");
            library.put(1, name.as_bytes());
            library.put(2, &lent.out[..made.len]);
            let data = TextData::new(text);
            library.store.insert_entry(name.clone(), LicenseEntry::new(data.clone().without_text()));
            library.stored.push(data.without_text());
        }
        assert_eq!(ours::check(&library.book).refusal, 0, "the book is unsound");
        library
    }

    fn put(&mut self, kind: u8, body: &[u8]) {
        self.book.extend((body.len() as u32).to_le_bytes());
        self.book.extend([kind, 0]);
        self.book.extend(body);
    }

    /// The number of the stored text that the note scores best against.
    fn nearest(&self, note: &str) -> usize {
        let data = TextData::new(note);
        let score = |i: &usize| data.match_score(&self.stored[*i]);
        (0..self.stored.len()).max_by(|a, b| score(a).total_cmp(&score(b))).expect("a stored text")
    }
}

fn micros(seconds: f64) -> String {
    format!("{:.1}", 1e6 * seconds)
}

/// A row of compile, which reads no book.
fn compile_row(note: &str, text: &str) {
    let mut lent = Lent::new(text);
    assert_eq!(lent.compile().refusal, 0, "{note} is not compiled");
    let mut sides = [side(|| lent.compile().len), side(|| TextData::new(text))];
    race(&mut sides);
    let [ours, original] = sides.map(|s| s.best);
    println!("| compile | {note} ({} bytes) | {} | {} | {:.2} |", text.len(), micros(ours), micros(original), original / ours);
}

/// What both sides say of a job, in a form that can be compared: scores by their bits.
type Answer = Vec<usize>;
type Original<'a, T> = &'a dyn Fn() -> T;

/// A row of a job that checks the book first: the check is timed in the same rounds, and taken off.
fn job_row<T>(library: &Library, job: &str, note: &str, mut ours: impl FnMut() -> Answer, original: Original<'_, T>, read: impl Fn(&T) -> Answer) {
    let answer = ours();
    let same = (0..DRAWS).any(|_| read(&original()) == answer);
    let mut sides = [side(&mut ours), side(|| ours::check(&library.book).texts), side(original)];
    race(&mut sides);
    let [ours, check, original] = sides.map(|s| s.best);
    let rest = ours - check;
    // what is left of a difference of two large times is noise: with a small book the same rows tell otherwise
    let off = if rest < 0.1 * check { "(noise)".into() } else { format!("{:.2}", original / rest) };
    let same = if same { "same" } else { "other" };
    println!("| {job} | {note} | {} | {} | {} | {:.2} | {off} | {same} |", micros(ours), micros(rest), micros(original), original / ours);
}

fn bits(score: f32) -> usize {
    score.to_bits() as usize
}

/// Overall score, and of each record its lines and score; a name may be another's of the same text, and the original has no bytes.
fn scanned(result: &ScanResult<'_>) -> Answer {
    let mut out = vec![bits(result.score)];
    for c in &result.containing {
        out.extend([c.line_range.0, c.line_range.1, bits(c.score)]);
    }
    out
}

fn ours_scanned(lent: &Lent<'_>, s: &ours::Scanned) -> Answer {
    assert_eq!(s.refusal, 0, "a scan is refused");
    let mut out = vec![bits(s.score)];
    for r in lent.results.chunks(ours::RECORD_WIDTH).take(s.records as usize) {
        out.extend(r[1..4].iter().map(|&x| x as usize));
    }
    out
}

fn view_rows(library: &Library, note: &str, text: &str) {
    let number = library.nearest(text);
    let stored = &library.stored[number];
    let mut lent = Lent::new(text);
    let ours = || vec![bits(lent.score(&library.book, number as u32).score)];
    job_row(library, "score", note, ours, &|| TextData::new(text).match_score(stored), |x| vec![bits(*x)]);
    let ours = || {
        let b = lent.bounds(&library.book, number as u32);
        vec![b.first as usize, b.after as usize, bits(b.score)]
    };
    let read = |(found, score): &(TextData, f32)| vec![found.lines_view().0, found.lines_view().1, bits(*score)];
    job_row(library, "bounds", note, ours, &|| TextData::new(text).optimize_bounds(stored), read);
}

fn scan_rows(library: &Library, note: &str, text: &str) {
    let mut lent = Lent::new(text);
    for (job, shallow, optimize) in [("elimination", SHALLOW, false), ("elimination, optimize", 1.0, true)] {
        let scanner = Scanner::new(&library.store).shallow_limit(shallow).optimize(optimize).max_passes(PASSES);
        let ours = || {
            let s = lent.eliminate(&library.book, shallow, optimize);
            ours_scanned(&lent, &s)
        };
        job_row(library, job, note, ours, &|| scanner.scan(&TextData::new(text)), scanned);
    }
    // the number of views grows with the square of lines over step
    let step_size = if lent.lines > 2000 { lent.lines / 6 } else { (lent.lines / 20).max(5) };
    let scanner = Scanner::with_scan_mode(&library.store, ScanMode::TopDown { step_size });
    let ours = || {
        let s = lent.top_down(&library.book, step_size);
        ours_scanned(&lent, &s)
    };
    job_row(library, &format!("top-down {step_size}"), note, ours, &|| scanner.scan(&TextData::new(text)), scanned);
}

fn library_table(library: &Library, notes: &[(&str, String)]) {
    let mut sides = [side(|| ours::check(&library.book).texts)];
    race(&mut sides);
    let (check, bytes) = (sides[0].best, library.book.len());
    println!("\n## {}: {} stored texts, a book of {bytes} bytes\n", library.name, library.stored.len());
    println!("The book check alone: {}; {:.2} {} a byte; the original has none (its store is prebuilt).\n", micros(check), 1e9 * check / bytes as f64, clock::small());
    println!("{HEAD}");
    for (note, text) in notes {
        view_rows(library, note, text);
        scan_rows(library, note, text);
    }
}

/// Score and bounds of each note in a book of its nearest licence alone: the check is small there, so what is left without it is no noise.
fn own_table(shelf: &Shelf, notes: &[(&str, String)]) {
    let all = Library::new("all", shelf);
    println!("\n## A book of the note's nearest licence alone\n\n{HEAD}");
    for (note, text) in notes {
        let (name, licence) = shelf.iter().nth(all.nearest(text)).expect("a stored text");
        let own = Library::new("own", &Shelf::from([(name.clone(), licence.clone())]));
        view_rows(&own, note, text);
    }
}

fn compile_table(title: &str, notes: &[(&str, String)]) {
    println!("\n## {title}\n\n| job | note | ours | original | ratio |\n|---|---|---|---|---|");
    for (note, text) in notes {
        compile_row(note, text);
    }
}

fn main() {
    println!("In {}.", clock::unit());
    let quick = std::env::args().nth(1).is_some_and(|a| a == "quick");
    let shelf = texts::debian();
    let mut notes = texts::notes(&shelf);
    if quick {
        notes.retain(|(_, text)| text.len() < 1 << 16);
    }
    compile_table("Compile", &notes);
    if !quick {
        compile_table("Compile, hostile notes", &texts::hostile());
    }
    own_table(&shelf, &notes);
    library_table(&Library::new("All texts of the installed Debian packages", &shelf), &notes);
    if !quick {
        library_table(&Library::new("The longest of them", &texts::grown(&shelf, GROWN, 1)), &notes);
        library_table(&Library::new("Five times as many", &texts::grown(&shelf, GROWN, 5)), &notes);
    }
}
