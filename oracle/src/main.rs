//! The original detection module, unchanged, behind a program that answers questions on its standard input. See ../README.md.

// ---- the original, unchanged
#[allow(dead_code)]
mod detection;
// two of its files once more, for their passes and bigrams are private to it
#[allow(dead_code)]
#[path = "detection/ngram.rs"]
mod ngram;
#[allow(dead_code)]
#[path = "detection/preproc.rs"]
mod preproc;

// ---- changed copies: ties settled, scorings counted
mod counted;
mod settled;

// ---- the program around them
mod questions;

fn main() {
    questions::answer_all();
}
