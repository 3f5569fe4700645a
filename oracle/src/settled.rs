// Copyright 2018-2019 Amazon.com, Inc. or its affiliates. All Rights Reserved.
// SPDX-License-Identifier: Apache-2.0
//
// Changed from src/detection/preproc.rs (remove_common_tokens) of the crate spdx 0.13.6: the prefixes are kept in the order in which they are
// first seen, and of equal counts the first seen wins; the original keeps them in a HashMap, and any of them may win.

//! Texts and views whose common prefix is settled: each is made by the unchanged Rust, and made anew until the tie falls to the first seen.

use std::borrow::Cow;

use crate::detection::TextData;
use crate::preproc::PREPROC_AGGRESSIVE;

/// A tie of k prefixes falls right once in k draws.
const MOST_DRAWS: usize = 10_000;

pub fn text(raw: &str) -> TextData {
    draw(|| TextData::new(raw))
}

pub fn view(of: &TextData, start: usize, end: usize) -> TextData {
    draw(|| of.with_view(start, end))
}

/// The lines in view emptied, and all lines in view.
pub fn white_out(of: &TextData) -> TextData {
    draw(|| of.white_out())
}

fn draw(make: impl Fn() -> TextData) -> TextData {
    let first = make();
    let wanted = processed(&first.lines().join("\n"));
    let mut drawn = first;
    for _ in 0..MOST_DRAWS {
        if drawn.text_processed == wanted {
            return drawn;
        }
        drawn = make();
    }
    panic!("never drawn: {wanted:?}, but {:?}", drawn.text_processed);
}

/// The eight aggressive passes, the first of them settled.
fn processed(joined: &str) -> String {
    let mut out = without_prefix(joined);
    for pass in &PREPROC_AGGRESSIVE[1..] {
        out = pass(out);
    }
    out.into()
}

fn without_prefix(input: &str) -> Cow<'_, str> {
    let lines: Vec<&str> = input.split('\n').collect();

    // each prefix and its count, in the order of the first sight
    let mut seen: Vec<(&str, u32)> = Vec::new();
    for pair in lines.windows(2) {
        let common = common_prefix(pair[0], pair[1]);
        if common.len() > 3 {
            match seen.iter_mut().find(|(prefix, _)| *prefix == common) {
                Some((_, count)) => *count += 1,
                None => seen.push((common, 2)),
            }
        }
    }

    // the highest count, and the first seen of these
    let Some(highest) = seen.iter().map(|&(_, count)| count).max() else {
        return input.into();
    };
    let (winner, _) = *seen.iter().find(|&&(_, count)| count == highest).unwrap();

    // reconcile the count with other longer prefixes that are stored
    let common_count = seen
        .iter()
        .filter(|(prefix, _)| prefix.starts_with(winner))
        .map(|(_, count)| count)
        .sum::<u32>();
    let threshold = (0.8f32 * lines.len() as f32) as u32;
    if common_count < threshold {
        return input.into();
    }

    let stripped: Vec<&str> = lines
        .iter()
        .map(|line| line.strip_prefix(winner).unwrap_or(line).trim())
        .collect();
    stripped.join("\n").into()
}

/// The common prefix of two lines, cut to whole characters and trimmed.
fn common_prefix<'a>(first: &'a str, second: &str) -> &'a str {
    let len = first
        .char_indices()
        .zip(second.chars())
        .find(|((_, f), s)| f != s)
        .map_or(first.len().min(second.len()), |((at, _), _)| at);
    first[..len].trim()
}
