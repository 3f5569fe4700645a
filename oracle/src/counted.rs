// Copyright 2018 Amazon.com, Inc. or its affiliates. All Rights Reserved.
// SPDX-License-Identifier: Apache-2.0
//
// Changed from src/detection/license.rs (optimize_bounds, search_optimize), src/detection/detect.rs (analyze) and src/detection/scan.rs
// (scan_elimination, scan_topdown, topdown_find_contained_license) of the crate spdx 0.13.6: the search remembers no scores, every scoring is
// counted and paid from a budget, the stored texts stand in book order, of equal scores the kind of the smaller number wins and of equal kinds the
// earliest, and of every view the common prefix is settled (settled.rs).

//! Bounds and both scans, with the number of scorings that they make.

use crate::detection::TextData;
use crate::settled;

/// The scorings made, and how many may be.
pub struct Count {
    budget: u64,
    made: u64,
}

/// The budget does not pay the next scoring.
pub struct Spent;

impl Count {
    pub fn new(budget: u64) -> Self {
        Self { budget, made: 0 }
    }

    pub fn made(&self) -> u64 {
        self.made
    }

    /// One scoring: everything here that scores comes through this.
    fn score(&mut self, view: &TextData, stored: &TextData) -> Result<f32, Spent> {
        if self.made == self.budget {
            return Err(Spent);
        }
        self.made += 1;
        Ok(view.match_score(stored))
    }
}

// ---- bounds (license.rs)

/// The view of the highest score: first its end is moved, then its start.
pub fn bounds(text: &TextData, stored: &TextData, count: &mut Count) -> Result<(TextData, f32), Spent> {
    let (start, end) = text.lines_view();

    let (new_end, _) = search(
        &mut |end| count.score(&settled::view(text, start, end), stored),
        start,
        end,
    )?;
    let (new_start, score) = search(
        &mut |start| count.score(&settled::view(text, start, new_end), stored),
        start,
        new_end,
    )?;
    Ok((settled::view(text, new_start, new_end), score))
}

fn search(
    score: &mut dyn FnMut(usize) -> Result<f32, Spent>,
    left: usize,
    right: usize,
) -> Result<(usize, f32), Spent> {
    if right - left <= 3 {
        // the index of the highest score in the remaining items; of equal ones the later
        let mut highest = (0, 0f32);
        for index in left..=right {
            let x = score(index)?;
            if x >= highest.1 {
                highest = (index, x);
            }
        }
        return Ok(highest);
    }

    let low = (left * 2 + right) / 3;
    let high = (left + right * 2) / 3;
    let score_low = score(low)?;
    let score_high = score(high)?;

    if score_low > score_high {
        search(score, left, high - 1)
    } else {
        search(score, low + 1, right)
    }
}

// ---- best stored text (detect.rs)

/// A stored text and its kind: 2 original, 3 alternate, 4 header.
pub struct Stored {
    pub kind: u8,
    pub text: TextData,
}

/// The number of a stored text and its score.
#[derive(Clone, Copy)]
struct Best {
    number: usize,
    score: f32,
}

/// All stored texts are scored in book order; on equal scores an original beats an alternate, an alternate a header; only then the earliest.
fn best(stored: &[Stored], view: &TextData, count: &mut Count) -> Result<Best, Spent> {
    let mut best: Option<Best> = None;
    for (number, Stored { kind, text }) in stored.iter().enumerate() {
        let score = count.score(view, text)?;
        let wins = |b: Best| score > b.score || (score == b.score && *kind < stored[b.number].kind);
        if best.is_none_or(wins) {
            best = Some(Best { number, score });
        }
    }
    Ok(best.expect("a stored text"))
}

// ---- scans (scan.rs)

#[derive(Clone, Copy)]
pub struct Limits {
    pub threshold: f32,
    pub shallow: f32,
}

/// A range of lines and the stored text that it matches.
pub struct Found {
    pub number: usize,
    pub first: usize,
    pub after: usize,
    pub score: f32,
}

/// What a scan has found when it is finished or its budget is spent.
#[derive(Default)]
pub struct Findings {
    pub score: f32,
    pub named: Option<usize>,
    pub found: Vec<Found>,
}

pub fn elimination(
    stored: &[Stored],
    limits: Limits,
    optimize: bool,
    passes: u16,
    text: &TextData,
    count: &mut Count,
    out: &mut Findings,
) -> Result<(), Spent> {
    let mut winner = best(stored, text, count)?;
    out.score = winner.score;

    if winner.score > limits.threshold {
        out.named = Some(winner.number);
        if winner.score > limits.shallow {
            return Ok(());
        }
    }
    if !optimize {
        return Ok(());
    }

    let mut current = text.clone();
    for _ in 0..passes {
        let (optimized, score) = bounds(&current, &stored[winner.number].text, count)?;
        if score < limits.threshold {
            break;
        }
        out.found.push(found(winner, &optimized, score));
        current = settled::white_out(&optimized);
        winner = best(stored, &current, count)?;
    }
    Ok(())
}

pub fn topdown(
    stored: &[Stored],
    limits: Limits,
    step: usize,
    text: &TextData,
    count: &mut Count,
    out: &mut Findings,
) -> Result<(), Spent> {
    let (_, text_end) = text.lines_view();
    let mut current_start = 0;
    while current_start < text_end {
        let Some(contained) = contained(stored, limits, step, text, current_start, count)? else {
            break;
        };
        current_start = contained.after + 1;
        out.found.push(contained);
    }
    Ok(())
}

fn contained(
    stored: &[Stored],
    limits: Limits,
    step: usize,
    text: &TextData,
    starting_at: usize,
    count: &mut Count,
) -> Result<Option<Found>, Spent> {
    let (_, text_end) = text.lines_view();
    let mut latest: Option<(TextData, Best)> = None;

    'start: for start in (starting_at..text_end).step_by(step) {
        for end in (start..=text_end).step_by(step) {
            let view = settled::view(text, start, end);
            let winner = best(stored, &view, count)?;
            if winner.score >= limits.threshold {
                latest = Some((view, winner));
            } else if latest.is_some() {
                break 'start;
            }
        }
    }

    let Some((view, winner)) = latest else {
        return Ok(None);
    };
    let (optimized, score) = bounds(&view, &stored[winner.number].text, count)?;
    if score < limits.threshold {
        return Ok(None);
    }
    Ok(Some(found(winner, &optimized, score)))
}

fn found(winner: Best, optimized: &TextData, score: f32) -> Found {
    let (first, after) = optimized.lines_view();
    Found {
        number: winner.number,
        first,
        after,
        score,
    }
}
