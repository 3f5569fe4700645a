//! Both sides in turn, round by round, and the best of each, in wall time: other work on the machine then falls on both, and on the best least.
//! Or, where INSN names the file of the emulator's plugin (count.sh), one round in executed instructions, a billion of them for a second.

use std::hint::black_box;
use std::sync::OnceLock;
use std::time::Instant;

/// seconds
const SLICE: f64 = 0.0005; // a side that is quicker is called several times in a round
const ENOUGH: f64 = 2.0; // a row ends after this, but not before its third round
const ROUNDS_LEAST: usize = 3;
const ROUNDS_MOST: usize = 200;

unsafe extern "C" {
    fn getpriority(which: i32, who: u32) -> i32;
}

/// The plugin's file, if it is there.
fn counted() -> Option<&'static str> {
    static FILE: OnceLock<Option<String>> = OnceLock::new();
    FILE.get_or_init(|| std::env::var("INSN").ok()).as_deref()
}

/// What a table's numbers are.
pub fn unit() -> &'static str {
    if counted().is_some() { "thousands of executed instructions" } else { "us of wall time" }
}

/// The thousandth of it.
pub fn small() -> &'static str {
    if counted().is_some() { "instructions" } else { "ns" }
}

fn now() -> f64 {
    static START: OnceLock<Instant> = OnceLock::new();
    let Some(file) = counted() else {
        return START.get_or_init(Instant::now).elapsed().as_secs_f64();
    };
    const MARK: i32 = 0x5eed;
    // SAFETY: takes two numbers; the plugin knows the first, and the call itself fails
    unsafe { getpriority(MARK, 0) };
    let count = std::fs::read_to_string(file).expect("the plugin's file");
    1e-9 * count.parse::<u64>().expect("a count") as f64
}

/// What reading the clock itself adds to a time: nothing to speak of in time, some instructions in a count.
fn reading() -> f64 {
    let start = now();
    if counted().is_some() { now() - start } else { 0.0 }
}

pub struct Side<'a> {
    call: Box<dyn FnMut() + 'a>,
    calls: u32,
    /// seconds a call
    pub best: f64,
}

pub fn side<'a, T>(mut call: impl FnMut() -> T + 'a) -> Side<'a> {
    Side { call: Box::new(move || drop(black_box(call()))), calls: 0, best: f64::INFINITY }
}

impl Side<'_> {
    fn time(&mut self) -> f64 {
        let reading = reading();
        let start = now();
        for _ in 0..self.calls {
            (self.call)();
        }
        now() - start - reading
    }

    /// One call, which also warms what the side reads, says how many make a round.
    fn settle(&mut self) {
        self.calls = 1;
        let once = self.time().max(1e-9);
        if counted().is_none() {
            self.calls = (SLICE / once).clamp(1.0, 10_000.0) as u32;
        }
    }

    fn round(&mut self) {
        self.best = self.best.min(self.time() / f64::from(self.calls));
    }
}

pub fn race(sides: &mut [Side<'_>]) {
    sides.iter_mut().for_each(Side::settle);
    let start = now();
    let rounds = if counted().is_some() { 1 } else { ROUNDS_MOST };
    for round in 0..rounds {
        if round >= ROUNDS_LEAST && now() - start > ENOUGH {
            break;
        }
        sides.iter_mut().for_each(Side::round);
    }
}
