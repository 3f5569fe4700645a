//! The archive's calls (../../include/chultarvi.h), each with areas that were lent once before the clock starts.

/// Numbers of a record in the results, by the header.
pub const RECORD_WIDTH: usize = match usize::from_str_radix(env!("CHULTARVI_RECORD_WIDTH"), 10) {
    Ok(width) => width,
    Err(_) => panic!("a record's width is no number"),
};

#[repr(C)]
pub struct Checked {
    pub refusal: u32,
    pub texts: u32,
}
#[repr(C)]
pub struct Compiled {
    pub refusal: u32,
    pub len: usize,
}
#[repr(C)]
pub struct Scored {
    pub refusal: u32,
    pub score: f32,
    pub m: u32,
    pub t: u32,
}
#[repr(C)]
pub struct Bounded {
    pub refusal: u32,
    pub first: u32,
    pub after: u32,
    pub score: f32,
    pub m: u32,
    pub t: u32,
    pub count: u64,
}
#[repr(C)]
pub struct Scanned {
    pub refusal: u32,
    pub records: u32,
    pub count: u64,
    pub score: f32,
    pub m: u32,
    pub t: u32,
    pub kind: u32,
    pub len: u32,
    pub name: [u8; 64],
    pub second: bool,
    pub name_at: usize,
}

#[rustfmt::skip]
unsafe extern "C" {
    fn chultarvi_check_book(book: *const u8, book_len: usize) -> Checked;
    fn chultarvi_compile(text: *const u8, text_len: usize, edition: u32, area: *mut u8, area_len: usize, words: *mut u32, words_len: usize,
        out: *mut u8, out_len: usize) -> Compiled;
    fn chultarvi_score(text: *const u8, text_len: usize, book: *const u8, book_len: usize, start: usize, end: usize, number: u32,
        area: *mut u8, area_len: usize, words: *mut u32, words_len: usize) -> Scored;
    fn chultarvi_bounds(text: *const u8, text_len: usize, book: *const u8, book_len: usize, start: usize, end: usize, number: u32,
        area: *mut u8, area_len: usize, words: *mut u32, words_len: usize) -> Bounded;
    fn chultarvi_eliminate(text: *const u8, text_len: usize, book: *const u8, book_len: usize, threshold: f32, shallow: f32, optimize: bool, passes: u16,
        budget: u64, area: *mut u8, area_len: usize, words: *mut u32, words_len: usize, results: *mut u32, results_len: usize) -> Scanned;
    fn chultarvi_top_down(text: *const u8, text_len: usize, book: *const u8, book_len: usize, threshold: f32, shallow: f32, step: u64,
        budget: u64, area: *mut u8, area_len: usize, words: *mut u32, words_len: usize, results: *mut u32, results_len: usize) -> Scanned;
}

pub fn check(book: &[u8]) -> Checked {
    // SAFETY: one readable slice
    unsafe { chultarvi_check_book(book.as_ptr(), book.len()) }
}

/// A text with the smallest areas that every job on it takes. They are zero at first, and each call leaves them zero.
pub struct Lent<'a> {
    text: &'a str,
    pub lines: usize,
    area: Vec<u8>,
    words: Vec<u32>,
    pub results: Vec<u32>,
    pub out: Vec<u8>,
}

#[rustfmt::skip]
impl<'a> Lent<'a> {
    pub fn new(text: &'a str) -> Self {
        let (n, lines) = (text.len(), text.matches('\n').count() + 1);
        // written, so that no page is first touched while the clock runs
        let (mut area, mut words, mut out) = (vec![1; 8 * n + 64], vec![1; 12 * n + 64], vec![1; 16 * n + 64]);
        area.fill(0);
        words.fill(0);
        out.fill(0);
        // THRESHOLD is above 0.0, so top-down has a record for every second line at most
        let records = lines.div_ceil(2).max(usize::from(crate::PASSES));
        Self { text, lines, area, words, results: vec![0; RECORD_WIDTH * records], out }
    }

    pub fn compile(&mut self) -> Compiled {
        let Self { text: t, area: a, words: w, out: o, .. } = self;
        // SAFETY: four slices that do not overlap. Edition 1 is the original's
        unsafe { chultarvi_compile(t.as_ptr(), t.len(), 1, a.as_mut_ptr(), a.len(), w.as_mut_ptr(), w.len(), o.as_mut_ptr(), o.len()) }
    }

    pub fn score(&mut self, book: &[u8], number: u32) -> Scored {
        let Self { text: t, area: a, words: w, lines, .. } = self;
        // SAFETY: slices that do not overlap
        unsafe { chultarvi_score(t.as_ptr(), t.len(), book.as_ptr(), book.len(), 0, *lines, number, a.as_mut_ptr(), a.len(), w.as_mut_ptr(), w.len()) }
    }

    pub fn bounds(&mut self, book: &[u8], number: u32) -> Bounded {
        let Self { text: t, area: a, words: w, lines, .. } = self;
        // SAFETY: slices that do not overlap
        unsafe { chultarvi_bounds(t.as_ptr(), t.len(), book.as_ptr(), book.len(), 0, *lines, number, a.as_mut_ptr(), a.len(), w.as_mut_ptr(), w.len()) }
    }

    pub fn eliminate(&mut self, book: &[u8], shallow: f32, optimize: bool) -> Scanned {
        let Self { text: t, area: a, words: w, results: r, .. } = self;
        // SAFETY: slices that do not overlap
        unsafe { chultarvi_eliminate(t.as_ptr(), t.len(), book.as_ptr(), book.len(), crate::THRESHOLD, shallow, optimize, crate::PASSES, u64::MAX,
            a.as_mut_ptr(), a.len(), w.as_mut_ptr(), w.len(), r.as_mut_ptr(), r.len()) }
    }

    pub fn top_down(&mut self, book: &[u8], step: usize) -> Scanned {
        let Self { text: t, area: a, words: w, results: r, .. } = self;
        // SAFETY: slices that do not overlap
        unsafe { chultarvi_top_down(t.as_ptr(), t.len(), book.as_ptr(), book.len(), crate::THRESHOLD, crate::SHALLOW, step as u64, u64::MAX,
            a.as_mut_ptr(), a.len(), w.as_mut_ptr(), w.len(), r.as_mut_ptr(), r.len()) }
    }
}
