// The C functions under test and safe wrappers over slices.

use std::ops::Range;

use crate::lists::Program;
use crate::second::{ForecastAnswer, LookupAnswer, PageAnswer, ScoresAnswer, StepAnswer};

/// What stands in a count's word before the call, so that a word left unwritten is seen.
const UNWRITTEN: u32 = 0xA5A5_A5A5;

mod c {
    extern "C" {
        pub fn gi_format(card: *mut u32, card_len: usize, b: u32, n: u32) -> u32;
        pub fn gi_judge(card: *const u32, card_len: usize) -> u32;
        pub fn gi_step(
            card: *mut u32,
            card_len: usize,
            batch: *const u32,
            batch_len: usize,
            write: *mut u32,
            freed: *mut u32,
            finished: *mut u32,
        ) -> u32;
        pub fn gi_write_span(
            card: *const u32,
            card_len: usize,
            write: u32,
            start: *mut usize,
            count: *mut usize,
        ) -> u32;
        pub fn gi_forecast(
            card: *const u32,
            card_len: usize,
            batch: *const u32,
            batch_len: usize,
            blocks: *mut u32,
            limit: *mut u32,
            finishes: *mut u32,
            writes: *mut u32,
        ) -> u32;
        pub fn gi_lookup(
            card: *const u32,
            card_len: usize,
            term: u32,
            from: u32,
            to: u32,
            answer: *mut u32,
            answer_len: usize,
            found: *mut u32,
            blocks: *mut u32,
        ) -> u32;
        pub fn gi_lookup_all(
            card: *const u32,
            card_len: usize,
            term: u32,
            answer: *mut u32,
            answer_len: usize,
            found: *mut u32,
            blocks: *mut u32,
        ) -> u32;
        pub fn gi_run_view(
            card: *const u32,
            card_len: usize,
            term: u32,
            from: u32,
            to: u32,
            start: *mut usize,
            found: *mut usize,
        ) -> u32;
        pub fn gi_read(
            card: *const u32,
            card_len: usize,
            term: u32,
            from: u32,
            to: u32,
            answer: *mut u32,
            answer_len: usize,
            found: *mut usize,
        ) -> u32;
        pub fn gi_page(
            card: *const u32,
            card_len: usize,
            term: u32,
            from: u32,
            to: u32,
            page: *mut u8,
            page_len: usize,
            lines: *mut u32,
        ) -> u32;
        pub fn gi_scores(
            bytes: *const u8,
            bytes_len: usize,
            batch: *mut u32,
            batch_len: usize,
            words: *mut usize,
            line: *mut usize,
        ) -> u32;
    }
}

/// The number, 0 for done.
pub fn format(card: &mut [u32], b: u32, n: u32) -> u32 {
    // SAFETY: pointer and length are those of one slice lent for writing.
    unsafe { c::gi_format(card.as_mut_ptr(), card.len(), b, n) }
}

/// The number, 0 for a sound card.
pub fn judge(card: &[u32]) -> u32 {
    // SAFETY: pointer and length are those of one slice lent for reading.
    unsafe { c::gi_judge(card.as_ptr(), card.len()) }
}

pub fn step(card: &mut [u32], batch: &[u32]) -> StepAnswer {
    let (mut write, mut freed, mut finished) = (UNWRITTEN, UNWRITTEN, UNWRITTEN);
    // SAFETY: each pointer and length are those of one slice; the card's is lent for writing, and
    // the counts are words of this call.
    let number = unsafe {
        c::gi_step(
            card.as_mut_ptr(),
            card.len(),
            batch.as_ptr(),
            batch.len(),
            &mut write,
            &mut freed,
            &mut finished,
        )
    };
    assert!(finished <= 1, "finished is {finished}, neither 0 nor 1");
    StepAnswer {
        number,
        write,
        freed,
        finished: finished == 1,
    }
}

/// The number, and the words of the card where a write stands.
pub fn write_span(card: &[u32], write: u32) -> (u32, Range<usize>) {
    let (mut start, mut count) = (usize::MAX, usize::MAX);
    // SAFETY: pointer and length are those of one slice lent for reading, and the counts are words
    // of this call.
    let number =
        unsafe { c::gi_write_span(card.as_ptr(), card.len(), write, &mut start, &mut count) };
    (number, start..start + count)
}

pub fn forecast(card: &[u32], batch: &[u32]) -> ForecastAnswer {
    forecast_over(card, batch, [UNWRITTEN; 4])
}

/// The forecast over these words: what stands where blocks, limit, finishes and writes go.
pub fn forecast_over(card: &[u32], batch: &[u32], words: [u32; 4]) -> ForecastAnswer {
    let [mut blocks, mut limit, mut finishes, mut writes] = words;
    // SAFETY: each pointer and length are those of one slice lent for reading, and the figures are
    // words of this call.
    let number = unsafe {
        c::gi_forecast(
            card.as_ptr(),
            card.len(),
            batch.as_ptr(),
            batch.len(),
            &mut blocks,
            &mut limit,
            &mut finishes,
            &mut writes,
        )
    };
    assert!(finishes <= 1, "finishes is {finishes}, neither 0 nor 1");
    ForecastAnswer {
        number,
        blocks,
        limit,
        finishes: finishes == 1,
        writes,
    }
}

pub fn lookup(card: &[u32], term: u32, from: u32, to: u32, answer: &mut [u32]) -> LookupAnswer {
    let (mut count, mut blocks) = (UNWRITTEN, UNWRITTEN);
    // SAFETY: each pointer and length are those of one slice; the answer's is lent for writing, and
    // the counts are words of this call.
    let number = unsafe {
        c::gi_lookup(
            card.as_ptr(),
            card.len(),
            term,
            from,
            to,
            answer.as_mut_ptr(),
            answer.len(),
            &mut count,
            &mut blocks,
        )
    };
    LookupAnswer {
        number,
        count,
        blocks,
    }
}

/// The lookup of all positions of a term.
pub fn lookup_all(card: &[u32], term: u32, answer: &mut [u32]) -> LookupAnswer {
    let (mut count, mut blocks) = (UNWRITTEN, UNWRITTEN);
    // SAFETY: each pointer and length are those of one slice; the answer's is lent for writing, and
    // the counts are words of this call.
    let number = unsafe {
        c::gi_lookup_all(
            card.as_ptr(),
            card.len(),
            term,
            answer.as_mut_ptr(),
            answer.len(),
            &mut count,
            &mut blocks,
        )
    };
    LookupAnswer {
        number,
        count,
        blocks,
    }
}

/// The number, and the words of the card that hold the run.
pub fn run_view(card: &[u32], term: u32, from: u32, to: u32) -> (u32, Range<usize>) {
    let (mut start, mut found) = (usize::MAX, usize::MAX);
    // SAFETY: pointer and length are those of one slice lent for reading, and the counts are words
    // of this call.
    let number = unsafe {
        c::gi_run_view(
            card.as_ptr(),
            card.len(),
            term,
            from,
            to,
            &mut start,
            &mut found,
        )
    };
    (number, start..start + found)
}

/// The number, and how many positions were read into the first answer words.
pub fn read(card: &[u32], term: u32, from: u32, to: u32, answer: &mut [u32]) -> (u32, usize) {
    let mut found = usize::MAX;
    // SAFETY: each pointer and length are those of one slice; the answer's is lent for writing, and
    // the count is a word of this call.
    let number = unsafe {
        c::gi_read(
            card.as_ptr(),
            card.len(),
            term,
            from,
            to,
            answer.as_mut_ptr(),
            answer.len(),
            &mut found,
        )
    };
    (number, found)
}

pub fn page(card: &[u32], term: u32, from: u32, to: u32, memory: &mut [u8]) -> PageAnswer {
    let mut lines = UNWRITTEN;
    // SAFETY: each pointer and length are those of one slice; the memory's is lent for writing, and
    // the count is a word of this call.
    let number = unsafe {
        c::gi_page(
            card.as_ptr(),
            card.len(),
            term,
            from,
            to,
            memory.as_mut_ptr(),
            memory.len(),
            &mut lines,
        )
    };
    PageAnswer { number, lines }
}

pub fn scores(bytes: &[u8], batch: &mut [u32]) -> ScoresAnswer {
    let (mut words, mut line) = (usize::MAX, usize::MAX);
    // SAFETY: each pointer and length are those of one slice; the batch's is lent for writing, and
    // the counts are words of this call.
    let number = unsafe {
        c::gi_scores(
            bytes.as_ptr(),
            bytes.len(),
            batch.as_mut_ptr(),
            batch.len(),
            &mut words,
            &mut line,
        )
    };
    ScoresAnswer {
        number,
        words,
        line,
    }
}

/// The library under test, for lists of calls.
pub struct Library;

impl Program for Library {
    fn format(&self, card: &mut [u32], b: u32, n: u32) -> u32 {
        format(card, b, n)
    }

    fn judge(&self, card: &[u32]) -> u32 {
        judge(card)
    }

    fn step(&self, card: &mut [u32], batch: &[u32]) -> StepAnswer {
        step(card, batch)
    }

    fn lookup(
        &self,
        card: &[u32],
        term: u32,
        from: u32,
        to: u32,
        answer: &mut [u32],
    ) -> LookupAnswer {
        lookup(card, term, from, to, answer)
    }
}
