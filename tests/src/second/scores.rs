// The scorekeepers' file (document 02, slip 2): lines of text, the batch they make, and what the
// program that runs a pass with it prints.

use super::batch::{Record, ADD, MOST_RECORDS, REMOVE};
use super::layout;
use super::number;
use super::step;

/// The card of the program's pass.
pub const B: u32 = 8;
pub const N: u32 = 6;

/// The longest line that has a record's form, with its line feed.
pub const LONGEST_LINE: &str = "R\t4294967295\t4294967295\t4294967295\n";
/// The first bytes that settle the answer.
pub const SETTLING_BYTES: usize = (MOST_RECORDS + 1) * LONGEST_LINE.len();

#[derive(Clone, Copy, Debug, PartialEq, Eq)]
pub struct ScoresAnswer {
    pub number: u32,
    pub words: usize,
    pub line: usize,
}

/// How the program's pass ends.
#[derive(Clone, Copy, Debug, PartialEq, Eq)]
pub enum Outcome {
    Steps(u32),
    Number(u32),
}

/// The lines without their line feeds. What stands behind the last line feed is a line only if it
/// has a byte.
pub fn lines(bytes: &[u8]) -> Vec<&[u8]> {
    let mut lines: Vec<&[u8]> = bytes.split(|&byte| byte == b'\n').collect();
    if lines.last().is_some_and(|last| last.is_empty()) {
        lines.pop();
    }
    lines
}

/// The record of a line, none where the line has another form. "The line's number is the arrival
/// number" (document 02, slip 7); lines are counted from 1.
pub fn record(line: &[u8], counted: usize) -> Option<Record> {
    let arrival = counted as u32;
    let text = std::str::from_utf8(line).ok()?;
    let fields: Vec<&str> = text.split('\t').collect();
    match fields[..] {
        ["A", term, position] => Some(Record {
            kind: ADD,
            term: figure(term)?,
            from: figure(position)?,
            to: figure(position)?,
            arrival,
        }),
        ["R", term, from, to] => Some(Record {
            kind: REMOVE,
            term: figure(term)?,
            from: figure(from)?,
            to: figure(to)?,
            arrival,
        }),
        _ => None,
    }
}

/// The number that a figure stands for. Only the number's own decimal text is a figure: what reads
/// as a number but has a sign or a leading zero comes out otherwise when it is written again.
fn figure(text: &str) -> Option<u32> {
    let value: u32 = text.parse().ok()?;
    (value.to_string() == text).then_some(value)
}

/// The number 12 or 13 of the first line that has one, and which line it is, counted from 1.
pub fn fault(bytes: &[u8]) -> Option<(u32, usize)> {
    for (line, counted) in lines(bytes).into_iter().zip(1..) {
        if record(line, counted).is_none() {
            return Some((number::SCORES_LINE, counted));
        }
        if counted > MOST_RECORDS {
            return Some((number::SCORES_LINES, counted));
        }
    }
    None
}

/// The words of a file's batch, for a file without a fault.
pub fn batch(bytes: &[u8]) -> Vec<u32> {
    let mut records: Vec<Record> = Vec::new();
    for (line, counted) in lines(bytes).into_iter().zip(1..) {
        records.push(record(line, counted).expect("a line of a file without a fault"));
    }
    // This sort leaves equal ones in their order.
    records.sort_by_key(|record| (record.term, record.from));
    records.iter().flat_map(Record::words).collect()
}

/// Writes the batch into the first of the words lent for it.
pub fn scores(bytes: &[u8], lent: &mut [u32]) -> ScoresAnswer {
    let refused = |number, line| ScoresAnswer {
        number,
        words: 0,
        line,
    };
    if let Some((number, line)) = fault(bytes) {
        return refused(number, line);
    }
    let batch = batch(bytes);
    if lent.len() < batch.len() {
        return refused(number::ANSWER_WORDS, 0);
    }
    lent[..batch.len()].copy_from_slice(&batch);
    ScoresAnswer {
        number: number::DONE,
        words: batch.len(),
        line: 0,
    }
}

/// A pass with the file's batch on a fresh card of zeros.
pub fn outcome(bytes: &[u8]) -> Outcome {
    match fault(bytes) {
        Some((number, _)) => Outcome::Number(number),
        None => pass(&batch(bytes)),
    }
}

/// How a pass with this batch ends on a fresh card of zeros.
pub fn pass(batch: &[u32]) -> Outcome {
    let mut card = vec![0; layout::card_words(B, N) as usize];
    assert_eq!(layout::format(&mut card, B, N), number::DONE);
    let mut steps = 0;
    loop {
        let answer = step::step(&mut card, batch);
        if answer.number != number::DONE {
            return Outcome::Number(answer.number);
        }
        steps += 1;
        if answer.finished {
            return Outcome::Steps(steps);
        }
    }
}

/// What the program prints for the bytes of its standard input.
pub fn printed(bytes: &[u8]) -> String {
    match outcome(bytes) {
        Outcome::Steps(steps) => format!("D\t{steps}\n"),
        Outcome::Number(number) => format!("N\t{number}\n"),
    }
}
