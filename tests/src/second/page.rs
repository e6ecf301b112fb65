// The bulletin page (document 02, slip 1): a lookup's postings on paper, and a page read back.

use std::ops::Range;

use super::lookup::PostingReader;
use super::number;

/// The bytes of a line with its line feed.
pub const LINE_BYTES: usize = 66;
pub const LINE_POSITIONS: usize = 5;

#[derive(Clone, Copy, Debug, PartialEq, Eq)]
pub struct PageAnswer {
    pub number: u32,
    pub lines: u32,
}

pub fn page(card: &[u32], term: u32, from: u32, to: u32, memory: &mut [u8]) -> PageAnswer {
    let refused = |number| PageAnswer { number, lines: 0 };
    let reader = PostingReader::open(card, term, from, to);
    if reader.number() != number::DONE {
        return refused(reader.number());
    }
    let positions: Vec<u32> = reader.collect();
    let mut text = String::new();
    let mut lines = 0;
    for on_line in positions.chunks(LINE_POSITIONS) {
        text += &column(if lines == 0 { Some(term) } else { None });
        for field in 0..LINE_POSITIONS {
            text += " ";
            text += &column(on_line.get(field).copied());
        }
        text += "\n";
        lines += 1;
    }
    if memory.len() < text.len() {
        return refused(number::PAGE_MEMORY);
    }
    memory[..text.len()].copy_from_slice(text.as_bytes());
    PageAnswer {
        number: number::DONE,
        lines,
    }
}

/// A number right-aligned in 10 columns, or 10 blanks.
fn column(number: Option<u32>) -> String {
    match number {
        Some(number) => format!("{number:>10}"),
        None => format!("{:>10}", ""),
    }
}

/// The bytes that the lines of so many postings need.
pub fn page_bytes(postings: usize) -> usize {
    postings.div_ceil(LINE_POSITIONS) * LINE_BYTES
}

/// The columns of a line, the first of them 0: of the term, of each position, and of the blanks.
const TERM: Range<usize> = 0..10;
const POSITIONS: [Range<usize>; LINE_POSITIONS] = [11..21, 22..32, 33..43, 44..54, 55..65];
const BLANKS: [usize; LINE_POSITIONS] = [10, 21, 32, 43, 54];
const LINE_FEED: usize = 65;

/// The term that stands in a page, none where it has no lines, and the positions in their order.
/// None where the bytes are no page.
pub fn read_page(bytes: &[u8]) -> Option<(Option<u32>, Vec<u32>)> {
    if bytes.len() % LINE_BYTES != 0 {
        return None;
    }
    let mut terms = Vec::new();
    let mut fields = Vec::new();
    for line in bytes.chunks(LINE_BYTES) {
        if line[LINE_FEED] != b'\n' || BLANKS.iter().any(|&blank| line[blank] != b' ') {
            return None;
        }
        terms.push(read_column(&line[TERM])?);
        for columns in POSITIONS {
            fields.push(read_column(&line[columns])?);
        }
    }
    // The term stands on the first line and on no other.
    let term = match terms.first() {
        None => None,
        Some(&first) => Some(first?),
    };
    if terms.iter().skip(1).any(Option::is_some) {
        return None;
    }
    // Fields are absent at the end alone, and some field of the last line is there.
    let positions: Vec<u32> = fields.iter().flatten().copied().collect();
    let at_the_end = fields[positions.len()..].iter().all(Option::is_none);
    if !at_the_end || fields.len() - positions.len() >= LINE_POSITIONS {
        return None;
    }
    Some((term, positions))
}

/// The number in 10 columns, none where all are blank. None at all where a blank follows a digit, a
/// 0 leads, the number is too large, or another byte stands there.
fn read_column(columns: &[u8]) -> Option<Option<u32>> {
    let blanks = columns.iter().take_while(|&&byte| byte == b' ').count();
    let digits = &columns[blanks..];
    if digits.is_empty() {
        return Some(None);
    }
    if digits[0] == b'0' || !digits.iter().all(u8::is_ascii_digit) {
        return None;
    }
    let mut value: u64 = 0;
    for digit in digits {
        value = 10 * value + u64::from(digit - b'0');
    }
    Some(Some(u32::try_from(value).ok()?))
}
