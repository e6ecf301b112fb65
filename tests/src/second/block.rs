// One block: reading its entries, the cost of pairs, packing pairs into words.

use std::ops::Range;

use super::layout::Pair;

/// An entry as found in a block: its term, and the words of the block that hold its positions.
#[derive(Clone, Debug, PartialEq, Eq)]
pub struct Entry {
    pub term: u32,
    pub positions: Range<usize>,
}

/// The entries of a block, or none if it is ill formed. A block of zeros has no entries.
pub fn entries(words: &[u32]) -> Option<Vec<Entry>> {
    let mut entries: Vec<Entry> = Vec::new();
    let mut at = 0;
    while words.len() - at >= 3 && words[at] != 0 {
        let term = words[at];
        let count = words[at + 1];
        let start = at + 2;
        if let Some(before) = entries.last() {
            if term <= before.term {
                return None;
            }
        }
        if count < 1 || u64::from(count) > (words.len() - start) as u64 {
            return None;
        }
        let positions = start..start + count as usize;
        if words[start] == 0 || !rises(&words[positions.clone()]) {
            return None;
        }
        at = positions.end;
        entries.push(Entry { term, positions });
    }
    if words[at..].iter().any(|&word| word != 0) {
        return None;
    }
    Some(entries)
}

fn rises(words: &[u32]) -> bool {
    words.windows(2).all(|two| two[0] < two[1])
}

/// The pairs of a block in order, or none if it is ill formed.
pub fn pairs(words: &[u32]) -> Option<Vec<Pair>> {
    let mut pairs = Vec::new();
    for entry in entries(words)? {
        let positions = &words[entry.positions];
        pairs.extend(positions.iter().map(|&position| (entry.term, position)));
    }
    Some(pairs)
}

/// The words a pair takes after the block's previous pair.
pub fn cost(previous: Option<Pair>, pair: Pair) -> usize {
    match previous {
        Some((term, _)) if term == pair.0 => 1,
        _ => 3,
    }
}

/// The longest beginning of rising pairs that fits in `b` words.
pub fn longest_beginning<I: Iterator<Item = Pair>>(pairs: I, b: usize) -> Vec<Pair> {
    let mut beginning: Vec<Pair> = Vec::new();
    let mut used = 0;
    for pair in pairs {
        used += cost(beginning.last().copied(), pair);
        if used > b {
            break;
        }
        beginning.push(pair);
    }
    beginning
}

/// The words of a block of `b` words that holds these rising pairs, which fit.
pub fn block_words(pairs: &[Pair], b: usize) -> Vec<u32> {
    let mut words = Vec::new();
    let mut rest = pairs;
    while let Some(&(term, _)) = rest.first() {
        let count = rest.iter().take_while(|pair| pair.0 == term).count();
        words.push(term);
        words.push(count as u32);
        words.extend(rest[..count].iter().map(|pair| pair.1));
        rest = &rest[count..];
    }
    assert!(words.len() <= b, "pairs that do not fit in a block");
    words.resize(b, 0);
    words
}
