// The batch: its records, the judgement of its form, arrival numbers and order, its meaning for a set
// of pairs.

use std::collections::BTreeSet;

use super::layout::Pair;
use super::number;

/// Kind, term, from, to and, since slip 7 of document 02, the arrival number.
pub const RECORD_WORDS: usize = 5;
pub const MOST_RECORDS: usize = 4096;
pub const ADD: u32 = 1;
pub const REMOVE: u32 = 2;
pub const ANNUL: u32 = 3;

#[derive(Clone, Copy, Debug, PartialEq, Eq)]
pub struct Record {
    pub kind: u32,
    pub term: u32,
    pub from: u32,
    pub to: u32,
    pub arrival: u32,
}

impl Record {
    pub fn words(&self) -> [u32; RECORD_WORDS] {
        [self.kind, self.term, self.from, self.to, self.arrival]
    }

    /// Whether no position lies from from to to; only a removal may have such a range (document 02,
    /// slip 5).
    pub fn is_empty_range(&self) -> bool {
        self.from > self.to
    }

    /// Number 6 skips the arrival number (document 02, slip 7).
    fn is_well_formed(&self) -> bool {
        let kind_known = [ADD, REMOVE, ANNUL].contains(&self.kind);
        let term_of_its_kind = (self.term == 0) == (self.kind == ANNUL);
        let no_zero = self.from != 0 && self.to != 0;
        let one_pair = self.kind != ADD || self.from == self.to;
        kind_known && term_of_its_kind && no_zero && one_pair
    }
}

/// The whole records of a batch.
pub fn records(batch: &[u32]) -> Vec<Record> {
    batch
        .chunks_exact(RECORD_WORDS)
        .map(|words| Record {
            kind: words[0],
            term: words[1],
            from: words[2],
            to: words[3],
            arrival: words[4],
        })
        .collect()
}

/// 6, 14, 7 or 0: 14 is checked after 6 and before 7 (document 02, slip 7).
pub fn judge_batch(batch: &[u32]) -> u32 {
    if batch.len() % RECORD_WORDS != 0 || batch.len() / RECORD_WORDS > MOST_RECORDS {
        return number::BATCH_FORM;
    }
    let records = records(batch);
    if !records.iter().all(Record::is_well_formed) {
        return number::BATCH_FORM;
    }
    if !arrivals_hold(&records) {
        return number::BATCH_ARRIVAL;
    }
    let falls = |two: &[Record]| (two[1].term, two[1].from) < (two[0].term, two[0].from);
    if records.windows(2).any(falls) {
        return number::BATCH_ORDER;
    }
    number::DONE
}

/// Whether no arrival number is 0 or used twice (document 02, slip 7). A range without a position has
/// one like any other record.
fn arrivals_hold(records: &[Record]) -> bool {
    let mut arrivals: Vec<u32> = records.iter().map(|record| record.arrival).collect();
    arrivals.sort_unstable();
    let used_twice = arrivals.windows(2).any(|two| two[0] == two[1]);
    !arrivals.contains(&0) && !used_twice
}

/// The set after a batch judged 0. "Of all records touching a pair, the latest wins" (document 02,
/// slip 7): the records are taken as they arrived, and each says anew of the pairs it touches whether
/// they are in the set. A pair that none touches stays as it was.
pub fn applied(batch: &[u32], set: &BTreeSet<Pair>) -> BTreeSet<Pair> {
    let mut records = records(batch);
    records.sort_by_key(|record| record.arrival);
    // The same set by position, where some record removes under every term.
    let annuls = records.iter().any(|record| record.kind == ANNUL);
    let mut by_position: BTreeSet<(u32, u32)> = BTreeSet::new();
    if annuls {
        by_position.extend(set.iter().map(|&(term, position)| (position, term)));
    }
    let mut result = set.clone();
    for record in records {
        let Record {
            kind,
            term,
            from,
            to,
            ..
        } = record;
        // A range without a position touches nothing (document 02, slip 5).
        if record.is_empty_range() {
            continue;
        }
        if kind == ADD {
            result.insert((term, from));
            if annuls {
                by_position.insert((from, term));
            }
            continue;
        }
        let removed: Vec<Pair> = if kind == REMOVE {
            result.range((term, from)..=(term, to)).copied().collect()
        } else {
            let under_every_term = by_position.range((from, u32::MIN)..=(to, u32::MAX));
            under_every_term
                .map(|&(position, term)| (term, position))
                .collect()
        };
        for (term, position) in removed {
            result.remove(&(term, position));
            by_position.remove(&(position, term));
        }
    }
    result
}
