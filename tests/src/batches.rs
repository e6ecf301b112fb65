// Makers of batches: good ones over a small universe of terms and positions, and bad ones.

use std::collections::BTreeSet;

use crate::cards;
use crate::random::Random;
use crate::second::batch::{self, Record, ADD, ANNUL, MOST_RECORDS, RECORD_WORDS, REMOVE};
use crate::second::{judge_batch, Configuration, Pair, HIGHEST, LOWEST};

const TOP: u32 = u32::MAX;

/// The terms and positions a test draws from, so that pairs meet often.
#[derive(Clone, Debug)]
pub struct Universe {
    pub terms: Vec<u32>,
    pub positions: Vec<u32>,
}

impl Universe {
    pub fn random(random: &mut Random) -> Universe {
        let top = u32::MAX;
        let (terms, positions) = match random.below(7) {
            0 => ((1..=4).collect(), (1..=8).collect()),
            1 => ((1..=12).collect(), (1..=40).collect()),
            2 => ((top - 3..=top).collect(), (top - 9..=top).collect()),
            3 => (
                vec![1, 2, 3, top - 1, top],
                vec![1, 2, 3, 4, top - 2, top - 1, top],
            ),
            4 => (drawn(random, 6), drawn(random, 30)),
            5 => (vec![random.pick(&[1, 5, top])], (1..=60).collect()),
            _ => ((1..=40).collect(), vec![1, 2, top]),
        };
        Universe { terms, positions }
    }

    /// Terms and positions enough to fill `words` words of blocks.
    pub fn wide(words: usize) -> Universe {
        let terms = 1 + words / 40;
        let step = u32::MAX / 60;
        Universe {
            terms: (1..=terms as u32).map(|i| i * 3).collect(),
            positions: (1..=60).map(|i| i * step).collect(),
        }
    }

    pub fn term(&self, random: &mut Random) -> u32 {
        random.pick(&self.terms)
    }

    pub fn position(&self, random: &mut Random) -> u32 {
        random.pick(&self.positions)
    }

    pub fn range(&self, random: &mut Random) -> (u32, u32) {
        if random.chance(1, 6) {
            return (1, u32::MAX);
        }
        let (one, other) = (self.position(random), self.position(random));
        (one.min(other), one.max(other))
    }

    /// The range of a removal, now and then an empty one.
    pub fn removed_range(&self, random: &mut Random) -> (u32, u32) {
        let range = self.range(random);
        or_empty(random, range)
    }

    /// Terms and positions at 4,294,967,295 and next to it.
    pub fn at_the_top() -> [Universe; 4] {
        [
            Universe {
                terms: vec![TOP],
                positions: (TOP - 20..=TOP).collect(),
            },
            Universe {
                terms: (TOP - 5..=TOP).collect(),
                positions: vec![TOP - 1, TOP],
            },
            Universe {
                terms: (TOP - 9..=TOP).collect(),
                positions: vec![TOP],
            },
            Universe {
                terms: vec![1, 2, TOP - 1, TOP],
                positions: vec![1, 2, 1 << 31, TOP - 2, TOP - 1, TOP],
            },
        ]
    }

    /// The batch that removes every pair of the universe.
    pub fn remove_all(&self) -> Vec<u32> {
        let record = |&term: &u32| removal(term, 1, u32::MAX);
        words(self.terms.iter().map(record).collect())
    }
}

/// A range that rises, or now and then one with no position in it, from one of its ends down.
pub fn or_empty(random: &mut Random, (from, to): (u32, u32)) -> (u32, u32) {
    match random.below(12) {
        0 => (to, from),
        1 if from > 1 => (from, from - 1),
        _ => (from, to),
    }
}

fn drawn(random: &mut Random, count: usize) -> Vec<u32> {
    (0..count).map(|_| random.within(1, u32::MAX)).collect()
}

/// What a batch does. Removals are of one term's positions or, a few of them, of every term's.
#[derive(Clone, Copy, Debug, PartialEq, Eq)]
pub enum Mixture {
    Additions,
    Removals,
    Both,
}

impl Mixture {
    pub fn random(random: &mut Random) -> Mixture {
        random.pick(&[
            Mixture::Additions,
            Mixture::Additions,
            Mixture::Both,
            Mixture::Both,
            Mixture::Removals,
        ])
    }

    /// How many records remove under every term: none in half of the batches that remove at all,
    /// else a few, so that others still have something to do.
    fn annulments(self, random: &mut Random) -> usize {
        if self == Mixture::Additions || random.chance(1, 2) {
            0
        } else {
            1 + random.below(3)
        }
    }
}

/// A record that arrives first, so that alone it is a batch.
pub fn addition(term: u32, position: u32) -> Record {
    Record {
        kind: ADD,
        term,
        from: position,
        to: position,
        arrival: 1,
    }
}

pub fn removal(term: u32, from: u32, to: u32) -> Record {
    Record {
        kind: REMOVE,
        term,
        from,
        to,
        arrival: 1,
    }
}

pub fn annulment(from: u32, to: u32) -> Record {
    Record {
        kind: ANNUL,
        term: 0,
        from,
        to,
        arrival: 1,
    }
}

/// Whether a batch that is judged 0 has a record that removes under every term.
pub fn annuls(batch: &[u32]) -> bool {
    batch.first() == Some(&ANNUL)
}

/// Whether a batch that is judged 0 has a range with no position in it.
pub fn has_empty_range(batch: &[u32]) -> bool {
    batch::records(batch).iter().any(Record::is_empty_range)
}

/// The batch with every range that has no position in it taken out; the others arrive as they did.
pub fn without_empty_ranges(batch: &[u32]) -> Vec<u32> {
    let mut records = batch::records(batch);
    records.retain(|record| !record.is_empty_range());
    records.iter().flat_map(Record::words).collect()
}

/// The records as words, put in order; of equal ones the earlier stays first. The additions arrive
/// after all removals, so that they win.
pub fn words(records: Vec<Record>) -> Vec<u32> {
    numbered(&in_order(records))
}

/// The same with arrival numbers drawn.
pub fn drawn_words(random: &mut Random, records: Vec<Record>) -> Vec<u32> {
    arriving(random, &in_order(records))
}

/// The records put in order, as words without arrival numbers.
fn in_order(mut records: Vec<Record>) -> Vec<u32> {
    records.sort_by_key(|record| (record.term, record.from));
    records.iter().flat_map(without_arrival).collect()
}

/// The words of records without arrival numbers, four each.
pub const PLAIN_WORDS: usize = RECORD_WORDS - 1;

/// A record without its arrival number.
pub fn without_arrival(record: &Record) -> [u32; PLAIN_WORDS] {
    [record.kind, record.term, record.from, record.to]
}

/// The batch of records without arrival numbers, with the numbers 1, 2, 3 and so on: whatever removes
/// arrives first, by place, then whatever adds. So every addition wins. Words behind the last whole
/// record stay behind.
pub fn numbered(plain: &[u32]) -> Vec<u32> {
    let kinds = || plain.chunks_exact(PLAIN_WORDS).map(|record| record[0]);
    let mut removal = 0;
    let mut addition = kinds().filter(|&kind| kind != ADD).count() as u32;
    let arrivals: Vec<u32> = kinds()
        .map(|kind| {
            let next = if kind == ADD {
                &mut addition
            } else {
                &mut removal
            };
            *next += 1;
            *next
        })
        .collect();
    with_arrivals(plain, &arrivals)
}

/// The records as words, put in order, with rising numbers drawn that keep the order of their arrival
/// numbers; where two are equal, the first arrives first.
pub fn by_arrival(random: &mut Random, mut records: Vec<Record>) -> Vec<u32> {
    let mut arrivals = arrivals(random, records.len());
    arrivals.sort_unstable();
    records.sort_by_key(|record| record.arrival);
    for (record, arrival) in records.iter_mut().zip(arrivals) {
        record.arrival = arrival;
    }
    records.sort_by_key(|record| (record.term, record.from));
    records.iter().flat_map(Record::words).collect()
}

/// The batch of records without arrival numbers, with numbers drawn.
pub fn arriving(random: &mut Random, plain: &[u32]) -> Vec<u32> {
    let arrivals = arrivals(random, plain.len() / PLAIN_WORDS);
    with_arrivals(plain, &arrivals)
}

/// The batch of records without arrival numbers, with these numbers by place.
pub fn with_arrivals(plain: &[u32], arrivals: &[u32]) -> Vec<u32> {
    let whole = plain.chunks_exact(PLAIN_WORDS);
    assert_eq!(whole.len(), arrivals.len());
    let behind = whole.remainder();
    let mut batch = Vec::with_capacity(plain.len() + arrivals.len());
    for (record, &arrival) in whole.zip(arrivals) {
        batch.extend_from_slice(record);
        batch.push(arrival);
    }
    batch.extend_from_slice(behind);
    batch
}

/// A batch's whole records without their arrival numbers.
pub fn plain(batch: &[u32]) -> Vec<u32> {
    batch::records(batch)
        .iter()
        .flat_map(without_arrival)
        .collect()
}

/// So many different arrival numbers: those of the places as they are, back to front or mixed, words
/// up to the highest, any words, or small and great ones together.
pub fn arrivals(random: &mut Random, count: usize) -> Vec<u32> {
    let most = count as u32;
    let mut arrivals: Vec<u32> = match random.below(8) {
        0 => return (1..=most).collect(),
        1 => return (1..=most).rev().collect(),
        2..=4 => (1..=most).collect(),
        5 => (0..most).map(|i| TOP - i).collect(),
        which => {
            let mut different = BTreeSet::new();
            while different.len() < count {
                different.insert(match which {
                    6 => random.within(1, TOP),
                    _ => match random.below(4) {
                        0 => TOP - random.below(2 * count) as u32,
                        1 => (1 << 31) + random.below(2 * count) as u32,
                        2 => random.within(1, TOP),
                        _ => random.within(1, 2 * most),
                    },
                });
            }
            different.into_iter().collect()
        }
    };
    random.shuffle(&mut arrivals);
    arrivals
}

/// A batch that is judged 0.
pub fn good(random: &mut Random, universe: &Universe, mixture: Mixture, most: usize) -> Vec<u32> {
    let count = random.below(most + 1);
    let annulments = mixture.annulments(random);
    let mut records = Vec::new();
    for at in 0..count {
        if at < annulments {
            let (from, to) = if random.chance(1, 2) {
                universe.removed_range(random)
            } else {
                let position = universe.position(random);
                let beside = beside(random, position);
                or_empty(random, (position.min(beside), position))
            };
            records.push(annulment(from, to));
            continue;
        }
        let adds = match mixture {
            Mixture::Additions => true,
            Mixture::Removals => false,
            Mixture::Both => random.chance(2, 3),
        };
        let term = universe.term(random);
        if adds {
            records.push(addition(term, universe.position(random)));
        } else {
            let (from, to) = universe.removed_range(random);
            records.push(removal(term, from, to));
        }
    }
    let batch = drawn_words(random, records);
    assert_eq!(judge_batch(&batch), 0);
    batch
}

/// A batch that is judged 0, its records at the pairs of a sound card and next to them: at the ends
/// of blocks, at the boundary, at old pairs that are no longer live, at the bounds of all pairs.
pub fn near(random: &mut Random, card: &[u32], mixture: Mixture, most: usize) -> Vec<u32> {
    let known = known_pairs(card);
    let annulments = mixture.annulments(random);
    let mut records = Vec::new();
    for at in 0..random.below(most + 1) {
        let (mut term, position) = random.pick(&known);
        if random.chance(1, 8) {
            term = beside(random, term);
        }
        let from = if random.chance(1, 2) {
            position
        } else {
            beside(random, position)
        };
        let adds = match mixture {
            Mixture::Additions => true,
            Mixture::Removals => false,
            Mixture::Both => random.chance(1, 2),
        };
        let to = match random.below(5) {
            0 => from,
            1 => from.saturating_add(1),
            2 => u32::MAX,
            _ => random.pick(&known).1.max(from),
        };
        let (removed_from, removed_to) = or_empty(random, (from, to));
        if at < annulments {
            records.push(annulment(removed_from, removed_to));
        } else if adds {
            records.push(addition(term, from));
        } else {
            records.push(removal(term, removed_from, removed_to));
        }
    }
    let batch = drawn_words(random, records);
    assert_eq!(judge_batch(&batch), 0);
    batch
}

/// A batch that is judged 0, over a universe or at the card's own pairs.
pub fn any(random: &mut Random, card: &[u32], universe: &Universe, most: usize) -> Vec<u32> {
    let mixture = Mixture::random(random);
    if random.chance(1, 2) {
        near(random, card, mixture, most)
    } else {
        good(random, universe, mixture, most)
    }
}

/// A batch of exactly `count` records that is judged 0, with a few positions removed under every
/// term.
pub fn exactly(random: &mut Random, universe: &Universe, count: usize) -> Vec<u32> {
    let annulments = random.below(2) * (count / 3).min(3);
    let mut records = Vec::new();
    for at in 0..count {
        if at < annulments {
            let position = universe.position(random);
            let (from, to) = or_empty(random, (position, position));
            records.push(annulment(from, to));
            continue;
        }
        let term = universe.term(random);
        if random.chance(2, 3) {
            records.push(addition(term, universe.position(random)));
        } else {
            let (from, to) = universe.removed_range(random);
            records.push(removal(term, from, to));
        }
    }
    let batch = drawn_words(random, records);
    assert_eq!(judge_batch(&batch), 0);
    batch
}

/// Batches of 4,096 records, one of them of 4,095: any, one addition or one removal again and again,
/// rising positions, rising terms, and stretches under every term.
pub fn longest(random: &mut Random) -> [Vec<u32>; 6] {
    let universe = Universe::wide(4000);
    let step = TOP / 4096;
    [
        exactly(random, &universe, 4096),
        drawn_words(random, vec![addition(7, 7); 4096]),
        drawn_words(random, vec![removal(7, 7, TOP); 4095]),
        drawn_words(random, (1..=4096).map(|i| addition(5, i * 9)).collect()),
        drawn_words(random, (1..=4096).map(|i| addition(i * 9, 5)).collect()),
        drawn_words(
            random,
            (0..4096)
                .map(|i| annulment(i * step + 1, i * step + 9))
                .collect(),
        ),
    ]
}

/// Changes of one word of such a batch's first or last record, by field and value.
pub const LONGEST_FAULTS: [(usize, u32); 6] = [(3, 0), (2, 0), (0, 3), (0, 0), (1, TOP), (4, 0)];

/// The batch with one record more at its end, which is in order there; its arrival number is the
/// least that is free.
pub fn with_a_last_record(batch: &[u32]) -> Vec<u32> {
    let used: BTreeSet<u32> = batch::records(batch).iter().map(|r| r.arrival).collect();
    let arrival = (1..).find(|number| !used.contains(number)).expect("a word");
    let last = Record {
        arrival,
        ..addition(TOP, TOP)
    };
    [batch, &last.words()].concat()
}

/// What a record can be over small alphabets, without its arrival number.
pub fn every_small_record() -> Vec<[u32; PLAIN_WORDS]> {
    let mut records = Vec::new();
    for kind in [0, 1, 2, 3, 4, TOP] {
        for term in [0, 1, 2, TOP] {
            for from in [0, 1, 2, TOP] {
                for to in [0, 1, 2, TOP] {
                    records.push([kind, term, from, to]);
                }
            }
        }
    }
    records
}

/// Those of them that are judged 0 as a batch of one record.
pub fn every_good_small_record() -> Vec<[u32; PLAIN_WORDS]> {
    let mut records = every_small_record();
    records.retain(|record| judge_batch(&numbered(record)) == 0);
    records
}

/// Every batch of one record over the pairs of the small indexes.
pub fn every_record_of_a_small_index() -> Vec<[u32; RECORD_WORDS]> {
    let numbers = [1, 2, TOP];
    let mut records = Vec::new();
    for term in numbers {
        for from in numbers {
            records.push(addition(term, from).words());
            records.extend(numbers.map(|to| removal(term, from, to).words()));
        }
    }
    for from in numbers {
        records.extend(numbers.map(|to| annulment(from, to).words()));
    }
    records
}

/// Changes of one word of a record of a batch, by field and value, that may be faults.
pub fn faults(random: &mut Random, batch: &[u32], at: usize) -> Vec<(usize, u32)> {
    let record = &batch[RECORD_WORDS * at..RECORD_WORDS * (at + 1)];
    let (from, to, arrival) = (record[2], record[3], record[4]);
    let other = RECORD_WORDS * random.below(batch.len() / RECORD_WORDS) + 4;
    let mut faults: Vec<(usize, u32)> = vec![
        (0, 0),
        (0, 1),
        (0, 2),
        (0, 3),
        (0, 4),
        (0, 1 << 16 | 1),
        (0, 1 << 16 | 3),
        (0, TOP),
        (1, 0),
        (1, 5),
        (2, 0),
        (3, 0),
        (2, to.wrapping_add(1)),
        (3, from.wrapping_sub(1)),
        (2, TOP),
        (3, 1),
        (1, 1),
        (1, TOP),
        (2, 1),
        (3, TOP),
        // Arrival numbers: 0, another record's, and ones next to this.
        (4, 0),
        (4, batch[other]),
        (4, arrival.wrapping_add(1)),
        (4, arrival.wrapping_sub(1)),
    ];
    faults.push((random.below(RECORD_WORDS), random.word()));
    faults
}

fn beside(random: &mut Random, word: u32) -> u32 {
    if random.chance(1, 2) {
        word.saturating_add(1)
    } else {
        word.saturating_sub(1).max(1)
    }
}

/// All pairs of a sound card's live blocks, live or not, the boundary, and the bounds of all pairs.
fn known_pairs(card: &[u32]) -> Vec<Pair> {
    let mut known = vec![LOWEST, HIGHEST];
    known.extend(Configuration::read(card).boundary());
    for pairs in cards::block_pairs(card) {
        // The ends of a block count double.
        known.extend([pairs[0], pairs[pairs.len() - 1]]);
        known.extend(pairs);
    }
    known
}

/// How the stretches that a batch removes under every term lie, to each other and to the positions
/// that matter.
#[derive(Clone, Copy, Debug, PartialEq, Eq)]
pub enum Stretches {
    /// One position or two.
    Narrow,
    /// From any position to any other.
    Wide,
    /// Each starts inside the one before and ends behind it.
    Overlapping,
    /// Each inside the one before.
    Nested,
    /// One and the same.
    Equal,
    /// A few starts with many ends in any order.
    EqualStarts,
    /// A wide one, then narrow ones inside it and some behind.
    WideBeforeNarrow,
    /// From behind one position up to the next one, or to just before it.
    Adjacent,
    /// Between two positions, and touching none.
    Between,
    /// From the lowest position on, and up to the highest.
    AtTheEnds,
    /// From any position down to a lower one, so that none is in it, but for one wide one now and
    /// then.
    Empty,
}

impl Stretches {
    pub const EVERY: [Stretches; 11] = [
        Stretches::Narrow,
        Stretches::Wide,
        Stretches::Overlapping,
        Stretches::Nested,
        Stretches::Equal,
        Stretches::EqualStarts,
        Stretches::WideBeforeNarrow,
        Stretches::Adjacent,
        Stretches::Between,
        Stretches::AtTheEnds,
        Stretches::Empty,
    ];

    /// So many records, in order, at rising positions, of which there are at least two. Of the other
    /// shapes too a few records have no position in them.
    pub fn records(self, random: &mut Random, positions: &[u32], count: usize) -> Vec<Record> {
        let last = positions.len() - 1;
        let mut stretches: Vec<(u32, u32)> = Vec::new();
        let equal = drawn_stretch(random, positions);
        let gaps = gaps(positions);
        let starts = [
            positions[0],
            random.pick(positions),
            positions[last / 2],
            random.pick(positions),
        ];
        for at in 0..count {
            // Of the positions, as far along as this record is among the records.
            let along = at * positions.len() / count;
            let next = positions[(along + 1).min(last)];
            let from = positions[along];
            stretches.push(match self {
                Stretches::Narrow => {
                    let position = random.pick(positions);
                    (position, position.saturating_add(random.below(2) as u32))
                }
                Stretches::Wide => drawn_stretch(random, positions),
                Stretches::Overlapping => {
                    let reach = 1 + random.below(2) + positions.len() / 16;
                    (from, positions[(along + reach).min(last)])
                }
                Stretches::Nested => (positions[along / 2], positions[last - along / 2]),
                Stretches::Equal => equal,
                Stretches::EqualStarts => (random.pick(&starts), random.pick(positions)),
                Stretches::WideBeforeNarrow if at == 0 => {
                    (positions[last / 8], positions[last / 2])
                }
                Stretches::WideBeforeNarrow => {
                    let position = positions[random.below(last + 1).max(last / 8)];
                    (position, position)
                }
                Stretches::Adjacent => (
                    from.saturating_add(1),
                    next.saturating_sub(random.below(2) as u32),
                ),
                Stretches::Between => gaps[at * gaps.len() / count],
                Stretches::AtTheEnds => match random.below(5) {
                    0 => (1, random.pick(&positions[..=last / 4])),
                    1 => (1, 1),
                    2 => (u32::MAX, u32::MAX),
                    3 => (random.pick(&positions[last - last / 4..]), u32::MAX),
                    _ => (from, from),
                },
                Stretches::Empty => drawn_stretch(random, positions),
            });
        }
        let wide = self == Stretches::Empty && random.chance(1, 2);
        let mut records = Vec::new();
        for (at, (one, other)) in stretches.into_iter().enumerate() {
            let (low, high) = (one.min(other), one.max(other));
            let (from, to) = match self {
                Stretches::Empty if wide && at == count / 2 => (low, high),
                Stretches::Empty if low == high => (high.max(2), high.max(2) - 1),
                Stretches::Empty => (high, low),
                _ => or_empty(random, (low, high)),
            };
            records.push(annulment(from, to));
        }
        records.sort_by_key(|record| record.from);
        records
    }
}

/// The stretches between rising positions, below the first and above the last.
fn gaps(positions: &[u32]) -> Vec<(u32, u32)> {
    let mut ends = vec![0];
    ends.extend_from_slice(positions);
    let mut gaps: Vec<(u32, u32)> = ends
        .windows(2)
        .filter(|two| two[1] - two[0] > 1)
        .map(|two| (two[0] + 1, two[1] - 1))
        .collect();
    let last = positions[positions.len() - 1];
    if last < TOP {
        gaps.push((last + 1, TOP));
    }
    gaps
}

fn drawn_stretch(random: &mut Random, positions: &[u32]) -> (u32, u32) {
    (random.pick(positions), random.pick(positions))
}

/// Ranges with no position in them, from far above to and from just above it, at both ends of all
/// positions and between them.
pub const EMPTY_RANGES: [(u32, u32); 9] = [
    (2, 1),
    (3, 1),
    (4, 3),
    (9, 3),
    (9, 8),
    (10, 2),
    (TOP, 1),
    (TOP, 5),
    (TOP, TOP - 1),
];

/// Batches in order with such ranges, where the order by to, or by the lesser of from and to, would
/// fall in many; without arrival numbers, as the tables below.
pub const EMPTY_RANGES_IN_ORDER: [&[u32]; 24] = [
    &[2, 5, 2, 1],
    &[2, 5, 9, 3],
    &[2, 1, TOP, 1],
    &[2, TOP, TOP, TOP - 1],
    &[3, 0, 2, 1],
    &[3, 0, 9, 3],
    &[3, 0, TOP, 1],
    &[2, 5, 8, 20, 2, 5, 9, 3],
    &[2, 5, 9, 20, 2, 5, 9, 3],
    &[2, 5, 9, 3, 2, 5, 9, 20],
    &[2, 5, 9, 3, 2, 5, 9, 8],
    &[2, 5, 9, 8, 2, 5, 9, 3],
    &[2, 5, 9, 3, 2, 5, 10, 2],
    &[2, 5, 9, 3, 1, 5, 9, 9],
    &[1, 5, 9, 9, 2, 5, 9, 3],
    &[1, 5, 8, 8, 2, 5, 9, 3],
    &[2, 5, 9, 3, 2, 6, 2, 1],
    &[2, 5, 2, 9, 2, 5, 8, 4, 2, 5, 9, 1],
    &[3, 0, 8, 20, 3, 0, 9, 3],
    &[3, 0, 9, 3, 3, 0, 9, 20],
    &[3, 0, 9, 3, 3, 0, 10, 2],
    &[3, 0, TOP, 1, 2, 1, 2, 1],
    &[3, 0, 9, 3, 1, 1, 1, 1, 2, 1, 2, 1],
    &[3, 0, 9, 3, 3, 0, 12, 20, 2, 5, 9, 3, 1, 5, 12, 12],
];

/// Batches with from above to that are refused, each with its number, and beside them some of the
/// same grounds with from below to.
pub const WRONG_EMPTY_RANGES: [(&[u32], u32); 50] = [
    // An addition has from equal to to.
    (&[1, 5, 9, 8], 6),
    (&[1, 5, 8, 9], 6),
    (&[1, 5, 2, 1], 6),
    (&[1, 5, TOP, 1], 6),
    (&[1, 1, 1, TOP], 6),
    (&[1, TOP, TOP, TOP - 1], 6),
    (&[2, 5, 9, 3, 1, 5, 9, 3], 6),
    (&[3, 0, 9, 3, 1, 5, 9, 3], 6),
    // A zero in from or to.
    (&[2, 5, 9, 0], 6),
    (&[2, 5, 1, 0], 6),
    (&[2, 5, 0, 9], 6),
    (&[2, 5, 0, 0], 6),
    (&[2, TOP, TOP, 0], 6),
    (&[3, 0, 9, 0], 6),
    (&[3, 0, 1, 0], 6),
    (&[3, 0, 0, 9], 6),
    (&[3, 0, TOP, 0], 6),
    (&[2, 5, 9, 3, 2, 5, 9, 0], 6),
    (&[3, 0, 9, 3, 3, 0, 9, 0], 6),
    // Term 0 without kind 3, and kind 3 with a term.
    (&[2, 0, 9, 3], 6),
    (&[2, 0, TOP, 1], 6),
    (&[1, 0, 9, 3], 6),
    (&[3, 1, 2, 1], 6),
    (&[3, 5, 9, 3], 6),
    (&[3, TOP, TOP, 1], 6),
    (&[3, 0, 9, 3, 2, 0, 9, 3], 6),
    (&[3, 0, 9, 3, 3, 5, 9, 3], 6),
    // Kinds that are none.
    (&[0, 5, 9, 3], 6),
    (&[0, 0, 9, 3], 6),
    (&[4, 5, 9, 3], 6),
    (&[4, 0, 9, 3], 6),
    (&[1 << 16 | 2, 5, 9, 3], 6),
    (&[TOP, 0, 9, 3], 6),
    // The order falls by from, also where it rises by to.
    (&[2, 5, 9, 3, 2, 5, 8, 20], 7),
    (&[2, 5, 9, 3, 2, 5, 4, 4], 7),
    (&[2, 5, 9, 8, 2, 5, 8, 7], 7),
    (&[2, 5, 9, 3, 1, 5, 8, 8], 7),
    (&[1, 5, 9, 9, 2, 5, 8, 3], 7),
    (&[2, 5, TOP, 1, 2, 5, TOP - 1, TOP], 7),
    (&[2, 5, 9, 3, 2, 4, 20, 10], 7),
    (&[3, 0, 9, 3, 3, 0, 8, 20], 7),
    (&[3, 0, 9, 3, 3, 0, 4, 4], 7),
    (&[2, 5, 9, 3, 3, 0, 9, 3], 7),
    (&[1, 1, 1, 1, 3, 0, 2, 1], 7),
    // 6 before 7.
    (&[2, 5, 9, 3, 2, 5, 8, 0], 6),
    (&[2, 5, 9, 3, 1, 5, 8, 3], 6),
    (&[3, 0, 9, 3, 3, 0, 8, 0], 6),
    (&[1, 5, 9, 9, 3, 5, 9, 3], 6),
    (&[1, 9, 9, 9, 2, 0, 9, 3], 6),
    (&[2, 5, 0, 3, 2, 5, 9, 3, 2, 5, 8, 3], 6),
];

/// Batches with a record that removes under every term, or that would if it were not refused, each
/// with its number.
pub const WRONG_ANNULMENTS: [(&[u32], u32); 33] = [
    // Kind 3 with a term.
    (&[3, 1, 1, 9], 6),
    (&[3, 5, 2, 2], 6),
    (&[3, TOP, 1, TOP], 6),
    (&[3, 0, 1, 9, 3, 5, 1, 9], 6),
    (&[3, 0, 1, 9, 1, 5, 2, 2, 3, 5, 2, 9], 6),
    // Term 0 with another kind.
    (&[1, 0, 5, 5], 6),
    (&[2, 0, 1, 9], 6),
    (&[2, 0, 1, TOP], 6),
    (&[3, 0, 1, 9, 1, 0, 5, 5], 6),
    (&[3, 0, 1, 9, 2, 0, 1, 9], 6),
    // Kinds that are none.
    (&[0, 0, 1, 9], 6),
    (&[4, 0, 1, 9], 6),
    (&[4, 5, 1, 9], 6),
    (&[1 << 16 | 3, 0, 1, 9], 6),
    (&[TOP, 0, 1, 9], 6),
    // A zero in from or to.
    (&[3, 0, 0, 9], 6),
    (&[3, 0, 9, 0], 6),
    (&[3, 0, 0, 0], 6),
    (&[3, 0, 1, 0], 6),
    (&[3, 0, TOP, 0], 6),
    (&[3, 0, 0, TOP], 6),
    (&[3, 0, 2, 9, 3, 0, 3, 0], 6),
    // The order falls.
    (&[1, 1, 1, 1, 3, 0, 1, 9], 7),
    (&[2, 1, 1, 9, 3, 0, 9, 9], 7),
    (&[1, TOP, TOP, TOP, 3, 0, TOP, TOP], 7),
    (&[3, 0, 1, 9, 1, 5, 2, 2, 3, 0, 1, 9], 7),
    (&[3, 0, 5, 9, 3, 0, 4, 20], 7),
    (&[3, 0, 2, 2, 3, 0, 1, 1, 1, 5, 2, 2], 7),
    (&[3, 0, 5, 9, 3, 0, 4, 3], 7),
    // 6 before 7.
    (&[1, 1, 1, 1, 3, 0, 0, 9], 6),
    (&[3, 0, 5, 9, 3, 0, 4, 0], 6),
    (&[1, 5, 2, 2, 3, 4, 2, 2], 6),
    (&[1, 5, 2, 2, 3, 0, 1, 9, 2, 0, 1, 9], 6),
];

/// A wrong batch alone, and between records that can stand before any other and behind any other;
/// where `longest` says so, also first and last in batches as long as can be. The wrong batch has no
/// arrival numbers; it gets them with the others, drawn.
pub fn around(random: &mut Random, wrong: &[u32], longest: bool) -> Vec<Vec<u32>> {
    let front = without_arrival(&annulment(1, random.pick(&[1, 2, 9, TOP])));
    let behind = random.pick(&[addition(TOP, TOP), removal(TOP, TOP, 1)]);
    let behind = without_arrival(&behind);
    let between = [
        &front.repeat(1 + random.below(4)),
        wrong,
        &behind.repeat(random.below(4)),
    ];
    let mut batches = vec![wrong.to_vec(), between.concat()];
    if longest {
        let room = MOST_RECORDS - wrong.len() / PLAIN_WORDS;
        batches.push([&front.repeat(room), wrong].concat());
        batches.push([wrong, &behind.repeat(room)].concat());
    }
    let arriving = |batch: &Vec<u32>| arriving(random, batch);
    batches.iter().map(arriving).collect()
}

/// A batch that is judged 6, 7 or 14.
pub fn bad(random: &mut Random, universe: &Universe) -> Vec<u32> {
    loop {
        let mut batch = plain(&good(random, universe, Mixture::Both, 8));
        if batch.is_empty() {
            continue;
        }
        let record = PLAIN_WORDS * random.below(batch.len() / PLAIN_WORDS);
        match random.below(15) {
            0 => batch.truncate(batch.len() - 1 - random.below(3)),
            1 => batch[record] = random.pick(&[0, 3, 4, u32::MAX]),
            2 => batch[record + 1 + random.below(3)] = 0,
            3 => batch[record + 2] = batch[record + 2].wrapping_add(1),
            4 => batch[record + 3] = batch[record + 3].wrapping_sub(1),
            5 => batch.rotate_left(PLAIN_WORDS),
            6 => {
                let whole = batch[record..record + PLAIN_WORDS].to_vec();
                batch = whole.repeat(MOST_RECORDS + 1);
            }
            7 => {
                let word = random.below(batch.len());
                batch[word] = random.word();
            }
            8 => {
                // Kind 3 with a term, or term 0 with another kind.
                let term = random.pick(&[0, 1, 5, TOP]);
                let kind = if term == 0 {
                    random.within(1, 2)
                } else {
                    ANNUL
                };
                batch[record] = kind;
                batch[record + 1] = term;
            }
            9 => {
                // A stretch that cannot be, in front.
                let (from, to) = random.pick(&[(0, 9), (9, 0), (0, 0), (TOP, 0), (0, TOP)]);
                batch.splice(0..0, without_arrival(&annulment(from, to)));
            }
            10 => {
                // A removal under every term behind others.
                let (from, to) = universe.removed_range(random);
                let behind = record + PLAIN_WORDS;
                batch.splice(behind..behind, without_arrival(&annulment(from, to)));
            }
            11 => {
                let (wrong, _) = random.pick(&WRONG_ANNULMENTS);
                batch.splice(record..record, wrong.iter().copied());
            }
            12 => {
                let (wrong, _) = random.pick(&WRONG_EMPTY_RANGES);
                batch.splice(record..record, wrong.iter().copied());
            }
            // Only its arrival numbers may be wrong.
            _ => {}
        }
        let mut batch = arriving(random, &batch);
        let count = batch.len() / RECORD_WORDS;
        let arrival = |at: usize| at * RECORD_WORDS + RECORD_WORDS - 1;
        match random.below(10) {
            _ if count == 0 => {}
            0 => batch[arrival(random.below(count))] = 0,
            1 | 2 => {
                let from = batch[arrival(random.below(count))];
                batch[arrival(random.below(count))] = from;
            }
            // Some last words are missing, be it the arrival number alone.
            3 => batch.truncate(batch.len() - 1 - random.below(4)),
            _ => {}
        }
        if judge_batch(&batch) != 0 {
            return batch;
        }
    }
}
