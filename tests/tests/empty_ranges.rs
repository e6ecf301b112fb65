// Steps with removals whose from is above their to, which have no position in them: the library
// compared with the second program, answer by answer and word by word, and with itself where these
// records are left out.

use gameindex_tests::batches::{
    self, addition, annulment, removal, without_arrival, Mixture, Stretches, Universe,
    EMPTY_RANGES, EMPTY_RANGES_IN_ORDER, PLAIN_WORDS, WRONG_EMPTY_RANGES,
};
use gameindex_tests::cards;
use gameindex_tests::compare::{self, done, refused, Question, Steps, Tally};
use gameindex_tests::ffi;
use gameindex_tests::questions;
use gameindex_tests::random::Random;
use gameindex_tests::second::batch::{self, Record, MOST_RECORDS, RECORD_WORDS};
use gameindex_tests::second::{self, Configuration, StepAnswer};

const TOP: u32 = u32::MAX;

/// The library's run on the same card with the batch's empty ranges left out.
struct Beside {
    batch: Vec<u32>,
    card: Vec<u32>,
}

impl Beside {
    fn new(card: &[u32], batch: &[u32]) -> Beside {
        let plain = batches::without_empty_ranges(batch);
        assert!(plain.len() < batch.len(), "a batch without an empty range");
        Beside {
            batch: plain,
            card: card.to_vec(),
        }
    }

    /// Makes the next step: it gives this answer and leaves this card.
    fn step(&mut self, answer: &StepAnswer, card: &[u32], about: &dyn Fn() -> String) {
        let plain = ffi::step(&mut self.card, &self.batch);
        assert_eq!(*answer, plain, "without the empty ranges; {}", about());
        assert!(card == self.card, "another card without them; {}", about());
    }
}

/// Runs a batch as `compare::pass` does, beside a run without its empty ranges: each step's answer
/// and card are the same.
fn pass(steps: &mut Steps, card: &mut [u32], batch: &[u32], about: &dyn Fn() -> String) -> u32 {
    let mut beside = Beside::new(card, batch);
    compare::pass_seen(steps, card, batch, about, &mut |answer, card| {
        beside.step(answer, card, about)
    })
}

/// Asks for what stands from to to from, and for all, under the terms of the batch's empty ranges
/// and some others of the card; from from to to the question is refused.
fn ask(tally: &mut Tally, random: &mut Random, card: &[u32], batch: &[u32]) {
    let known = questions::known_pairs(card);
    let empty = batch::records(batch);
    for record in empty
        .iter()
        .filter(|record| record.is_empty_range())
        .take(6)
    {
        let term = match record.term {
            0 => random.pick(&known).0,
            term => term,
        };
        for question in [(term, record.to, record.from), (term, 1, TOP)] {
            let reply = compare::lookups(tally, random, card, question, &String::new);
            assert_eq!(reply.number, 0);
        }
        let refused = (term, record.from, record.to);
        let reply = compare::lookups(tally, random, card, refused, &String::new);
        assert_eq!(reply.number, 9);
    }
}

/// Cards with pairs at 2 to 9 under terms 5 and 7: fresh, after passes, with a pass open whose
/// boundary stands before, inside and behind these, with one place free and with more.
fn small_cards() -> Vec<Vec<u32>> {
    let few = vec![(5, 2), (5, 9), (7, 4)];
    let close = vec![(5, 2), (5, 3), (5, 4), (5, 9)];
    let ends = vec![(7, 1), (7, 8), (TOP, TOP)];
    let low = vec![(1, 1), (4, TOP)];
    let inside = vec![(4, 1), (5, 4)];
    let behind = vec![(5, 2), (5, 9), (8, 1)];
    let full = |term: u32| [1, 2, 3, 4, 8, 9].map(|position| (term, position)).to_vec();
    vec![
        cards::of_blocks(8, 3, 1, &[], &[]),
        cards::of_blocks(8, 4, 0, &[few.clone()], &[]),
        cards::of_blocks(8, 2, 1, &[few.clone()], &[]),
        cards::of_blocks(8, 5, 4, &[close.clone(), ends.clone()], &[]),
        cards::of_blocks(8, 3, 2, &[close.clone(), ends.clone()], &[]),
        cards::of_blocks(8, 5, 3, &[few], &[low]),
        cards::of_blocks(8, 5, 2, &[close.clone(), ends.clone()], &[inside.clone()]),
        cards::of_blocks(8, 4, 1, &[close.clone(), ends.clone()], &[inside]),
        cards::of_blocks(8, 4, 3, &[vec![(8, 1), (8, 2)]], &[behind.clone()]),
        cards::of_blocks(8, 3, 0, &[], &[behind]),
        cards::of_blocks(8, 3, 1, &[full(5), full(7)], &[]),
        cards::of_blocks(8, 4, 2, &[full(5), full(7)], &[vec![(2, 2), (4, 3)]]),
        cards::of_blocks(16, 3, 2, &[[close, ends].concat()], &[]),
    ]
}

/// Each kind alone and among the records of P2, P5 and P6, by the words of the card.
#[test]
fn empty_ranges_written_out() {
    let mut steps = Steps::new();
    let old = [vec![(5, 2), (5, 9), (7, 4)]];
    let card = cards::laid_out(vec![77; 48], 8, 4, 0, &old, &[]);
    let all = [5, 2, 2, 9, 7, 1, 4, 0];
    let cases: [(&[u32], [u32; 8]); 12] = [
        (&[2, 5, 9, 2], all),
        (&[2, 5, 3, 2], all),
        (&[2, 5, TOP, 1], all),
        (&[2, 7, 5, 4], all),
        (&[2, 1, 2, 1], all),
        (&[2, TOP, TOP, 1], all),
        (&[3, 0, 9, 2], all),
        (&[3, 0, TOP, 1], all),
        (&[3, 0, 5, 4, 3, 0, 9, 2, 2, 5, 9, 2, 2, 7, 4, 3], all),
        (
            &[3, 0, 9, 2, 2, 7, 5, 4, 1, 7, 11, 11, 2, 7, 11, 4],
            [5, 2, 2, 9, 7, 2, 4, 11],
        ),
        (
            &[2, 5, 2, 1, 2, 5, 2, 9, 2, 5, 9, 2, 1, 5, 9, 9],
            [5, 1, 9, 7, 1, 4, 0, 0],
        ),
        (&[3, 0, 2, 4, 3, 0, 4, 2], [5, 1, 9, 0, 0, 0, 0, 0]),
    ];
    let mut next = |card: &mut [u32], expected: &[u32], batch: &[u32], answer| {
        let given = compare::step(&mut steps, card, batch, &String::new);
        assert_eq!((given, &*card), (answer, expected), "{batch:?}");
    };
    for (plain, block) in cases {
        let batch = &batches::numbered(plain);
        // The due place is 1: its map entry stands at word 10, its block at word 24.
        let mut card = card.clone();
        let mut expected = card.clone();
        expected[24..32].copy_from_slice(&block);
        next(&mut card, &expected, batch, done(1, 0, false));
        expected[10..12].copy_from_slice(&[block[0], block[2]]);
        next(&mut card, &expected, batch, done(2, 0, false));
        expected[3..5].copy_from_slice(&[1, 1]);
        next(&mut card, &expected, batch, done(3, 1, true));
    }
    // P6: one step. On a fresh card nothing remains either.
    let mut expected = card.clone();
    expected[3..5].copy_from_slice(&[1, 0]);
    let batch = batches::numbered(&[
        3, 0, 4, 2, 2, 5, 1, TOP, 2, 5, 9, 2, 2, 7, 1, TOP, 2, TOP, TOP, 1,
    ]);
    next(&mut card.clone(), &expected, &batch, done(3, 1, true));
    let fresh = cards::of_blocks(8, 4, 0, &[], &[]);
    for batch in [[2, 5, 9, 3, 1], [3, 0, 9, 3, 2], [2, 5, TOP, 1, TOP]] {
        next(&mut fresh.clone(), &fresh, &batch, done(3, 0, true));
    }
    steps.report("empty_ranges_written_out");
}

/// Empty ranges of both kinds that can stand at a place of a batch in order: at the froms of the
/// records beside it and next to them, under their terms and next to them, and at the ends of all.
fn fitting(records: &[Record], at: usize) -> Vec<Record> {
    let mut terms = vec![1, TOP];
    let mut froms = vec![2, TOP];
    for record in &records[at.saturating_sub(1)..records.len().min(at + 1)] {
        terms.extend([record.term, record.term.saturating_add(1)]);
        froms.extend([record.from - 1, record.from, record.from.saturating_add(1)]);
    }
    let mut fitting = Vec::new();
    for from in froms {
        for to in [1, from / 2, from.saturating_sub(1)] {
            let of_terms = terms.iter().map(|&term| removal(term, from, to));
            fitting.extend(of_terms.chain([annulment(from, to)]));
        }
    }
    fitting.retain(|record| record.is_empty_range() && in_order(records, at, record));
    fitting.sort_by_key(Record::words);
    fitting.dedup();
    fitting
}

/// Whether the batch with this record put in at a place is judged 0.
fn in_order(records: &[Record], at: usize, record: &Record) -> bool {
    second::judge_batch(&batches::numbered(&put_in(records, at, record))) == 0
}

/// The records without arrival numbers, with this one put in.
fn put_in(records: &[Record], at: usize, record: &Record) -> Vec<u32> {
    let mut records = records.to_vec();
    records.insert(at, *record);
    records.iter().flat_map(without_arrival).collect()
}

/// An empty range before, between and behind all records of batches, then one at every place of them:
/// every step is the one without them.
#[test]
fn empty_ranges_at_every_place_of_a_batch() {
    let mut random = Random::new(301);
    let mut steps = Steps::new();
    let mut places = 0u64;
    let mut annulling = 0u64;
    let plain: [&[u32]; 11] = [
        &[1, 5, 3, 3],
        &[2, 5, 2, 9],
        &[3, 0, 2, 4],
        &[3, 0, 3, 9, 1, 7, 9, 9],
        &[2, 5, 2, 9, 1, 5, 9, 9],
        &[1, 5, 2, 2, 1, 5, 9, 9, 1, 7, 4, 4],
        &[2, 4, 2, TOP, 2, 5, 3, 20, 2, 5, 3, 9, 1, 6, 2, 2],
        &[3, 0, 2, 4, 3, 0, 4, TOP, 2, 5, 9, 9, 1, 7, 4, 4],
        &[1, 5, 3, 3, 1, 5, 5, 5, 1, 5, 6, 6, 1, 5, 7, 7, 1, 6, 2, 2],
        &[2, 5, 2, TOP, 2, 7, 2, TOP],
        &[1, TOP, TOP, TOP],
    ];
    for card in small_cards() {
        for plain in plain {
            let records = batch::records(&batches::numbered(plain));
            let fitting: Vec<Vec<Record>> = (0..=records.len())
                .map(|at| fitting(&records, at))
                .collect();
            for (at, fitting) in fitting.iter().enumerate() {
                assert!(!fitting.is_empty(), "nothing fits at {at} of {plain:?}");
                for record in fitting {
                    let batch = put_in(&records, at, record);
                    let batch = batches::arriving(&mut random, &batch);
                    let about = || format!("{record:?} at {at} of {plain:?}");
                    pass(&mut steps, &mut card.clone(), &batch, &about);
                    annulling += u64::from(record.term == 0);
                }
                places += 1;
            }
            for _ in 0..6 {
                let mut batch: Vec<u32> = Vec::new();
                for (at, fitting) in fitting.iter().enumerate() {
                    batch.extend(without_arrival(&random.pick(fitting)));
                    batch.extend(records.get(at).into_iter().flat_map(without_arrival));
                }
                let batch = batches::arriving(&mut random, &batch);
                let about = || format!("at every place of {plain:?}");
                pass(&mut steps, &mut card.clone(), &batch, &about);
            }
        }
    }
    steps.report("empty_ranges_at_every_place_of_a_batch");
    println!("empty_ranges_at_every_place_of_a_batch: {places} places, {annulling} of kind 3");
    steps.expect(&[0], 20_000);
    steps.expect(&[8], 500);
    assert!(annulling > 500 && steps.empty_ranges_in_mid_pass > 5_000);
}

/// Every two records over few terms and positions, one of them or both with no position in them:
/// inside each other, of equal starts and equal ends, beside an addition; and some three.
#[test]
fn empty_ranges_with_every_other_record() {
    let mut random = Random::new(302);
    let mut steps = Steps::new();
    let positions = [1, 2, 4, 9, TOP];
    let mut records = Vec::new();
    for from in positions {
        records.extend([5, 7].map(|term| addition(term, from)));
        for to in positions {
            records.extend([5, 7].map(|term| removal(term, from, to)));
            records.push(annulment(from, to));
        }
    }
    let cards = small_cards();
    let mut batches = 0u64;
    for one in &records {
        for other in &records {
            let mut chosen = vec![*one, *other];
            if !chosen.iter().any(Record::is_empty_range) || !in_order(&[*one], 1, other) {
                continue;
            }
            batches += 1;
            for card in &cards {
                let batch = batches::drawn_words(&mut random, chosen.clone());
                pass(&mut steps, &mut card.clone(), &batch, &String::new);
            }
            for _ in 0..2 {
                chosen.push(random.pick(&records));
                let mut card = cards[random.below(cards.len())].clone();
                let batch = batches::drawn_words(&mut random, chosen.clone());
                pass(&mut steps, &mut card, &batch, &String::new);
            }
        }
    }
    steps.report("empty_ranges_with_every_other_record");
    println!("empty_ranges_with_every_other_record: {batches} batches of two records");
    steps.expect(&[0], 50_000);
    steps.expect(&[8], 300);
    assert!(batches > 1_500);
}

/// So many empty ranges in order, of one kind, term or range, or of all.
fn many_empty(random: &mut Random, count: usize) -> Vec<u32> {
    let kind = random.below(6);
    let terms = [1, 5, 7, TOP - 1, TOP];
    let record = |i: u32, random: &mut Random| {
        let (from, to) = random.pick(&EMPTY_RANGES);
        match kind {
            0 => removal(5, i + 2, i + 1),
            1 => annulment(i + 2, 1),
            2 => removal(7, TOP, 1),
            3 => annulment(9, 2),
            4 => removal(random.pick(&terms), from, to),
            _ if random.chance(1, 2) => annulment(from, to),
            _ => removal(random.pick(&terms), from, to),
        }
    };
    let records = (0..count as u32).map(|i| record(i, random)).collect();
    batches::drawn_words(random, records)
}

/// Empty ranges alone, up to the most records: no pair changes, 8 never comes, and each step is that
/// of the empty batch. One record more gives 6.
#[test]
fn empty_ranges_alone() {
    let mut random = Random::new(303);
    let mut steps = Steps::new();
    let mut free = [0u64; 3];
    for round in 0..2_600 {
        let b = random.pick(&[8, 8, 9, 12, 30]);
        let n = random.within(2, 9);
        let mut card = cards::any(&mut random, b, n);
        let index = second::live_pairs(&card);
        let count = match round % 50 {
            0 => MOST_RECORDS - random.below(2),
            _ => 1 + random.below(16),
        };
        let batch = many_empty(&mut random, count);
        let about = || format!("B {b}, N {n}, {count} records");
        free[Configuration::read(&card).free_places().len().min(2)] += 1;
        let number = pass(&mut steps, &mut card, &batch, &about);
        assert_eq!(number, 0, "{}", about());
        assert!(second::live_pairs(&card) == index, "{}", about());
    }
    for card in small_cards() {
        for _ in 0..6 {
            let batch = many_empty(&mut random, MOST_RECORDS + 1);
            let answer = compare::step(&mut steps, &mut card.clone(), &batch, &String::new);
            assert_eq!(answer, refused(6));
            let number = pass(
                &mut steps,
                &mut card.clone(),
                &batch[RECORD_WORDS..],
                &String::new,
            );
            assert_eq!(number, 0);
        }
    }
    steps.report("empty_ranges_alone");
    println!(
        "empty_ranges_alone: one place free {}, more {}",
        free[1], free[2]
    );
    steps.expect(&[0], 10_000);
    steps.expect(&[6], 60);
    assert!(free[1] > 300 && free[2] > 1_000 && steps.empty_ranges_in_mid_pass > 2_000);
}

/// Where the boundary of a pass stood to the stretches from to to from.
#[derive(Debug, Default)]
struct Boundaries {
    none: u64,
    before: [u64; 2],
    inside: [u64; 2],
    behind: [u64; 2],
}

impl Boundaries {
    /// Of removals of a term by pairs, of removals under every term by positions.
    fn note(&mut self, card: &[u32], batch: &[u32]) {
        let Some(boundary) = Configuration::read(card).boundary() else {
            self.none += 1;
            return;
        };
        for record in batch::records(batch) {
            if !record.is_empty_range() {
                continue;
            }
            let kind = usize::from(record.term == 0);
            let term = if record.term == 0 {
                boundary.0
            } else {
                record.term
            };
            if boundary < (term, record.to) {
                self.before[kind] += 1;
            } else if boundary <= (term, record.from) {
                self.inside[kind] += 1;
            } else {
                self.behind[kind] += 1;
            }
        }
    }
}

/// The batch with some empty ranges more, at pairs of the card, at froms of the batch and anywhere,
/// before or behind records of the same term and from. They arrive at any time; the others arrive in
/// the order they had.
fn with_more(random: &mut Random, card: &[u32], batch: &[u32]) -> Vec<u32> {
    let known = questions::known_pairs(card);
    let records = batch::records(batch);
    let mut more = Vec::new();
    for _ in 0..1 + random.below(4) {
        let (mut term, mut from) = random.pick(&known);
        if !records.is_empty() && random.chance(1, 3) {
            let record = random.pick(&records);
            (term, from) = (record.term.max(1), record.from);
        }
        let from = from.max(2);
        let (from, to) = match random.below(6) {
            0 => (from, from - 1),
            1 => (from.saturating_add(1), from.min(TOP - 1)),
            2 => random.pick(&EMPTY_RANGES),
            3 => (TOP, 1),
            _ => (from, random.pick(&known).1.min(from - 1)),
        };
        let record = match random.below(3) {
            0 => annulment(from, to),
            _ => removal(term, from, to),
        };
        let arrival = match random.below(3) {
            0 => TOP,
            1 if !records.is_empty() => random.pick(&records).arrival,
            _ => random.word(),
        };
        more.push(Record { arrival, ..record });
    }
    let both = match random.below(2) {
        0 => [more, records].concat(),
        _ => [records, more].concat(),
    };
    batches::by_arrival(random, both)
}

/// A drawn batch with such ranges, over a universe or at the card's own pairs.
fn any_batch(random: &mut Random, card: &[u32], universe: &Universe, most: usize) -> Vec<u32> {
    let mixture = Mixture::random(random);
    let batch = match random.below(2) {
        0 => batches::near(random, card, mixture, most),
        _ => batches::good(random, universe, mixture, most),
    };
    with_more(random, card, &batch)
}

/// Whole passes on cards of all shapes, some open already, some full; then lookups.
#[test]
fn empty_ranges_on_cards_of_many_shapes() {
    let mut random = Random::new(304);
    let mut steps = Steps::new();
    let mut tally = Tally::new();
    let mut boundaries = Boundaries::default();
    for round in 0..3_000 {
        let (b, n) = match round % 4 {
            0 => (8, random.within(2, 6)),
            1 => (random.within(8, 16), random.within(2, 12)),
            2 => (random.within(8, 32), random.within(2, 14)),
            _ => (random.pick(&[8, 9, 33, 100]), random.pick(&[2, 3, 16])),
        };
        let mut card = cards::any(&mut random, b, n);
        let universe = Universe::random(&mut random);
        for _ in 0..3 {
            let most = random.pick(&[1, 3, 10, 60]);
            let batch = any_batch(&mut random, &card, &universe, most);
            boundaries.note(&card, &batch);
            let about = || format!("B {b}, N {n}");
            let number = pass(&mut steps, &mut card, &batch, &about);
            assert!(number == 0 || number == 8);
        }
        let batch = with_more(&mut random, &card, &[]);
        ask(&mut tally, &mut random, &card, &batch);
    }
    steps.report("empty_ranges_on_cards_of_many_shapes");
    tally.report("empty_ranges_on_cards_of_many_shapes, lookups after it");
    println!("empty_ranges_on_cards_of_many_shapes: {boundaries:?}");
    steps.expect(&[0], 20_000);
    steps.expect(&[8], 500);
    steps.expect_every_shape(100);
    tally.expect(&[0, 9, 10], 2_000);
    for counts in [boundaries.before, boundaries.inside, boundaries.behind] {
        assert!(counts.iter().all(|&count| count > 100), "{boundaries:?}");
    }
}

/// Each wrong batch alone, between others and in the longest batches gives its number; each batch in
/// order with the same ranges is not refused for its form. On cards of every state.
#[test]
fn empty_ranges_refused() {
    let mut random = Random::new(305);
    let mut steps = Steps::new();
    let mut full = small_cards();
    full.retain(|card| Configuration::read(card).free_places().len() == 1);
    for round in 0..60 {
        let card = match round % 3 {
            0 => full[round % full.len()].clone(),
            _ => cards::any(&mut random, 8, 2 + round as u32 % 5),
        };
        for (wrong, number) in WRONG_EMPTY_RANGES {
            for batch in batches::around(&mut random, wrong, round < 4) {
                let about = || format!("{wrong:?}");
                let answer = compare::step(&mut steps, &mut card.clone(), &batch, &about);
                assert_eq!(answer, refused(number), "{wrong:?}");
            }
        }
        for good in EMPTY_RANGES_IN_ORDER {
            let longest = MOST_RECORDS - good.len() / PLAIN_WORDS;
            for behind in [0, random.below(4), longest * usize::from(round < 4)] {
                let batch = [good, &[2, TOP, TOP, 1].repeat(behind)].concat();
                let batch = batches::arriving(&mut random, &batch);
                let number = pass(&mut steps, &mut card.clone(), &batch, &String::new);
                assert!(number == 0 || number == 8, "{good:?} gave {number}");
            }
        }
    }
    // Every range of all kinds, from above to, equal to it, below it and with zeros.
    for card in small_cards() {
        for kind in 0..=4 {
            for term in [0, 1, 5, 7, TOP] {
                for from in [0, 1, 2, 4, 9, TOP] {
                    for to in [0, 1, 2, 4, 9, TOP] {
                        let record = [kind, term, from, to, 1];
                        let right_term = (kind == 3) == (term == 0);
                        let zero = from == 0 || to == 0;
                        let accepted = match kind {
                            1 => right_term && !zero && from == to,
                            2 | 3 => right_term && !zero,
                            _ => false,
                        };
                        let mut card = card.clone();
                        let answer = compare::step(&mut steps, &mut card, &record, &String::new);
                        assert_eq!(answer.number != 6, accepted, "{record:?}");
                    }
                }
            }
        }
    }
    steps.report("empty_ranges_refused");
    steps.expect(&[6], 5_000);
    steps.expect(&[0, 7], 1_000);
    steps.expect(&[8], 100);
}

/// The records may be left out or put in at any step of a pass, and cuts of its writes may leave
/// anything: what comes then is the same with them and without them.
#[test]
fn empty_ranges_in_passes_taken_over_and_cut() {
    let mut random = Random::new(306);
    let mut steps = Steps::new();
    let mut changes = 0u64;
    let mut cuts = [0u64; 4];
    for _ in 0..900 {
        let b = random.pick(&[8, 8, 9, 12, 20]);
        let n = random.within(2, 7);
        let start = cards::any(&mut random, b, n);
        let universe = Universe::random(&mut random);
        let most = random.pick(&[3, 10, 24]);
        let batch = any_batch(&mut random, &start, &universe, most);
        let mut beside = Beside::new(&start, &batch);
        let mut card = start.clone();
        let about = || format!("B {b}, N {n}");
        loop {
            // With these records, without them, or with others of the kind.
            let chosen = match random.below(3) {
                0 => batch.clone(),
                1 => beside.batch.clone(),
                _ => with_more(&mut random, &card, &beside.batch),
            };
            changes += 1;
            if let Some((which, range)) = second::due_write(&card, &chosen) {
                cuts[which as usize] += 1;
                let wanted = second::step::due_words(&card, &chosen).expect("not refused");
                let live = wanted.clone();
                let kind = random.below(cards::CUT_KINDS);
                let mut cut = card.clone();
                if which != 3 {
                    cards::cut_words(&mut random, kind, &mut cut[range], &wanted, &live);
                } else if kind % 2 == 1 {
                    cut[range].copy_from_slice(&wanted);
                }
                pass(&mut steps, &mut cut, &batch, &about);
            }
            let answer = compare::step(&mut steps, &mut card, &chosen, &about);
            beside.step(&answer, &card, &about);
            if answer.number != 0 || answer.finished {
                break;
            }
        }
    }
    steps.report("empty_ranges_in_passes_taken_over_and_cut");
    println!("empty_ranges_in_passes_taken_over_and_cut: {changes} steps, cuts {cuts:?}");
    steps.expect(&[0], 10_000);
    steps.expect(&[8], 100);
    assert!(cuts[1..].iter().all(|&count| count > 300));
}

/// Up to 4,096 records that remove under every term, of every shape, with empty ranges put among
/// them; on cards of one term and of a term a pair, at each end of the stretches and next to it.
#[test]
fn empty_ranges_among_many_annulments() {
    let mut random = Random::new(307);
    let mut steps = Steps::new();
    let mut tally = Tally::new();
    for round in 0..6 {
        for shape in Stretches::EVERY {
            for count in [1, 2, 16, 200, 2_048] {
                let stride = random.pick(&[1, 3, 1_000, TOP / 400]);
                let grid: Vec<u32> = (0..300).map(|i| 1 + i * stride).collect();
                let mut records = shape.records(&mut random, &grid, count);
                let others: Vec<Record> = records
                    .iter()
                    .map(|record| (record.from.max(2), record.to.min(record.from.max(2) - 1)))
                    .map(|(from, to)| annulment(from, to))
                    .collect();
                records = match random.below(2) {
                    0 => [others, records].concat(),
                    _ => [records, others].concat(),
                };
                let mut positions: Vec<u32> = Vec::new();
                for _ in 0..80 {
                    let record = random.pick(&records);
                    let end = random.pick(&[record.from, record.to]);
                    positions.extend([end.max(2) - 1, end, end.saturating_add(1)]);
                }
                positions.sort_unstable();
                positions.dedup();
                let one_term = round % 2 == 0;
                let pairs = positions.iter().enumerate().map(|(at, &position)| {
                    let term = if one_term { 5 } else { 1 + at as u32 };
                    (term, position)
                });
                let b = random.within(8, 60);
                let old = cards::packed(pairs, b);
                let n = old.len() as u32 + 2 + random.below(3) as u32;
                let start = random.below(n as usize) as u32;
                let memory = cards::memory(&mut random, b, n);
                let mut card = cards::laid_out(memory, b, n, start, &old, &[]);
                let batch = batches::drawn_words(&mut random, records);
                let about = || format!("{count} {shape:?}, round {round}");
                let number = pass(&mut steps, &mut card, &batch, &about);
                // Removals alone, two places free.
                assert_eq!(number, 0, "{}", about());
                ask(&mut tally, &mut random, &card, &batch);
            }
        }
    }
    steps.report("empty_ranges_among_many_annulments");
    tally.report("empty_ranges_among_many_annulments, lookups after it");
    steps.expect(&[0], 2_000);
    tally.expect(&[0, 9], 1_000);
}

/// Cards of many places and the largest one, a few steps each.
#[test]
fn empty_ranges_on_large_cards() {
    let mut random = Random::new(308);
    let mut steps = Steps::new();
    for (b, n, most) in [(8, 1024, 12), (64, 300, 9), (1023, 20, 9), (1024, 1024, 3)] {
        let live = n as usize - 2;
        let (new, old) = cards::blocks_of_one_term(9, b, random.below(live), live);
        let start = random.below(n as usize) as u32;
        let card = cards::of_blocks(b, n, start, &old, &new);
        let index = second::live_pairs(&card).len();
        for with_others in [false, true] {
            let mut card = card.clone();
            let mut records: Vec<Record> = (0..2_048u32)
                .map(|i| (i * 97 + 2, i * 96 + 1))
                .flat_map(|(from, to)| [removal(9, from, to), annulment(from, to)])
                .collect();
            if with_others {
                records.truncate(4_000);
                records.extend((0..90).map(|i| removal(9, i * 300 + 1, i * 300 + 40)));
                records.extend((0..6).map(|i| addition(9, i * 301 + 4)));
            }
            let batch = batches::drawn_words(&mut random, records);
            let mut beside = Beside::new(&card, &batch);
            let about = || format!("B {b}, N {n}");
            for _ in 0..most {
                let answer = compare::step(&mut steps, &mut card, &batch, &about);
                beside.step(&answer, &card, &about);
                assert!(with_others || answer.number == 0);
                if answer.number != 0 || answer.finished {
                    break;
                }
            }
            if !with_others {
                assert_eq!(second::live_pairs(&card).len(), index, "{}", about());
            }
        }
    }
    steps.report("empty_ranges_on_large_cards");
    steps.expect(&[0], 40);
}

/// Lookups, readings, run views and pages of these ranges are refused with 9, on cards before, in
/// and after passes with such records.
#[test]
fn empty_ranges_looked_up() {
    let mut random = Random::new(309);
    let mut tally = Tally::new();
    let mut pages = Tally::new();
    let mut asked = small_cards();
    for _ in 0..150 {
        let b = random.pick(&[8, 9, 12]);
        let n = random.within(3, 7);
        let mut card = cards::any(&mut random, b, n);
        let batch = with_more(&mut random, &card, &[1, 5, 9, 9, 1, 1, 7, 4, 4, 2]);
        cards::run(&mut card, &batch, random.below(9));
        asked.push(card);
    }
    for card in &asked {
        let terms: Vec<u32> = second::live_pairs(card).iter().map(|pair| pair.0).collect();
        for (from, to) in EMPTY_RANGES {
            for term in [0, 1, 5, 7, TOP]
                .iter()
                .chain(terms.first())
                .chain(terms.last())
            {
                let question: Question = (*term, from, to);
                let reply = compare::lookups(&mut tally, &mut random, card, question, &String::new);
                assert_eq!((reply.number, reply.count, reply.blocks), (9, 0, 0));
                let reply = compare::pages(&mut pages, &mut random, card, question, &String::new);
                assert_eq!((reply.number, reply.lines), (9, 0));
            }
        }
    }
    tally.report("empty_ranges_looked_up");
    pages.report("empty_ranges_looked_up, pages");
    tally.expect(&[9], 5_000);
    pages.expect(&[9], 5_000);
}
