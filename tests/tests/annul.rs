// Steps with records that remove under every term: the library compared with the second program,
// answer by answer and word by word, where a walk through such records could go wrong.

use std::collections::BTreeSet;

use gameindex_tests::batches::{
    self, addition, annulment, removal, Mixture, Stretches, Universe, WRONG_ANNULMENTS,
};
use gameindex_tests::cards;
use gameindex_tests::compare::{self, done, refused, Question, Steps, Tally};
use gameindex_tests::ffi;
use gameindex_tests::random::Random;
use gameindex_tests::second::batch::{Record, MOST_RECORDS};
use gameindex_tests::second::{self, Configuration, Pair};

const TOP: u32 = u32::MAX;

/// A round over three terms goes, an addition inside it stays, by the words of the card.
#[test]
fn annul_a_round_written_out() {
    let mut steps = Steps::new();
    let blocks = |n: usize| 8 + 2 * n;
    let old = [
        vec![(5, 2), (5, 3), (5, 9), (7, 4)],
        vec![(7, 9), (9, 3), (9, 10)],
    ];
    let mut card = cards::laid_out(vec![77; 58], 8, 5, 4, &old, &[]);
    assert_eq!(card[..8], [1, 8, 5, 4, 2, 0, 0, 0]);
    let batch = [3, 0, 3, 9, 1, 1, 7, 9, 9, 2];
    let mut expected = card.clone();
    let mut next = |card: &mut [u32], expected: &[u32], batch: &[u32], answer| {
        let given = compare::step(&mut steps, card, batch, &String::new);
        assert_eq!(given, answer);
        assert_eq!(card, expected);
    };
    // The old blocks are at places 4 and 0, the due place is 1.
    expected[blocks(5) + 8..][..8].copy_from_slice(&[5, 1, 2, 7, 1, 9, 0, 0]);
    next(&mut card, &expected, &batch, done(1, 0, false));
    expected[10..12].copy_from_slice(&[5, 2]);
    next(&mut card, &expected, &batch, done(2, 0, false));
    expected[3..8].copy_from_slice(&[0, 1, 1, 7, 9]);
    next(&mut card, &expected, &batch, done(3, 1, false));
    let mut words = [0; 3];
    let reply = ffi::lookup(&card, 9, 1, TOP, &mut words);
    assert_eq!((reply.number, &words[..2]), (0, &[3, 10][..]));
    expected[blocks(5) + 16..][..8].copy_from_slice(&[9, 1, 10, 0, 0, 0, 0, 0]);
    next(&mut card, &expected, &batch, done(1, 0, false));
    expected[12..14].copy_from_slice(&[9, 10]);
    next(&mut card, &expected, &batch, done(2, 0, false));
    expected[3..8].copy_from_slice(&[1, 2, 0, 0, 0]);
    next(&mut card, &expected, &batch, done(3, 1, true));
    for (term, position) in [(5, 2), (7, 9), (9, 10)] {
        let mut words = [0; 3];
        let reply = ffi::lookup(&card, term, 1, TOP, &mut words);
        assert_eq!((reply.number, reply.count, words), (0, 1, [position, 0, 0]));
    }
    // All that is left goes in one step.
    expected[3..5].copy_from_slice(&[3, 0]);
    next(&mut card, &expected, &[3, 0, 1, TOP, 1], done(3, 2, true));
    steps.report("annul_a_round_written_out");
}

/// Each wrong record alone, behind good ones, before others and at the limits of a batch, on cards of
/// every state: the number that stands beside it, and no word changes.
#[test]
fn annul_refusals() {
    let mut random = Random::new(201);
    let mut steps = Steps::new();
    for round in 0..60 {
        let card = cards::any(&mut random, 8, 2 + round % 5);
        for (wrong, number) in WRONG_ANNULMENTS {
            for batch in batches::around(&mut random, wrong, round < 4) {
                let about = || format!("{wrong:?}");
                let answer = compare::step(&mut steps, &mut card.clone(), &batch, &about);
                assert_eq!(answer, refused(number), "{wrong:?}");
            }
        }
    }
    // The most records, and one more, whatever kinds they have.
    let card = cards::stepped(&mut random, 8, 4);
    for annulments in [0, 1, 2, 4095, 4096, 4097] {
        for count in [4095, 4096, 4097, 4098] {
            let mut batch = [3, 0, 9, 12].repeat(count.min(annulments));
            batch.extend([2, 5, 2, 2].repeat(count.saturating_sub(annulments)));
            let batch = batches::arriving(&mut random, &batch);
            let mut card = card.clone();
            let answer = compare::step(&mut steps, &mut card, &batch, &String::new);
            assert_eq!(answer.number == 6, count > 4096);
        }
    }
    steps.report("annul_refusals");
    steps.expect(&[6], 2_000);
    steps.expect(&[7], 500);
}

/// Every batch of two stretches over five positions, and of three over three, from any position to
/// any, in order; each alone and with an addition or a removal; on small cards with the pairs around
/// them, in both segments.
#[test]
fn annul_with_every_few_stretches() {
    let mut random = Random::new(202);
    let mut steps = Steps::new();
    let laid_out = |n, start, old: &[Vec<Pair>], new: &[Vec<Pair>]| {
        let memory = vec![2; cards::right_length(8, n)];
        let card = cards::laid_out(memory, 8, n, start, old, new);
        assert_eq!(second::judge(&card), 0);
        card
    };
    // Positions that rise from term to term, that fall, and that do both.
    let cards = [
        laid_out(
            4,
            1,
            &[vec![(1, 1), (1, 2), (2, 3)], vec![(2, TOP - 1), (3, TOP)]],
            &[],
        ),
        laid_out(
            5,
            4,
            &[
                vec![(1, TOP), (2, TOP - 1)],
                vec![(3, 3), (4, 2)],
                vec![(5, 1)],
            ],
            &[],
        ),
        laid_out(
            4,
            3,
            &[vec![(7, 1), (7, 2), (7, 3), (7, 4), (7, TOP - 1), (7, TOP)]],
            &[],
        ),
        laid_out(
            5,
            2,
            &[
                vec![(2, 1), (2, 2), (2, TOP), (3, 1)],
                vec![(3, 3), (TOP, TOP - 1)],
            ],
            &[vec![(1, 2), (2, 1)]],
        ),
        laid_out(
            5,
            0,
            &[
                vec![(1, 1), (1, TOP), (2, 1), (2, TOP)],
                vec![(3, 2), (3, 3), (4, TOP - 1), (4, TOP)],
            ],
            &[],
        ),
    ];
    let stretches = |positions: &[u32]| -> Vec<Record> {
        let from = |&from: &u32| positions.iter().map(move |&to| annulment(from, to));
        positions.iter().flat_map(from).collect()
    };
    let mut batches: Vec<Vec<Record>> = Vec::new();
    let two = stretches(&[1, 2, 3, TOP - 1, TOP]);
    for &one in &two {
        batches.push(vec![one]);
        for &other in two.iter().filter(|other| one.from <= other.from) {
            batches.push(vec![one, other]);
        }
    }
    let three = stretches(&[1, 2, TOP]);
    for &one in &three {
        for &other in three.iter().filter(|other| one.from <= other.from) {
            for &third in three.iter().filter(|third| other.from <= third.from) {
                batches.push(vec![one, other, third]);
            }
        }
    }
    let others = [
        addition(2, 1),
        addition(3, 3),
        addition(7, TOP),
        addition(4, 5),
        removal(2, 1, 2),
        removal(7, 3, TOP - 1),
    ];
    for card in &cards {
        for batch in &batches {
            let mut batch: Vec<Record> = batch.clone();
            let mut pass = |random: &mut Random, batch: &[Record]| {
                let words = batches::drawn_words(random, batch.to_vec());
                assert_eq!(second::judge_batch(&words), 0);
                compare::pass(&mut steps, &mut card.clone(), &words, &String::new);
            };
            pass(&mut random, &batch);
            batch.push(random.pick(&others));
            pass(&mut random, &batch);
        }
    }
    steps.report("annul_with_every_few_stretches");
    steps.expect(&[0], 3_000);
    assert!(steps.passes > 1_000 && steps.annulling_in_mid_pass > 500);
    assert!(steps.with_empty_ranges > 3_000 && steps.empty_ranges_in_mid_pass > 500);
}

/// How a card's positions lie along its terms.
#[derive(Clone, Copy, Debug, PartialEq, Eq)]
enum Along {
    OneTerm,
    /// A term a pair, positions rising, falling or by chance.
    Rising,
    Falling,
    ByChance,
    /// Two far apart positions a term, so that they fall wherever a term begins.
    FarApart,
    /// Runs of positions, each further on or further back than the one before.
    RunsRising,
    RunsFalling,
    /// The same positions under each of a few terms.
    EveryTerm,
}

const EVERY_WAY: [Along; 8] = [
    Along::OneTerm,
    Along::Rising,
    Along::Falling,
    Along::ByChance,
    Along::FarApart,
    Along::RunsRising,
    Along::RunsFalling,
    Along::EveryTerm,
];

impl Along {
    /// Pairs over rising positions, about as many as are wanted.
    fn pairs(self, random: &mut Random, positions: &[u32], wanted: usize) -> BTreeSet<Pair> {
        // As many positions as can be used, from any part, with the last and the first.
        let share = match self {
            Along::EveryTerm => wanted / 4,
            _ => wanted,
        };
        let mut used: Vec<u32> = positions.to_vec();
        if used.len() > share {
            random.shuffle(&mut used);
            used.truncate(share);
            used.extend([positions[0], positions[positions.len() - 1]]);
            used.sort_unstable();
            used.dedup();
        }
        let count = used.len();
        let half = count.div_ceil(2);
        let run = 2 + random.below(9);
        let first_term = random.pick(&[1, 5, 1 << 31, TOP - 3 * count as u32]);
        let term = |at: usize| first_term + at as u32;
        let mut pairs = BTreeSet::new();
        for (at, &position) in used.iter().enumerate() {
            let falling = count - 1 - at;
            match self {
                Along::OneTerm => pairs.insert((first_term, position)),
                Along::Rising => pairs.insert((term(at), position)),
                Along::Falling => pairs.insert((term(falling), position)),
                Along::ByChance => pairs.insert((term(random.below(2 * count)), position)),
                Along::FarApart => pairs.insert((term(at % half), position)),
                Along::RunsRising => pairs.insert((term(at / run), position)),
                Along::RunsFalling => pairs.insert((term(falling / run), position)),
                Along::EveryTerm => (0..4).fold(false, |_, i| pairs.insert((term(i), position))),
            };
        }
        pairs
    }
}

/// The positions at both ends of each stretch, next to them on either side, and at the ends of all.
fn edges(records: &[Record]) -> Vec<u32> {
    let mut edges = vec![1, TOP];
    for record in records {
        for end in [record.from, record.to] {
            edges.extend([end - 1, end, end.saturating_add(1)]);
        }
    }
    edges.retain(|&edge| edge != 0);
    edges.sort_unstable();
    edges.dedup();
    edges
}

/// Rising positions that stretches may begin and end at: close together or far apart, from the lowest
/// on or up to the highest.
fn grid(random: &mut Random, size: u32) -> Vec<u32> {
    let stride = random.pick(&[1, 2, 3, 4, 7, 1000, (TOP - 1) / size]);
    let first = if random.chance(1, 2) {
        1
    } else {
        TOP - (size - 1) * stride
    };
    (0..size).map(|i| first + i * stride).collect()
}

/// What the batches of a test met on its cards.
#[derive(Debug, Default)]
struct Met {
    batches: u64,
    all_taken: u64,
    none_taken: u64,
    at_from: u64,
    at_to: u64,
    below_from: u64,
    above_to: u64,
    kept_by_an_addition: u64,
    taken_after_a_rise: u64,
    taken_after_a_fall: u64,
    kept_after_a_fall: u64,
    kept_in_an_empty_range: u64,
}

impl Met {
    /// Positions at both ends of a stretch and beside them, positions from to to from where from is
    /// above to, and terms that go up and down, came more often than this.
    fn expect_shapes(&self, least: u64) {
        for shape in [
            self.at_from,
            self.at_to,
            self.below_from,
            self.above_to,
            self.taken_after_a_rise,
            self.taken_after_a_fall,
            self.kept_after_a_fall,
            self.kept_in_an_empty_range,
        ] {
            assert!(shape > least, "a shape came {shape} times: {self:?}");
        }
    }

    /// Of pairs on a card, before the batch, and the index after it.
    fn note(&mut self, records: &[Record], before: &BTreeSet<Pair>, after: &BTreeSet<Pair>) {
        let (empty, stretches): (Vec<&Record>, Vec<&Record>) =
            records.iter().partition(|record| record.is_empty_range());
        let froms: BTreeSet<u32> = stretches.iter().map(|record| record.from).collect();
        let tos: BTreeSet<u32> = stretches.iter().map(|record| record.to).collect();
        let in_empty = |position: u32| empty.iter().any(|r| r.to <= position && position <= r.from);
        let mut taken = 0;
        let mut last = (0, 0);
        for &pair in before {
            let position = pair.1;
            let gone = !after.contains(&pair);
            let new_term = pair.0 != last.0 && last.0 != 0;
            taken += u64::from(gone);
            self.at_from += u64::from(gone && froms.contains(&position));
            self.at_to += u64::from(gone && tos.contains(&position));
            let below = position != TOP && froms.contains(&(position + 1));
            self.below_from += u64::from(!gone && below);
            self.above_to += u64::from(!gone && tos.contains(&(position - 1)));
            self.taken_after_a_rise += u64::from(gone && new_term && position > last.1);
            self.taken_after_a_fall += u64::from(gone && new_term && position < last.1);
            self.kept_after_a_fall += u64::from(!gone && new_term && position < last.1);
            self.kept_in_an_empty_range += u64::from(!gone && in_empty(position));
            last = pair;
        }
        self.batches += 1;
        self.all_taken += u64::from(taken > 0 && taken == before.len() as u64);
        self.none_taken += u64::from(taken == 0);
    }
}

/// A card with these pairs as its old segment, packed, with so many places free.
fn card_of(random: &mut Random, b: u32, pairs: &BTreeSet<Pair>, free: u32) -> Vec<u32> {
    let old = cards::packed(pairs.iter().copied(), b);
    let n = (old.len() as u32 + free).max(2);
    let start = random.below(n as usize) as u32;
    let memory = cards::memory(random, b, n);
    let card = cards::laid_out(memory, b, n, start, &old, &[]);
    assert_eq!(second::judge(&card), 0);
    card
}

/// Asks for some of the terms that the card had, at stretches' ends and over all of them.
fn ask(
    tally: &mut Tally,
    random: &mut Random,
    card: &[u32],
    pairs: &BTreeSet<Pair>,
    records: &[Record],
) {
    let known: Vec<Pair> = pairs.iter().copied().collect();
    for _ in 0..4 {
        let (term, position) = random.pick(&known);
        let mut questions: Vec<Question> = vec![(term, 1, TOP), (term, position, position)];
        if !records.is_empty() {
            let record = random.pick(records);
            questions.push((term, record.from, record.to));
        }
        for question in questions {
            compare::lookups(tally, random, card, question, &String::new);
        }
    }
}

/// Stretches of every shape and number on cards of every kind, whose pairs stand at the stretches'
/// ends and next to them: whole passes, some begun in mid-pass, some with additions inside what goes
/// and with removals under one term; then lookups.
#[test]
fn annul_stretches_of_every_shape() {
    let mut random = Random::new(203);
    let mut steps = Steps::new();
    let mut tally = Tally::new();
    let mut met = Met::default();
    let mut by_count = [0u64; 6];
    let counts = [0, 1, 2, 16, 4095, 4096];
    for round in 0..9 {
        for shape in Stretches::EVERY {
            for along in EVERY_WAY {
                for (at, &count) in counts.iter().enumerate() {
                    if count > 16 && (round + at) % 3 != 0 {
                        continue;
                    }
                    let size = if count > 16 { 1200 } else { 24 };
                    let grid = grid(&mut random, size);
                    let records = shape.records(&mut random, &grid, count);
                    assert_eq!(records.len(), count);
                    let places = if round % 5 == 4 {
                        grid
                    } else {
                        edges(&records)
                    };
                    let wanted = if count > 16 { 500 } else { 70 };
                    let pairs = along.pairs(&mut random, &places, wanted);
                    let b = if count > 16 {
                        random.within(40, 300)
                    } else {
                        random.within(8, 40)
                    };
                    let free = random.within(2, 4);
                    let mut card = card_of(&mut random, b, &pairs, free);
                    let others = if round % 3 == 0 { 0 } else { random.below(8) };
                    let mut all = records.clone();
                    let known: Vec<Pair> = pairs.iter().copied().collect();
                    for _ in 0..others.min(MOST_RECORDS - count) {
                        let (term, position) = random.pick(&known);
                        all.push(match random.below(3) {
                            0 => removal(term, position, position.saturating_add(3)),
                            _ => addition(term, position),
                        });
                    }
                    let batch = batches::drawn_words(&mut random, all);
                    let about = || format!("{count} {shape:?} on {along:?}, round {round}");
                    if round % 3 == 2 {
                        // Part of a pass without records before it.
                        let most = random.below(9);
                        for _ in 0..most {
                            let answer = compare::step(&mut steps, &mut card, &[], &about);
                            if answer.finished {
                                break;
                            }
                        }
                    }
                    let whole = Configuration::read(&card).new_length == 0;
                    let number = compare::pass(&mut steps, &mut card, &batch, &about);
                    if whole && number == 0 {
                        let after = second::live_pairs(&card);
                        if others == 0 {
                            met.note(&records, &pairs, &after);
                        }
                        let inside = |pair: &&Pair| {
                            let position = pair.1;
                            let within =
                                |record: &Record| record.from <= position && position <= record.to;
                            records.iter().any(within)
                        };
                        met.kept_by_an_addition += after.iter().filter(inside).count() as u64;
                    }
                    ask(&mut tally, &mut random, &card, &pairs, &records);
                    by_count[at] += 1;
                }
            }
        }
    }
    steps.report("annul_stretches_of_every_shape");
    tally.report("annul_stretches_of_every_shape, lookups after it");
    println!("annul_stretches_of_every_shape: {met:?}, by count {by_count:?}");
    steps.expect(&[0], 10_000);
    tally.expect(&[0], 10_000);
    assert!(by_count.iter().all(|&count| count >= 240));
    met.expect_shapes(500);
    assert!(met.none_taken > 100 && met.kept_by_an_addition > 500);
}

/// Few stretches by chance, many cards: terms whose positions rise and fall in every way.
#[test]
fn annul_on_many_small_cards() {
    let mut random = Random::new(204);
    let mut steps = Steps::new();
    let mut met = Met::default();
    for _ in 0..15_000 {
        let size = random.within(3, 12);
        let grid = grid(&mut random, size);
        let shape = random.pick(&Stretches::EVERY);
        let count = 1 + random.below(6);
        let mut records = shape.records(&mut random, &grid, count);
        if random.chance(1, 2) {
            let shape = random.pick(&Stretches::EVERY);
            records.extend(shape.records(&mut random, &grid, 2));
            records.sort_by_key(|record| record.from);
        }
        let along = random.pick(&EVERY_WAY);
        let places = if random.chance(1, 4) {
            grid
        } else {
            edges(&records)
        };
        let pairs = along.pairs(&mut random, &places, 30);
        let b = random.pick(&[8, 9, 12, 30, 80]);
        let mut card = card_of(&mut random, b, &pairs, 2);
        let batch = batches::drawn_words(&mut random, records.clone());
        let about = || format!("{count} {shape:?} on {along:?}");
        let number = compare::pass(&mut steps, &mut card, &batch, &about);
        // Removals alone, two places free.
        assert_eq!(number, 0, "{}", about());
        met.note(&records, &pairs, &second::live_pairs(&card));
    }
    steps.report("annul_on_many_small_cards");
    println!("annul_on_many_small_cards: {met:?}");
    steps.expect(&[0], 10_000);
    met.expect_shapes(100);
    assert!(met.none_taken > 100 && met.all_taken > 100);
}

/// Passes that change their batch on the way, with removals under every term before, after or on both
/// sides of the change, and with cuts of the write between.
#[test]
fn annul_in_mid_pass() {
    let mut random = Random::new(205);
    let mut steps = Steps::new();
    let mut changes = 0u64;
    for _ in 0..1_500 {
        let b = random.pick(&[8, 8, 9, 12, 20]);
        let n = random.within(4, 9);
        let mut card = cards::any(&mut random, b, n);
        let universe = Universe::random(&mut random);
        for _ in 0..4 {
            let mut records = Vec::new();
            let known: Vec<u32> = second::live_pairs(&card)
                .iter()
                .map(|pair| pair.1)
                .collect();
            if known.len() > 1 && random.chance(3, 4) {
                let mut positions = known.clone();
                positions.sort_unstable();
                let shape = random.pick(&Stretches::EVERY);
                let count = 1 + random.below(4);
                positions.dedup();
                if positions.len() > 1 {
                    records = shape.records(&mut random, &positions, count);
                }
            }
            if random.chance(2, 3) {
                let more = batches::good(&mut random, &universe, Mixture::Additions, 8);
                records.extend(second::batch::records(&more));
            }
            let batch = batches::drawn_words(&mut random, records);
            let opened = Configuration::read(&card).new_length > 0;
            changes += u64::from(opened && batches::annuls(&batch));
            for _ in 0..1 + random.below(8) {
                if random.chance(1, 4) {
                    if let Some((which, range)) = second::due_write(&card, &batch) {
                        if which != 3 {
                            random.fill(&mut card[range]);
                        }
                    }
                }
                let answer = compare::step(&mut steps, &mut card, &batch, &String::new);
                if answer.number != 0 || answer.finished {
                    break;
                }
            }
        }
    }
    steps.report("annul_in_mid_pass");
    println!("annul_in_mid_pass: {changes} passes taken over by annulments");
    steps.expect(&[0], 10_000);
    assert!(changes > 300 && steps.annulling_in_mid_pass > 1_000);
    assert!(steps.empty_ranges_in_mid_pass > 500);
}

/// Hundreds of places freed by one write, since what they held is annulled; and the largest card, of
/// one term and of a term a pair, with the most records.
#[test]
fn annul_on_large_cards() {
    let mut random = Random::new(206);
    let mut steps = Steps::new();
    for (b, n, start) in [(8, 1024, 1000), (64, 300, 17)] {
        // Each term has a position of its own below 1,000,000, and one of the last three.
        let old: Vec<Vec<Pair>> = (1..n - 1)
            .map(|term| vec![(term, term * 7), (term, TOP - term % 3)])
            .collect();
        let memory = cards::memory(&mut random, b, n);
        let card = cards::laid_out(memory, b, n, start, &old, &[]);
        let about = || format!("B {b}, N {n}");
        let mut emptied = card.clone();
        let answer = compare::step(&mut steps, &mut emptied, &[3, 0, 1, TOP, 1], &about);
        assert_eq!(answer, done(3, n - 2, true));
        for batch in [
            vec![annulment(1, 1_000_000), annulment(TOP - 1, TOP)],
            vec![annulment(7, 7 * (n - 3)), annulment(8, 8)],
            vec![annulment(1, TOP), addition(n / 2, 5), addition(n, 5)],
            (1..n - 1)
                .map(|term| annulment(term * 7, term * 7))
                .collect(),
        ] {
            let batch = batches::words(batch);
            let mut card = card.clone();
            for _ in 0..6 {
                let answer = compare::step(&mut steps, &mut card, &batch, &about);
                if answer.finished {
                    break;
                }
            }
        }
    }
    let (b, n) = (1024, 1024);
    for one_term in [true, false] {
        let old: Vec<Vec<Pair>> = if one_term {
            cards::blocks_of_one_term(9, b, 0, 1022).1
        } else {
            let pair = |i: u32| (i + 1, i.wrapping_mul(2_654_435_761) | 1);
            (0..1022)
                .map(|block| (block * 341..(block + 1) * 341).map(pair).collect())
                .collect()
        };
        let memory = vec![TOP; cards::right_length(b, n)];
        let card = cards::laid_out(memory, b, n, 1023, &old, &[]);
        let stride = if one_term { 765 } else { TOP / 4096 };
        let narrow: Vec<Record> = (0..4096)
            .map(|i| annulment(i * stride + 1, i * stride + stride / (2 + i % 5)))
            .collect();
        let mut batch = batches::drawn_words(&mut random, narrow);
        let mut card = card.clone();
        let about = || format!("the largest card, one term {one_term}");
        for write in 1..=2 {
            let answer = compare::step(&mut steps, &mut card, &batch, &about);
            assert_eq!(answer.write, write);
        }
        // A wide one in front of the others takes all.
        batch[3] = TOP;
        let answer = compare::step(&mut steps, &mut card, &batch, &about);
        assert_eq!(answer, done(3, 1022, true));
    }
    steps.report("annul_on_large_cards");
    assert!(steps.freed_several >= 2 && steps.nothing_remained >= 4);
}
