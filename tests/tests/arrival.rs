// Arrival numbers: of all records that touch a pair, the one that arrived last decides. The library
// compared with the second program, answer by answer and word by word, and with the rules of document
// 02, slip 7, as they are written here once more.

use std::collections::BTreeSet;

use gameindex_tests::batches::{
    self, addition, annulment, removal, Mixture, Universe, EMPTY_RANGES, EMPTY_RANGES_IN_ORDER,
    PLAIN_WORDS, WRONG_ANNULMENTS, WRONG_EMPTY_RANGES,
};
use gameindex_tests::cards;
use gameindex_tests::compare::{self, done, no_forecast, refused, Forecasts, Steps, Tally};
use gameindex_tests::ffi;
use gameindex_tests::files;
use gameindex_tests::random::Random;
use gameindex_tests::second::batch::{
    records, Record, ADD, ANNUL, MOST_RECORDS, RECORD_WORDS, REMOVE,
};
use gameindex_tests::second::{self, Configuration, History, Pair, StepAnswer};

const TOP: u32 = u32::MAX;

/// Whether a record is about a pair at all: it adds it, or it removes a range that has it.
fn touches(record: &Record, (term, position): Pair) -> bool {
    let of_the_term = record.term == term || record.kind == ANNUL;
    of_the_term && record.from <= position && position <= record.to
}

/// The index after a batch: each pair asks all records that touch it, and the greatest arrival number
/// decides.
fn latest(batch: &[u32], index: &BTreeSet<Pair>) -> BTreeSet<Pair> {
    let records = records(batch);
    let mut pairs = index.clone();
    let added = records.iter().filter(|record| record.kind == ADD);
    pairs.extend(added.map(|record| (record.term, record.from)));
    pairs.retain(|&pair| {
        let touching = records.iter().filter(|record| touches(record, pair));
        match touching.max_by_key(|record| record.arrival) {
            None => index.contains(&pair),
            Some(record) => record.kind == ADD,
        }
    });
    pairs
}

/// What a pass leaves: up to the boundary what stands there, above it what the batch makes of it.
fn left(card: &[u32], batch: &[u32]) -> BTreeSet<Pair> {
    let index = second::live_pairs(card);
    let boundary = Configuration::read(card).boundary();
    let mut left = latest(batch, &index);
    left.retain(|&pair| Some(pair) > boundary);
    left.extend(index.into_iter().filter(|&pair| Some(pair) <= boundary));
    left
}

/// 6, 14, 7 or 0 of a batch.
fn number(batch: &[u32]) -> u32 {
    let whole = batch.len() % 5 == 0 && batch.len() <= 5 * 4096;
    let formed = |record: &[u32]| match *record {
        [1, term, from, to, _] => term != 0 && from != 0 && from == to,
        [2, term, from, to, _] => term != 0 && from != 0 && to != 0,
        [3, term, from, to, _] => term == 0 && from != 0 && to != 0,
        _ => false,
    };
    if !whole || !batch.chunks(5).all(formed) {
        return 6;
    }
    let mut seen = BTreeSet::from([0]);
    if !batch.chunks(5).all(|record| seen.insert(record[4])) {
        return 14;
    }
    let keys: Vec<Pair> = batch
        .chunks(5)
        .map(|record| (record[1], record[2]))
        .collect();
    if keys.windows(2).any(|two| two[1] < two[0]) {
        return 7;
    }
    0
}

/// Who decided over pairs that both an addition and a removal touched.
#[derive(Debug, Default)]
struct Winners {
    added: u64,
    removed: u64,
    annulled: u64,
    /// By these rules another answer would come.
    against_place: u64,
    against_the_last_removal: u64,
    against_the_first_removal: u64,
    against_signs: u64,
    against_low_halves: u64,
    against_the_first_addition: u64,
}

impl Winners {
    fn note(&mut self, batch: &[u32]) {
        let records = records(batch);
        let added = records.iter().filter(|record| record.kind == ADD);
        let pairs: BTreeSet<Pair> = added.map(|record| (record.term, record.from)).collect();
        for pair in pairs {
            let touching: Vec<&Record> = records.iter().filter(|r| touches(r, pair)).collect();
            let (adds, removes): (Vec<&Record>, Vec<&Record>) =
                touching.iter().partition(|record| record.kind == ADD);
            if removes.is_empty() {
                continue;
            }
            let most = |records: &[&Record], key: fn(&Record) -> u32| {
                records.iter().map(|record| key(record)).max().expect("one")
            };
            let added = most(&adds, |record| record.arrival);
            let last = touching.iter().max_by_key(|record| record.arrival);
            match last.expect("a record").kind {
                ADD => self.added += 1,
                REMOVE => self.removed += 1,
                _ => self.annulled += 1,
            }
            let stays = added > most(&removes, |record| record.arrival);
            let otherwise = |other: bool| u64::from(other != stays);
            self.against_place += otherwise(touching[touching.len() - 1].kind == ADD);
            let last_removal = removes[removes.len() - 1].arrival;
            self.against_the_last_removal += otherwise(added > last_removal);
            self.against_the_first_removal += otherwise(added > removes[0].arrival);
            let signed = |record: &Record| record.arrival ^ 1 << 31;
            self.against_signs += otherwise(most(&adds, signed) > most(&removes, signed));
            let low = |record: &Record| record.arrival & 0xFFFF;
            self.against_low_halves += otherwise(most(&adds, low) > most(&removes, low));
            let first = adds[0].arrival;
            let removed = most(&removes, |record| record.arrival);
            self.against_the_first_addition += otherwise(first > removed);
        }
    }

    /// Fails unless each came at least `least` times.
    fn expect(&self, least: u64) {
        for count in [
            self.added,
            self.removed,
            self.annulled,
            self.against_place,
            self.against_the_last_removal,
            self.against_the_first_removal,
            self.against_signs,
            self.against_low_halves,
            self.against_the_first_addition,
        ] {
            assert!(count >= least, "a winner came {count} times: {self:?}");
        }
    }
}

/// What a test compared.
#[derive(Default)]
struct Run {
    steps: Steps,
    forecasts: Forecasts,
    lookups: Tally,
    winners: Winners,
    cuts: [u64; 4],
}

impl Run {
    fn report(&self, test: &str) {
        self.steps.report(test);
        self.forecasts.report(&format!("{test}, forecasts"));
        self.lookups.report(&format!("{test}, lookups"));
        println!("{test}: {:?}, cuts {:?}", self.winners, self.cuts);
    }

    /// The forecast with its run, and a whole pass: the index at its end is the one by the rule.
    fn pass(&mut self, card: &mut [u32], batch: &[u32], about: &dyn Fn() -> String) -> u32 {
        self.winners.note(batch);
        let wanted = left(card, batch);
        let forecast = compare::forecast_run(&mut self.forecasts, card, batch, about);
        let number = compare::pass(&mut self.steps, card, batch, about);
        assert_eq!(number == 0, forecast.finishes, "{}", about());
        if number == 0 {
            let index = second::live_pairs(card);
            assert_eq!(index, wanted, "the index by the rule; {}", about());
        }
        number
    }

    /// A pass with cuts before its steps, each of which may leave anything; what each step leaves is
    /// shown.
    fn cut_pass(
        &mut self,
        random: &mut Random,
        card: &mut [u32],
        batch: &[u32],
        about: &dyn Fn() -> String,
        seen: &mut dyn FnMut(&[u32]),
    ) -> u32 {
        self.winners.note(batch);
        let wanted = left(card, batch);
        let finished = |card: &[u32]| {
            let index = second::live_pairs(card);
            assert_eq!(index, wanted, "the index by the rule; {}", about());
            0
        };
        loop {
            if random.chance(1, 3) {
                if let Some((which, range)) = second::due_write(card, batch) {
                    self.cuts[which as usize] += 1;
                    let due = second::step::due_words(card, batch).expect("not refused");
                    if which == 3 && random.chance(1, 2) {
                        // All new: the write has landed.
                        card[range].copy_from_slice(&due);
                        seen(card);
                        if Configuration::read(card).new_length == 0 {
                            return finished(card);
                        }
                    } else if which != 3 {
                        let kind = random.below(cards::CUT_KINDS);
                        cards::cut_words(random, kind, &mut card[range], &due, &due);
                    }
                }
            }
            let answer = compare::step(&mut self.steps, card, batch, about);
            seen(card);
            if answer.finished {
                return finished(card);
            }
            if answer.number != 0 {
                return answer.number;
            }
        }
    }

    /// Lookups of all terms of the batch and of the card, as wide as can be and at one position.
    fn ask(&mut self, random: &mut Random, card: &[u32], batch: &[u32]) {
        let index = second::live_pairs(card);
        let mut pairs: Vec<Pair> = index.iter().copied().collect();
        let touched = records(batch).into_iter();
        pairs.extend(touched.map(|record| (record.term.max(1), record.from)));
        for _ in 0..4.min(pairs.len()) {
            let (term, position) = random.pick(&pairs);
            for (from, to) in [(1, TOP), (position, position)] {
                let lookups = &mut self.lookups;
                let reply = compare::lookups(lookups, random, card, (term, from, to), &String::new);
                let found = index.range((term, from)..=(term, to)).count();
                assert_eq!(reply.count as usize, found);
            }
        }
    }
}

/// All orders of the numbers from 1 to `count`.
fn orders(count: u32) -> Vec<Vec<u32>> {
    let mut all = vec![vec![]];
    for number in 1..=count {
        let mut longer = Vec::new();
        for order in &all {
            for at in 0..=order.len() {
                let mut order: Vec<u32> = order.clone();
                order.insert(at, number);
                longer.push(order);
            }
        }
        all = longer;
    }
    all
}

/// Other numbers in the same order: 1 becomes the first of these, 2 the second, and so on.
fn spread(order: &[u32], numbers: &[u32]) -> Vec<u32> {
    order.iter().map(|&at| numbers[at as usize - 1]).collect()
}

/// Rising numbers, among them ones that a smaller word, a sign or a table would take for others.
const RISING: [[u32; 5]; 7] = [
    [1, 2, 3, 4, 5],
    [4094, 4095, 4096, 4097, 4098],
    [1, 65_535, 65_536, 65_537, 131_072],
    [2, 1 << 16 | 1, 2 << 16, 1 << 31, TOP],
    [TOP - 4, TOP - 3, TOP - 2, TOP - 1, TOP],
    [(1 << 31) - 2, (1 << 31) - 1, 1 << 31, (1 << 31) + 1, TOP],
    [
        16_777_216,
        16_777_217,
        16_777_218,
        (1 << 31) + 1,
        (1 << 31) + 2,
    ],
];

/// P1's card, of steps with its additions arriving in this order.
fn p1(n: u32, arrivals: &[u32]) -> Vec<u32> {
    let mut card = vec![0; cards::right_length(8, n)];
    assert_eq!(ffi::format(&mut card, 8, n), 0);
    let batch = batches::with_arrivals(&[1, 5, 2, 2, 1, 5, 9, 9, 1, 7, 4, 4], arrivals);
    for answer in [done(1, 0, false), done(2, 0, false), done(3, 0, true)] {
        assert_eq!(ffi::step(&mut card, &batch), answer);
    }
    let blocks = 8 + 2 * n as usize;
    assert_eq!(card[..8], [1, 8, n, 0, 1, 0, 0, 0]);
    assert_eq!(card[blocks..blocks + 8], [5, 2, 2, 9, 7, 1, 4, 0]);
    card
}

/// P1 to P8 with arrival numbers of all kinds; P5 in both orders; and with further records that touch
/// its pairs or do not.
#[test]
fn arrival_on_the_papers_cases() {
    let mut run = Run::default();
    for numbers in RISING {
        for order in orders(3) {
            let arrivals = spread(&order, &numbers);
            let card = p1(4, &arrivals);
            let one = numbers[order[0] as usize];
            let place = |card: &[u32], at: usize| card[16 + 8 * at..24 + 8 * at].to_vec();
            // P2, P3 and P4.
            let mut p2 = card.clone();
            run.pass(&mut p2, &[1, 7, 11, 11, one], &String::new);
            assert_eq!(place(&p2, 1), [5, 2, 2, 9, 7, 2, 4, 11]);
            let mut p3 = card.clone();
            run.pass(&mut p3, &[1, 8, 1, 1, one], &String::new);
            assert_eq!(place(&p3, 2), [8, 1, 1, 0, 0, 0, 0, 0]);
            assert_eq!(p3[..8], [1, 8, 4, 1, 2, 0, 0, 0]);
            let mut p4 = p1(2, &arrivals);
            let number = run.pass(&mut p4, &[1, 8, 1, 1, one], &String::new);
            assert_eq!((number, &p4[..8]), (8, &[1, 8, 2, 1, 0, 1, 7, 4][..]));
            // P5, with a record beside it that touches neither pair.
            let [removed, added, beside] = arrivals[..] else {
                unreachable!()
            };
            for batch in [
                vec![2, 5, 2, 9, removed, 1, 5, 9, 9, added],
                vec![3, 0, 5, 8, beside, 2, 5, 2, 9, removed, 1, 5, 9, 9, added],
                vec![2, 5, 2, 9, removed, 1, 5, 9, 9, added, 2, 5, 10, 12, beside],
                vec![2, 5, 2, 9, removed, 2, 5, 9, 2, beside, 1, 5, 9, 9, added],
                vec![2, 5, 2, 9, removed, 1, 5, 9, 9, added, 2, 6, 9, 9, beside],
            ] {
                let mut p5 = card.clone();
                assert_eq!(run.pass(&mut p5, &batch, &String::new), 0);
                let block = match removed < added {
                    true => [5, 1, 9, 7, 1, 4, 0, 0],
                    false => [7, 1, 4, 0, 0, 0, 0, 0],
                };
                assert_eq!(place(&p5, 1), block, "{batch:?}");
                assert_eq!(p5[..8], [1, 8, 4, 1, 1, 0, 0, 0]);
            }
            // P6.
            let mut p6 = card.clone();
            let batch = [2, 5, 1, TOP, removed, 2, 7, 1, TOP, added];
            let answer = compare::step(&mut run.steps, &mut p6, &batch, &String::new);
            assert_eq!(answer, done(3, 1, true));
            assert_eq!(p6[..8], [1, 8, 4, 1, 0, 0, 0, 0]);
            // P7 and P8.
            for (term, from, to, found, blocks) in [
                (5, 1, 9, &[2, 9][..], 1),
                (5, 3, 8, &[], 1),
                (4, 1, 9, &[], 0),
                (6, 1, 9, &[], 1),
            ] {
                let mut words = [77; 3];
                let reply = ffi::lookup(&card, term, from, to, &mut words);
                assert_eq!((reply.number, reply.blocks), (0, blocks));
                assert_eq!(&words[..reply.count as usize], found);
            }
        }
    }
    run.report("arrival_on_the_papers_cases");
}

/// Two terms and two positions: all records over them, also of every term, also with empty ranges.
fn few_records(terms: [u32; 2], positions: [u32; 2]) -> Vec<[u32; PLAIN_WORDS]> {
    let mut records = Vec::new();
    for &from in &positions {
        for &to in &positions {
            records.push([3, 0, from, to]);
            records.push([2, terms[0], from, to]);
        }
        records.push([1, terms[0], from, from]);
    }
    records.push([1, terms[1], positions[0], positions[0]]);
    records.push([2, terms[1], positions[0], positions[1]]);
    records
}

/// Every batch in order of up to three records over few pairs and ranges, in all orders of arrival, on
/// empty and filled cards, before and in a pass.
#[test]
fn arrival_with_every_small_batch() {
    let mut random = Random::new(401);
    let mut run = Run::default();
    let mut batches_tried = 0u64;
    for (terms, positions) in [([5, 7], [1, 2]), ([TOP - 1, TOP], [TOP - 1, TOP])] {
        let [(a, b), (x, y)] = [(terms[0], terms[1]), (positions[0], positions[1])];
        let cards = [
            cards::of_blocks(8, 3, 1, &[], &[]),
            cards::of_blocks(8, 4, 3, &[vec![(a, x), (a, y), (b, x)]], &[]),
            cards::of_blocks(8, 2, 0, &[vec![(2, 9), (b, x), (b, y)]], &[]),
            cards::of_blocks(8, 4, 2, &[vec![(a, y)], vec![(b, y)]], &[vec![(3, 9)]]),
            cards::of_blocks(8, 4, 1, &[vec![(a, x), (a, y), (b, y)]], &[vec![(a, x)]]),
        ];
        let few = few_records(terms, positions);
        let mut plain: Vec<Vec<u32>> = vec![vec![]];
        let mut all = plain.clone();
        for _ in 0..3 {
            let longer = plain.iter().flat_map(|batch: &Vec<u32>| {
                let with = few.iter().map(|record| [&batch[..], record].concat());
                with.filter(|batch| second::judge_batch(&batches::numbered(batch)) == 0)
            });
            plain = longer.collect();
            all.extend_from_slice(&plain);
        }
        for plain in &all {
            let count = plain.len() / PLAIN_WORDS;
            for order in orders(count as u32) {
                // Three records with 1, 2 and 3, and with other numbers on some card.
                let other = spread(&order, &random.pick(&RISING));
                let other_card = random.below(cards.len());
                for (at, card) in cards.iter().enumerate() {
                    // Those in mid-pass and the full one less often, and for three records.
                    if count == 3 && at > 1 && random.chance(1, 2) {
                        continue;
                    }
                    let arrivals = if at == other_card { &other } else { &order };
                    let batch = batches::with_arrivals(plain, arrivals);
                    let mut card = card.clone();
                    run.pass(&mut card, &batch, &String::new);
                    batches_tried += 1;
                    if random.chance(1, 8) {
                        run.ask(&mut random, &card, &batch);
                    }
                }
            }
        }
    }
    run.report("arrival_with_every_small_batch");
    println!("arrival_with_every_small_batch: {batches_tried} batches on cards");
    assert!(batches_tried > 20_000);
    run.steps.expect(&[0], 50_000);
    run.steps.expect(&[8], 100);
    run.winners.expect(100);
    run.lookups.expect(&[0], 5_000);
}

/// Every batch of up to three records, in order or not, with every choice of the numbers 0 to 3: which
/// number comes.
#[test]
fn arrival_numbers_of_every_small_batch() {
    let mut steps = Steps::new();
    let mut forecasts = Forecasts::new();
    let cards = [
        cards::of_blocks(8, 2, 0, &[vec![(5, 2), (7, 1), (7, 2)]], &[]),
        // What is added above (5,1) has no place.
        cards::of_blocks(8, 2, 1, &[], &[vec![(4, 9), (5, 1)]]),
    ];
    let few = [
        [1, 5, 2, 2],
        [2, 5, 1, 2],
        [2, 5, 2, 1],
        [3, 0, 1, 2],
        [3, 0, 2, 1],
        [1, 9, 1, 1],
        [2, 5, 0, 1],
        [1, 5, 2, 1],
    ];
    let mut plain: Vec<Vec<u32>> = vec![vec![]];
    for _ in 0..3 {
        let with = |batch: &Vec<u32>| few.map(|record| [&batch[..], &record].concat());
        plain = plain.iter().flat_map(with).collect();
        for plain in &plain {
            let count = plain.len() / PLAIN_WORDS;
            for code in 0..4u32.pow(count as u32) {
                let arrivals: Vec<u32> = (0..count as u32).map(|at| code >> (2 * at) & 3).collect();
                let batch = batches::with_arrivals(plain, &arrivals);
                let expected = number(&batch);
                for card in &cards {
                    let answer = compare::step(&mut steps, &mut card.clone(), &batch, &String::new);
                    let eight = (expected, answer.number) == (0, 8);
                    assert!(answer.number == expected || eight, "{batch:?}");
                }
                if code % 3 == 0 {
                    let card = &cards[code as usize % 2];
                    let forecast = compare::forecast(&mut forecasts, card, &batch, &String::new);
                    assert_eq!(forecast.number, expected, "{batch:?}");
                }
            }
        }
    }
    steps.report("arrival_numbers_of_every_small_batch");
    forecasts.report("arrival_numbers_of_every_small_batch");
    steps.expect(&[6, 14], 5_000);
    steps.expect(&[0, 7, 8], 200);
}

/// So many different arrival numbers that are alike in some way.
#[derive(Clone, Copy, Debug)]
enum Alike {
    Small,
    SmallWithGaps,
    Around(u32),
    Words,
    OneBit,
    LowHalf,
    HighHalf,
    Highest,
    SmallAndGreat,
    Multiples(u32),
}

const EVERY_LIKENESS: [Alike; 16] = [
    Alike::Small,
    Alike::SmallWithGaps,
    Alike::Around(4096),
    Alike::Around(8192),
    Alike::Around(65_536),
    Alike::Around(1 << 31),
    Alike::Words,
    Alike::OneBit,
    Alike::LowHalf,
    Alike::HighHalf,
    Alike::Highest,
    Alike::SmallAndGreat,
    Alike::Multiples(4096),
    Alike::Multiples(4097),
    Alike::Multiples(65_536),
    Alike::Multiples(1_000_003),
];

impl Alike {
    fn numbers(self, random: &mut Random, count: usize) -> Vec<u32> {
        let most = count as u32;
        let mut numbers: Vec<u32> = match self {
            Alike::Small => (1..=most).collect(),
            Alike::SmallWithGaps | Alike::Words => {
                let top = match self {
                    Alike::Words => TOP,
                    _ => 4096.max(2 * most),
                };
                let mut different = BTreeSet::new();
                while different.len() < count {
                    different.insert(random.within(1, top));
                }
                different.into_iter().collect()
            }
            Alike::Around(middle) => (0..most).map(|i| middle.max(most) - most / 2 + i).collect(),
            Alike::OneBit => {
                // One word, then those that differ from it in one bit, in two, in three.
                let word = random.word() | 1 << 30;
                let bit = |at: u32| 1u32 << at;
                let one = (0..30).map(bit);
                let two = (1..30).flat_map(|a| (0..a).map(move |b| bit(a) | bit(b)));
                let three = (2..30)
                    .flat_map(|a| (1..a).flat_map(move |b| (0..b).map(move |c| (a, b, c))))
                    .map(|(a, b, c)| bit(a) | bit(b) | bit(c));
                let masks = [0].into_iter().chain(one).chain(two).chain(three);
                masks.map(|mask| word ^ mask).take(count).collect()
            }
            Alike::LowHalf => {
                let low = random.within(1, 0xFFFF);
                (0..most).map(|i| i * 15 << 16 | low).collect()
            }
            Alike::HighHalf => {
                let high = random.within(1, 0xFFFF);
                (0..most).map(|i| high << 16 | i * 15).collect()
            }
            Alike::Highest => (0..most).map(|i| TOP - i).collect(),
            Alike::SmallAndGreat => (1..=most)
                .map(|i| if i % 2 == 0 { i } else { TOP - i })
                .collect(),
            Alike::Multiples(of) => (1..=most).map(|i| i * of).collect(),
        };
        assert_eq!(numbers.len(), count);
        match random.below(4) {
            0 => numbers.sort_unstable(),
            1 => numbers.sort_unstable_by_key(|&number| !number),
            _ => random.shuffle(&mut numbers),
        }
        numbers
    }
}

/// So many records in order, without arrival numbers, some with empty ranges.
fn some_records(random: &mut Random, count: usize) -> Vec<u32> {
    let annulments = random.below(2) * count / 3;
    let mut records = Vec::new();
    for at in 0..count {
        let (from, to) = (random.within(1, 9), random.within(1, 9));
        let term = random.within(5, 7);
        records.push(match random.below(3) {
            _ if at < annulments => annulment(from, to),
            0 => addition(term, from),
            _ => removal(term, from, to),
        });
    }
    batches::plain(&batches::words(records))
}

/// Both calls give this number and change nothing, or none and what the second program does.
fn given(
    steps: &mut Steps,
    forecasts: &mut Forecasts,
    card: &[u32],
    batch: &[u32],
    expected: u32,
    about: &dyn Fn() -> String,
) {
    let answer = compare::step(steps, &mut card.to_vec(), batch, about);
    let forecast = compare::forecast(forecasts, card, batch, about);
    if expected == 0 {
        assert!(answer.number == 0 || answer.number == 8, "{}", about());
        assert_eq!(forecast.number, 0, "{}", about());
    } else {
        assert_eq!(answer, refused(expected), "{}", about());
        assert_eq!(forecast, no_forecast(expected), "{}", about());
    }
}

/// 14 where one number is 0, at every place, and where one is used twice, at every two places; never
/// where all differ, however alike they are.
#[test]
fn arrival_numbers_at_every_two_places() {
    let mut random = Random::new(402);
    let mut steps = Steps::new();
    let mut forecasts = Forecasts::new();
    let cards = cards::small();
    for alike in EVERY_LIKENESS {
        for count in [1, 2, 3, 4, 7, 12, 20] {
            let card = &cards[random.below(cards.len())];
            let plain = some_records(&mut random, count);
            let numbers = alike.numbers(&mut random, count);
            let mut ask = |arrivals: &[u32], expected: u32| {
                let batch = batches::with_arrivals(&plain, arrivals);
                let about = || format!("{count} {alike:?}");
                assert_eq!(number(&batch), expected, "{}", about());
                given(&mut steps, &mut forecasts, card, &batch, expected, &about);
            };
            ask(&numbers, 0);
            for one in 0..count {
                let mut wrong = numbers.clone();
                wrong[one] = 0;
                ask(&wrong, 14);
                for other in 0..count {
                    if one != other {
                        let mut wrong = numbers.clone();
                        wrong[one] = wrong[other];
                        ask(&wrong, 14);
                    }
                }
            }
        }
    }
    steps.report("arrival_numbers_at_every_two_places");
    forecasts.report("arrival_numbers_at_every_two_places");
    steps.expect(&[14], 5_000);
    forecasts.expect(&[14], 5_000);
}

/// The same in batches of the most records, at drawn places, at both ends and next to each other.
#[test]
fn arrival_numbers_of_the_longest_batches() {
    let mut random = Random::new(403);
    let mut steps = Steps::new();
    let mut forecasts = Forecasts::new();
    let card = cards::of_blocks(8, 4, 3, &[vec![(5, 2), (5, 9), (7, 4)]], &[]);
    for alike in EVERY_LIKENESS {
        for count in [MOST_RECORDS, MOST_RECORDS - 1] {
            // Mostly removals, and of few pairs.
            let plain = match random.below(3) {
                0 => [2, 6, 5, 4].repeat(count),
                1 => [3, 0, 9, 9].repeat(count),
                _ => some_records(&mut random, count),
            };
            let numbers = alike.numbers(&mut random, count);
            let mut ask = |arrivals: &[u32], expected: u32, about: &dyn Fn() -> String| {
                let batch = batches::with_arrivals(&plain, arrivals);
                given(&mut steps, &mut forecasts, &card, &batch, expected, about);
            };
            ask(&numbers, 0, &|| format!("{count} {alike:?}"));
            let last = count - 1;
            let mut places = vec![(0, last), (0, 1), (last - 1, last), (2048, 2047), (1, last)];
            for _ in 0..4 {
                let one = random.below(count);
                let other = (one + 1 + random.below(count - 1)) % count;
                places.push((one, other));
            }
            for (one, other) in places {
                let about = || format!("{count} {alike:?}, {one} as {other}");
                let mut wrong = numbers.clone();
                wrong[one] = wrong[other];
                ask(&wrong, 14, &about);
                // Two that are 0, 1, the highest.
                for number in [0, 1, TOP] {
                    if random.chance(1, 6) {
                        wrong[one] = number;
                        wrong[other] = number;
                        ask(&wrong, 14, &about);
                    }
                }
            }
            for at in [0, last, random.below(count)] {
                let mut wrong = numbers.clone();
                wrong[at] = 0;
                ask(&wrong, 14, &|| format!("{count} {alike:?}, 0 at {at}"));
            }
        }
        // One record too many is 6, whatever the numbers are.
        let plain = [2, 6, 5, 4].repeat(MOST_RECORDS + 1);
        let mut numbers = alike.numbers(&mut random, MOST_RECORDS + 1);
        for _ in 0..2 {
            let batch = batches::with_arrivals(&plain, &numbers);
            given(&mut steps, &mut forecasts, &card, &batch, 6, &|| {
                format!("{alike:?}")
            });
            numbers[9] = numbers[MOST_RECORDS];
        }
    }
    steps.report("arrival_numbers_of_the_longest_batches");
    steps.expect(&[14], 300);
    steps.expect(&[0, 6], 20);
}

/// The order of the numbers where several hold: the card's, then 6, then 14, then 7, then 8. Each
/// ground of 6 and of 7 with good arrival numbers, with 0 and with one used twice, before the fault,
/// in it and behind it.
#[test]
fn arrival_numbers_in_their_order() {
    let mut random = Random::new(404);
    let mut steps = Steps::new();
    let mut forecasts = Forecasts::new();
    let mut plain: Vec<(u32, Vec<u32>)> = Vec::new();
    for (wrong, number) in WRONG_ANNULMENTS.iter().chain(&WRONG_EMPTY_RANGES) {
        plain.push((*number, wrong.to_vec()));
    }
    for good in EMPTY_RANGES_IN_ORDER {
        plain.push((0, good.to_vec()));
    }
    plain.push((0, vec![1, 8, 1, 1]));
    for count in 1..=9 {
        plain.push((0, (1..=count).flat_map(|i| [1, 5 + i, 1, 1]).collect()));
        plain.push((
            0,
            (1..=count).flat_map(|i| [1, 5, 20 + i, 20 + i]).collect(),
        ));
    }
    plain.push((7, vec![1, 5, 2, 2, 1, 4, 2, 2]));
    plain.push((7, vec![1, 5, 2, 2, 1, 5, 1, 1]));
    plain.push((6, vec![4, 5, 2, 2]));
    plain.push((6, vec![1, 5, 2, 3]));
    let mut batches_of: Vec<(u32, Vec<u32>)> = Vec::new();
    for (number, plain) in &plain {
        // Good records in front and behind leave the number as it is.
        let front = [3, 0, 1, random.within(1, 9)];
        let behind = [2, TOP, TOP, 1];
        let longer = [&front, &plain[..], &behind, &behind].concat();
        for plain in [plain, &longer] {
            let count = plain.len() / PLAIN_WORDS;
            let good = batches::arriving(&mut random, plain);
            batches_of.push((*number, good.clone()));
            let wrong = if *number == 6 { 6 } else { 14 };
            for at in 0..count {
                let mut zero = good.clone();
                zero[RECORD_WORDS * at + 4] = 0;
                batches_of.push((wrong, zero));
                let other = random.below(count);
                if other != at {
                    let mut twice = good.clone();
                    twice[RECORD_WORDS * at + 4] = twice[RECORD_WORDS * other + 4];
                    batches_of.push((wrong, twice));
                }
            }
            // Whatever the numbers are, missing words are 6.
            for missing in 1..RECORD_WORDS {
                let mut short = good[..good.len() - missing].to_vec();
                batches_of.push((6, short.clone()));
                if let Some(word) = short.get_mut(4) {
                    *word = 0;
                    batches_of.push((6, short));
                }
            }
        }
    }
    for (card_number, card) in cards::of_every_number() {
        for (batch_number, batch) in &batches_of {
            assert_eq!(number(batch), *batch_number);
            let about = || format!("the card {card_number}, the batch {batch_number}");
            let expected = match card_number {
                0 => *batch_number,
                _ => card_number,
            };
            given(&mut steps, &mut forecasts, &card, batch, expected, &about);
        }
    }
    steps.report("arrival_numbers_in_their_order");
    forecasts.report("arrival_numbers_in_their_order");
    steps.expect(&[6, 14], 1_000);
    steps.expect(&[0, 7, 8], 30);
    steps.expect(&[1, 2, 3, 4], 500);
}

/// A fifth word never makes a record ill formed, and a range with no position has an arrival number
/// like any other record.
#[test]
fn arrival_numbers_of_every_kind_of_record() {
    let mut random = Random::new(405);
    let mut steps = Steps::new();
    let mut forecasts = Forecasts::new();
    let card = cards::of_blocks(8, 4, 0, &[vec![(5, 2), (5, 9), (7, 4)]], &[]);
    let mut words = vec![
        0,
        1,
        2,
        3,
        4,
        5,
        4095,
        4096,
        4097,
        65_535,
        65_536,
        TOP - 1,
        TOP,
    ];
    words.extend((0..32).map(|bit| 1 << bit));
    words.extend(random.words(40));
    let mut kinds: Vec<Record> = vec![addition(5, 2), removal(5, 2, 9), annulment(2, 9)];
    for (from, to) in EMPTY_RANGES {
        kinds.extend([
            removal(5, from, to),
            removal(TOP - 1, from, to),
            annulment(from, to),
        ]);
    }
    for &record in &kinds {
        let mut ask = |arrivals: &[u32], records: &[Record], expected: u32| {
            let plain: Vec<u32> = records.iter().flat_map(batches::without_arrival).collect();
            let batch = batches::with_arrivals(&plain, arrivals);
            let about = || format!("{record:?}, {arrivals:?}");
            given(&mut steps, &mut forecasts, &card, &batch, expected, &about);
        };
        for &word in &words {
            ask(&[word], &[record], if word == 0 { 14 } else { 0 });
            // Beside a record of another term behind it: the same number, and another.
            let behind = addition(TOP, TOP);
            let pair = [record, behind];
            ask(&[word, word], &pair, 14);
            let other = word.wrapping_add(1).max(1);
            ask(&[word, other], &pair, if word == 0 { 14 } else { 0 });
            // The order falls as well.
            let falls = [behind, record];
            ask(&[word, word], &falls, 14);
            ask(&[other, word], &falls, if word == 0 { 14 } else { 7 });
        }
    }
    steps.report("arrival_numbers_of_every_kind_of_record");
    steps.expect(&[0, 7, 14], 1_000);
    assert_eq!(steps.of(6), 0);
}

/// All ways to put these records in order: those of equal term and from in every order of places.
fn places(set: &[Record]) -> Vec<Vec<Record>> {
    let mut all: BTreeSet<Vec<u32>> = BTreeSet::new();
    for order in orders(set.len() as u32) {
        let mut placed: Vec<Record> = order.iter().map(|&at| set[at as usize - 1]).collect();
        placed.sort_by_key(|record| (record.term, record.from));
        all.insert(placed.iter().flat_map(Record::words).collect());
    }
    all.iter().map(|words| records(words)).collect()
}

/// The records that touch a pair, in every order of places that is allowed and every order of arrival:
/// the greatest number decides, whether the pair was there or not.
#[test]
fn arrival_in_every_order_of_places() {
    let mut random = Random::new(406);
    let mut run = Run::default();
    let empty = cards::of_blocks(8, 3, 1, &[], &[]);
    let there = cards::of_blocks(8, 4, 3, &[vec![(4, 5), (5, 4), (5, 5), (5, 6)]], &[]);
    let sets: [&[Record]; 9] = [
        &[addition(5, 5), removal(5, 5, 5), annulment(5, 5)],
        &[addition(5, 5), addition(5, 5), removal(5, 5, 9)],
        &[
            addition(5, 5),
            removal(5, 5, 5),
            removal(5, 5, 9),
            addition(5, 5),
        ],
        &[
            addition(5, 5),
            removal(5, 1, 9),
            removal(5, 5, 5),
            annulment(1, TOP),
        ],
        &[
            addition(5, 5),
            addition(5, 5),
            annulment(5, 5),
            annulment(5, 6),
        ],
        &[
            removal(5, 1, 5),
            removal(5, 2, 6),
            removal(5, 3, 7),
            addition(5, 5),
        ],
        &[
            annulment(1, 5),
            annulment(2, 9),
            removal(5, 5, 5),
            addition(5, 5),
        ],
        &[
            removal(5, 5, 4),
            annulment(5, 4),
            addition(5, 5),
            removal(5, 4, 5),
        ],
        &[
            removal(5, 1, 4),
            removal(5, 6, 9),
            addition(5, 5),
            annulment(4, 5),
        ],
    ];
    let mut orders_tried = 0u64;
    for set in sets {
        for placed in places(set) {
            let plain: Vec<u32> = placed.iter().flat_map(batches::without_arrival).collect();
            for order in orders(placed.len() as u32) {
                let arrivals = spread(&order, &random.pick(&RISING));
                let batch = batches::with_arrivals(&plain, &arrivals);
                let (last, _) = placed
                    .iter()
                    .zip(&order)
                    .filter(|(record, _)| touches(record, (5, 5)))
                    .max_by_key(|(_, &at)| at)
                    .expect("a record");
                for card in [&empty, &there] {
                    let mut card = card.clone();
                    assert_eq!(run.pass(&mut card, &batch, &String::new), 0);
                    let stays = second::live_pairs(&card).contains(&(5, 5));
                    assert_eq!(stays, last.kind == ADD, "{batch:?}");
                    orders_tried += 1;
                }
            }
        }
    }
    // Many more records over one pair, drawn.
    for round in 0..300 {
        let count = match round % 100 {
            0 => MOST_RECORDS,
            20 | 40 | 60 | 80 => 600,
            _ => 2 + random.below(40),
        };
        let mut set = Vec::new();
        for _ in 0..count {
            let (from, to) = (random.within(1, 6), random.within(4, 9));
            set.push(match random.below(4) {
                0 => annulment(from, to),
                1 | 2 => removal(5, from, to),
                _ => addition(5, random.pick(&[4, 5, 5, 5, 6])),
            });
        }
        random.shuffle(&mut set);
        let batch = batches::drawn_words(&mut random, set);
        for card in [&empty, &there] {
            let mut card = card.clone();
            assert_eq!(run.pass(&mut card, &batch, &String::new), 0);
            run.ask(&mut random, &card, &batch);
        }
    }
    run.report("arrival_in_every_order_of_places");
    println!("arrival_in_every_order_of_places: {orders_tried} orders on cards");
    assert!(orders_tried > 1_000);
    run.winners.expect(100);
}

/// How the removed ranges of a batch lie to each other.
#[derive(Clone, Copy, Debug, PartialEq, Eq)]
enum Ranges {
    Nested,
    /// Each starts and ends behind the one before, and overlaps some of those before it.
    Staircase,
    Disjoint,
    EqualStarts,
    EqualEnds,
    /// Of one position each.
    Narrow,
    /// One wide one over narrow ones.
    OneWide,
    Drawn,
}

const EVERY_WAY: [Ranges; 8] = [
    Ranges::Nested,
    Ranges::Staircase,
    Ranges::Disjoint,
    Ranges::EqualStarts,
    Ranges::EqualEnds,
    Ranges::Narrow,
    Ranges::OneWide,
    Ranges::Drawn,
];

impl Ranges {
    /// So many ranges of positions from `low` on, `stride` apart, in order of their starts.
    fn ranges(self, random: &mut Random, count: u32, low: u32, stride: u32) -> Vec<(u32, u32)> {
        let at = |i: u32| low + i * stride;
        let reach = random.within(1, 5);
        let mut ranges: Vec<(u32, u32)> = (0..count)
            .map(|i| match self {
                Ranges::Nested => (at(i), at(2 * count - i)),
                Ranges::Staircase => (at(2 * i), at(2 * i + 2 * reach + 1)),
                Ranges::Disjoint => (at(2 * i), at(2 * i + 1) - 1),
                Ranges::EqualStarts => (at(0), at(2 * i)),
                Ranges::EqualEnds => (at(i), at(2 * count)),
                Ranges::Narrow => (at(2 * i), at(2 * i)),
                Ranges::OneWide if i == 0 => (at(0), at(2 * count)),
                Ranges::OneWide => (at(2 * i), at(2 * i + 1)),
                Ranges::Drawn => {
                    let ends = [
                        random.below(2 * count as usize),
                        random.below(2 * count as usize),
                    ];
                    (
                        at(ends[0].min(ends[1]) as u32),
                        at(ends[0].max(ends[1]) as u32),
                    )
                }
            })
            .collect();
        ranges.sort_by_key(|range| range.0);
        ranges
    }
}

/// How the removals arrive, by place; additions arrive anywhere between them.
#[derive(Clone, Copy, Debug)]
enum Arriving {
    Rising,
    Falling,
    Drawn,
    /// Every second one late.
    InTurns,
}

const EVERY_ARRIVAL: [Arriving; 4] = [
    Arriving::Rising,
    Arriving::Falling,
    Arriving::Drawn,
    Arriving::InTurns,
];

impl Arriving {
    fn numbers(self, random: &mut Random, count: usize) -> Vec<u32> {
        let most = count as u32;
        let mut numbers: Vec<u32> = (1..=most).map(|i| i * 100).collect();
        match self {
            Arriving::Rising => {}
            Arriving::Falling => numbers.reverse(),
            Arriving::Drawn => random.shuffle(&mut numbers),
            Arriving::InTurns => {
                let late = |i: u32| {
                    if i % 2 == 0 {
                        (most + i) * 100
                    } else {
                        i * 100
                    }
                };
                numbers = (1..=most).map(late).collect();
            }
        }
        numbers
    }
}

/// Removals of one term, of several and of every term, nested, in staircases, apart and otherwise,
/// that arrive rising, falling or by chance, with additions between them at each range's ends and next
/// to them, on cards with pairs there; some additions again and again.
#[test]
fn arrival_of_ranges_in_every_way() {
    let mut random = Random::new(407);
    let mut run = Run::default();
    let mut rounds = 0;
    for round in 0..7 {
        for ways in EVERY_WAY {
            for arriving in EVERY_ARRIVAL {
                for count in [1, 2, 3, 6, 16, 60, 300, 1500] {
                    let seldom = if count == 1500 { 12 } else { 3 };
                    if count > 16 && random.below(seldom) > 0 {
                        continue;
                    }
                    let stride = random.pick(&[1, 2, 3, 50]);
                    let low = match random.below(3) {
                        0 => TOP - (2 * count + 13) * stride,
                        _ => random.within(1, 9),
                    };
                    let terms: Vec<u32> = match round % 3 {
                        0 => vec![5],
                        1 => vec![5, 6, 9],
                        _ => vec![TOP - 1, TOP],
                    };
                    let ranges = ways.ranges(&mut random, count, low, stride);
                    let numbers = arriving.numbers(&mut random, ranges.len());
                    // Of one kind, or of both over the same pairs.
                    let annulled = random.pick(&[0, 0, 1, 4]);
                    let mut records: Vec<Record> = Vec::new();
                    let mut ends: Vec<u32> = Vec::new();
                    for (&(from, to), &arrival) in ranges.iter().zip(&numbers) {
                        let record = match random.chance(annulled, 4) {
                            true => annulment(from, to),
                            false => removal(random.pick(&terms), from, to),
                        };
                        records.push(Record { arrival, ..record });
                        let beside = [from.max(2) - 1, from, from.saturating_add(1)];
                        ends.extend(beside);
                        ends.extend([to.max(2) - 1, to, to.saturating_add(1)]);
                        ends.push(from + (to - from) / 2);
                    }
                    ends.sort_unstable();
                    ends.dedup();
                    // Each end under a term: there already, added, added again, or not at all.
                    let mut there = BTreeSet::new();
                    let most = if count > 16 { 350 } else { 60 };
                    let least = numbers.iter().min().expect("a range") / 2;
                    let last = numbers.iter().max().expect("a range") + 100;
                    for &position in &ends {
                        let term = random.pick(&terms);
                        if there.len() < most && random.chance(1, 2) {
                            there.insert((term, position));
                        }
                        let times = random.pick(&[0, 1, 1, 2, 5]);
                        for _ in 0..times {
                            if records.len() < MOST_RECORDS {
                                records.push(Record {
                                    arrival: random.within(least, last),
                                    ..addition(term, position)
                                });
                            }
                        }
                    }
                    let batch = batches::by_arrival(&mut random, records);
                    let b = if count > 16 {
                        random.within(100, 300)
                    } else {
                        random.within(8, 40)
                    };
                    let old = cards::packed(there, b);
                    let free = random.within(1, 5);
                    let n = (old.len() as u32 + free).max(2);
                    let start = random.below(n as usize) as u32;
                    let memory = cards::memory(&mut random, b, n);
                    let mut card = cards::laid_out(memory, b, n, start, &old, &[]);
                    let about = || format!("{count} {ways:?} {arriving:?}, round {round}");
                    if round % 3 == 2 {
                        cards::run(&mut card, &[], random.below(7));
                    }
                    run.pass(&mut card, &batch, &about);
                    run.ask(&mut random, &card, &batch);
                    rounds += 1;
                }
            }
        }
    }
    run.report("arrival_of_ranges_in_every_way");
    println!("arrival_of_ranges_in_every_way: {rounds} batches");
    run.steps.expect(&[0], 5_000);
    run.steps.expect(&[8], 20);
    run.winners.expect(1_000);
}

/// A universe that records meet in again and again.
fn narrow_universe(random: &mut Random) -> Universe {
    let (first, low) = random.pick(&[(1, 1), (5, 3), (TOP - 2, TOP - 11)]);
    let terms = random.within(1, 3);
    let positions = random.within(2, 12);
    Universe {
        terms: (0..terms).map(|i| first + i).collect(),
        positions: (0..positions).map(|i| low + i).collect(),
    }
}

/// Drawn batches of additions and removals that overlap, with arrival numbers of all kinds, on cards
/// of many shapes: whole passes, passes with cuts, forecasts, lookups.
#[test]
fn arrival_of_drawn_batches() {
    let mut random = Random::new(408);
    let mut run = Run::default();
    let mut stopped = 0;
    for round in 0..2_400 {
        let b = random.pick(&[8, 8, 9, 10, 12, 20]);
        let n = random.within(2, 9);
        let about = || format!("round {round}, B {b}, N {n}");
        let universe = narrow_universe(&mut random);
        let mut card = cards::fresh(&mut random, b, n);
        for _ in 0..3 {
            let most = random.pick(&[4, 12, 40]);
            let batch = match random.below(4) {
                0 => batches::near(&mut random, &card, Mixture::Both, most),
                _ => batches::good(&mut random, &universe, Mixture::Both, most),
            };
            let number = if random.chance(1, 2) {
                run.pass(&mut card, &batch, &about)
            } else {
                run.cut_pass(&mut random, &mut card, &batch, &about, &mut |_| ())
            };
            stopped += u32::from(number == 8);
            run.ask(&mut random, &card, &batch);
        }
    }
    run.report("arrival_of_drawn_batches");
    run.steps.expect(&[0], 15_000);
    run.winners.expect(800);
    assert!(run.cuts[1..].iter().all(|&count| count > 300));
    assert!(stopped > 100);
}

/// Passes whose batch changes on the way, also in its arrival numbers alone, with cuts, against the
/// history.
#[test]
fn arrival_in_passes_taken_over() {
    let mut random = Random::new(409);
    let mut steps = Steps::new();
    let mut renumbered = 0u64;
    for round in 0..500 {
        let b = random.pick(&[8, 8, 9, 11]);
        let n = random.within(2, 6);
        let about = || format!("round {round}, B {b}, N {n}");
        let universe = narrow_universe(&mut random);
        let mut card = cards::fresh(&mut random, b, n);
        let mut history = History::new(b);
        let mut batch = batches::good(&mut random, &universe, Mixture::Both, 30);
        for _ in 0..40 {
            match random.below(8) {
                0 => batch = batches::good(&mut random, &universe, Mixture::Both, 30),
                1 => {
                    batch = batches::arriving(&mut random, &batches::plain(&batch));
                    renumbered += u64::from(Configuration::read(&card).new_length > 0);
                }
                2 => {
                    // A cut: write 3 comes to nothing.
                    if let Some((which @ (1 | 2), range)) = second::due_write(&card, &batch) {
                        assert!(which < 3);
                        random.fill(&mut card[range]);
                    }
                    history.cut_step(&batch, false);
                }
                3 => {
                    let mut wrong = batch.clone();
                    if let Some(word) = wrong.get_mut(4) {
                        *word = 0;
                        let answer = compare::step(&mut steps, &mut card, &wrong, &about);
                        assert_eq!(answer, refused(14));
                    }
                }
                _ => {}
            }
            let answer = compare::step(&mut steps, &mut card, &batch, &about);
            let finished = history.step(&batch, answer.write == 3);
            assert_eq!(finished.unwrap_or(false), answer.finished, "{}", about());
            assert!(&second::live_pairs(&card) == history.pairs(), "{}", about());
            assert_eq!((card[6], card[7]), history.boundary_words(), "{}", about());
        }
    }
    steps.report("arrival_in_passes_taken_over");
    println!("arrival_in_passes_taken_over: {renumbered} times renumbered in mid-pass");
    steps.expect(&[0], 10_000);
    steps.expect(&[8, 14], 300);
    assert!(renumbered > 300);
}

/// A batch sent again whole after a whole pass changes nothing in the index, at no step of its second
/// pass, which finishes: with cuts, and where the second pass is left unfinished and another sent. A
/// batch stopped by 8 stays stopped and changes nothing.
#[test]
fn arrival_of_a_batch_sent_again() {
    let mut random = Random::new(410);
    let mut run = Run::default();
    let mut again = 0u64;
    let mut stopped = 0u64;
    let mut unfinished = 0u64;
    for round in 0..2_500 {
        let b = random.pick(&[8, 8, 9, 10, 14]);
        let n = random.pick(&[2, 3, 3, 4, 5, 6, 9]);
        let about = || format!("round {round}, B {b}, N {n}");
        let universe = narrow_universe(&mut random);
        let mut card = cards::fresh(&mut random, b, n);
        let first = batches::good(&mut random, &universe, Mixture::Additions, 24);
        cards::run(&mut card, &first, 60);
        cards::run(&mut card, &[], 60);
        let most = random.pick(&[4, 12, 40]);
        let batch = batches::good(&mut random, &universe, Mixture::Both, most);
        let number = if random.chance(1, 2) {
            run.pass(&mut card, &batch, &about)
        } else {
            run.cut_pass(&mut random, &mut card, &batch, &about, &mut |_| ())
        };
        if number != 0 {
            let before = card.clone();
            let answer = compare::step(&mut run.steps, &mut card, &batch, &about);
            assert_eq!((answer, &card), (refused(8), &before), "{}", about());
            stopped += 1;
            continue;
        }
        let index = second::live_pairs(&card);
        let stays = |card: &[u32]| {
            assert_eq!(second::live_pairs(card), index, "sent again; {}", about());
        };
        let start = card.clone();
        let seen = &mut |_: &StepAnswer, card: &[u32]| stays(card);
        let number = compare::pass_seen(&mut run.steps, &mut card, &batch, &about, seen);
        assert_eq!(number, 0, "sent again; {}", about());
        again += 1;
        // With cuts.
        let mut card = start.clone();
        let number = run.cut_pass(&mut random, &mut card, &batch, &about, &mut |card| {
            stays(card)
        });
        assert_eq!(number, 0, "sent again; {}", about());
        // Left unfinished: none, and the batch once more, go on from there.
        let mut card = start.clone();
        for _ in 0..random.below(9) {
            let answer = compare::step(&mut run.steps, &mut card, &batch, &about);
            stays(&card);
            if answer.finished {
                break;
            }
        }
        unfinished += u64::from(Configuration::read(&card).new_length > 0);
        let mut other = card.clone();
        assert_eq!(compare::pass(&mut run.steps, &mut other, &[], &about), 0);
        stays(&other);
        assert_eq!(compare::pass(&mut run.steps, &mut card, &batch, &about), 0);
        stays(&card);
    }
    run.report("arrival_of_a_batch_sent_again");
    println!(
        "arrival_of_a_batch_sent_again: {again} times, {unfinished} left unfinished, {stopped} \
         stopped by 8"
    );
    assert!(again > 1_500 && stopped > 50 && unfinished > 200);
    run.winners.expect(500);
}

/// Where all additions arrive after all removals, a batch is the index less all it removes, plus all
/// it adds; the other way round, plus all it adds, less all it removes.
#[test]
fn arrival_of_additions_after_and_before_removals() {
    let mut random = Random::new(411);
    let mut run = Run::default();
    let mut differ = 0u64;
    for round in 0..1_500 {
        let b = random.pick(&[8, 8, 9, 12]);
        let n = random.within(5, 14);
        let universe = narrow_universe(&mut random);
        let mut card = cards::fresh(&mut random, b, n);
        let first = batches::good(&mut random, &universe, Mixture::Additions, 20);
        cards::run(&mut card, &first, 60);
        cards::run(&mut card, &[], 60);
        let index = second::live_pairs(&card);
        let most = random.pick(&[3, 10, 30]);
        let drawn = batches::good(&mut random, &universe, Mixture::Both, most);
        let mut after = drawn.clone();
        let kinds: Vec<u32> = records(&drawn).iter().map(|record| record.kind).collect();
        // The least numbers go to the one side, in drawn order on each side.
        let additions_last = round % 2 == 0;
        let mut numbers: Vec<u32> = records(&drawn)
            .iter()
            .map(|record| record.arrival)
            .collect();
        numbers.sort_unstable();
        let adds = kinds.iter().filter(|&&kind| kind == ADD).count();
        let early = match additions_last {
            true => kinds.len() - adds,
            false => adds,
        };
        let (low, high) = numbers.split_at_mut(early);
        random.shuffle(low);
        random.shuffle(high);
        let (mut low, mut high) = (low.iter(), high.iter());
        for (at, &kind) in kinds.iter().enumerate() {
            let late = (kind == ADD) == additions_last;
            let next = if late { high.next() } else { low.next() };
            after[RECORD_WORDS * at + 4] = *next.expect("a number");
        }
        let removed = |pair: &Pair| {
            let mut all = after.chunks(5);
            all.any(|r| match r[0] {
                2 => r[1] == pair.0 && r[2] <= pair.1 && pair.1 <= r[3],
                3 => r[2] <= pair.1 && pair.1 <= r[3],
                _ => false,
            })
        };
        let added = after.chunks(5).filter(|record| record[0] == 1);
        let added: BTreeSet<Pair> = added.map(|record| (record[1], record[2])).collect();
        let mut less_then_plus: BTreeSet<Pair> = index.clone();
        less_then_plus.retain(|pair| !removed(pair));
        less_then_plus.extend(&added);
        let mut plus_then_less: BTreeSet<Pair> = index.union(&added).copied().collect();
        plus_then_less.retain(|pair| !removed(pair));
        differ += u64::from(less_then_plus != plus_then_less);
        if run.pass(&mut card, &after, &String::new) == 0 {
            let expected = match additions_last {
                true => less_then_plus,
                false => plus_then_less,
            };
            assert_eq!(second::live_pairs(&card), expected, "{after:?}");
        }
    }
    run.report("arrival_of_additions_after_and_before_removals");
    println!("arrival_of_additions_after_and_before_removals: {differ} differ by the order");
    assert!(differ > 500 && run.steps.passes > 800);
}

/// A pass of the library with its own batch of a file, on a card that has room.
fn index_of(bytes: &[u8]) -> BTreeSet<Pair> {
    let mut batch = vec![7; 5 * 4096];
    let reply = ffi::scores(bytes, &mut batch);
    assert_eq!(reply.number, 0);
    let mut card = vec![0; cards::right_length(64, 200)];
    assert_eq!(ffi::format(&mut card, 64, 200), 0);
    loop {
        let answer = ffi::step(&mut card, &batch[..reply.words]);
        assert_eq!(answer.number, 0);
        if answer.finished {
            return second::live_pairs(&card);
        }
    }
}

/// In a file line k has arrival number k, wherever its record stands in the batch; of an addition and
/// a removal of a pair the later line decides.
#[test]
fn arrival_in_text_files() {
    let mut random = Random::new(412);
    let mut tally = Tally::new();
    for (text, pairs) in [
        ("A\t5\t9\nR\t5\t2\t9", &[][..]),
        ("R\t5\t2\t9\nA\t5\t9", &[(5, 9)]),
        ("A\t5\t9\nR\t5\t2\t9\nA\t5\t9\n", &[(5, 9)]),
        ("R\t5\t9\t9\nA\t5\t9\nR\t5\t9\t9\n", &[]),
        ("A\t5\t9\nR\t5\t9\t2\n", &[(5, 9)]),
        ("A\t5\t9\nR\t6\t2\t9\nA\t5\t8\nR\t5\t8\t8", &[(5, 9)]),
        ("A\t7\t1\nA\t5\t9\nR\t5\t1\t9\nR\t7\t2\t9\n", &[(7, 1)]),
    ] {
        let pairs: BTreeSet<Pair> = pairs.iter().copied().collect();
        assert_eq!(index_of(text.as_bytes()), pairs, "{text}");
        compare::scores_by_room(&mut tally, &mut random, text.as_bytes(), &String::new);
    }
    let mut against_place = 0u64;
    for round in 0..1_500 {
        let universe = narrow_universe(&mut random);
        let most = match round % 50 {
            0 => 4096,
            1..=9 => 300,
            _ => 24,
        };
        let count = random.below(most + 1);
        let mut lines = Vec::new();
        for _ in 0..count {
            let term = universe.term(&mut random);
            lines.push(if random.chance(1, 2) {
                addition(term, universe.position(&mut random))
            } else {
                let (from, to) = universe.removed_range(&mut random);
                removal(term, from, to)
            });
        }
        let bytes = files::file(&files::lines(&lines), random.chance(1, 2));
        let reply = compare::scores_by_room(&mut tally, &mut random, &bytes, &String::new);
        assert_eq!((reply.number, reply.words), (0, 5 * count));
        let mut batch = vec![7; reply.words];
        ffi::scores(&bytes, &mut batch);
        // Each line once, with its own number.
        let mut seen = BTreeSet::new();
        for record in records(&batch) {
            let line = Record {
                arrival: record.arrival,
                ..lines[record.arrival as usize - 1]
            };
            assert_eq!(record, line);
            assert!(seen.insert(record.arrival));
        }
        // Line by line, as they were written.
        let mut index: BTreeSet<Pair> = BTreeSet::new();
        for line in &lines {
            match line.kind {
                ADD => {
                    index.insert((line.term, line.from));
                }
                _ => index.retain(|&pair| !touches(line, pair)),
            }
        }
        assert_eq!(index_of(&bytes), index);
        let mut by_place: BTreeSet<Pair> = BTreeSet::new();
        for record in records(&batch) {
            match record.kind {
                ADD => {
                    by_place.insert((record.term, record.from));
                }
                _ => by_place.retain(|&pair| !touches(&record, pair)),
            }
        }
        against_place += u64::from(by_place != index);
    }
    tally.report("arrival_in_text_files");
    println!("arrival_in_text_files: {against_place} files where the place would say otherwise");
    tally.expect(&[0, 10], 2_000);
    assert!(against_place > 300);
}
