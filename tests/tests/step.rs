// The exported step compared with the second program's, answer by answer and word by word.

use std::collections::BTreeSet;

use gameindex_tests::batches::{
    self, addition, annulment, removal, Mixture, Universe, PLAIN_WORDS, WRONG_ANNULMENTS,
    WRONG_EMPTY_RANGES,
};
use gameindex_tests::cards;
use gameindex_tests::compare::{self, done, refused, Steps};
use gameindex_tests::ffi;
use gameindex_tests::random::Random;
use gameindex_tests::second::batch::{Record, RECORD_WORDS};
use gameindex_tests::second::{self, Configuration, History, Pair, StepAnswer, HIGHEST};

const TOP: u32 = u32::MAX;

/// The card after P1, on zeros, its steps checked on the way.
fn p1(n: u32) -> Vec<u32> {
    let mut card = vec![0; cards::right_length(8, n)];
    assert_eq!(ffi::format(&mut card, 8, n), 0);
    let batch = [1, 5, 2, 2, 1, 1, 5, 9, 9, 2, 1, 7, 4, 4, 3];
    let mut expected = card.clone();
    let block = 8 + 2 * n as usize;
    assert_eq!(ffi::step(&mut card, &batch), done(1, 0, false));
    expected[block..block + 8].copy_from_slice(&[5, 2, 2, 9, 7, 1, 4, 0]);
    assert_eq!(card, expected);
    assert_eq!(ffi::step(&mut card, &batch), done(2, 0, false));
    expected[8..10].copy_from_slice(&[5, 2]);
    assert_eq!(card, expected);
    assert_eq!(ffi::step(&mut card, &batch), done(3, 0, true));
    expected[4] = 1;
    assert_eq!(card, expected);
    card
}

/// P1 to P6 by the paper's own words, with arrival numbers; P5 in both orders of arrival.
#[test]
fn step_on_the_papers_cases() {
    let mut comparisons = 6;
    let mut run = |card: &mut [u32], batch: &[u32], answers: &[StepAnswer]| {
        for answer in answers {
            assert_eq!(ffi::step(card, batch), *answer);
            comparisons += 1;
        }
    };
    let three = |freed, finished| {
        [
            done(1, 0, false),
            done(2, 0, false),
            done(3, freed, finished),
        ]
    };

    // P2. Blocks from word 16; place 1 from 24, place 2 from 32.
    for arrival in [1, 2, 4096, 4097, TOP] {
        let mut card = p1(4);
        run(&mut card, &[1, 7, 11, 11, arrival], &three(1, true));
        assert_eq!(card[24..32], [5, 2, 2, 9, 7, 2, 4, 11]);
        assert_eq!(card[..8], [1, 8, 4, 1, 1, 0, 0, 0]);
    }

    // P3.
    let mut card = p1(4);
    run(&mut card, &[1, 8, 1, 1, 1], &three(1, false));
    assert_eq!(card[24..32], card[16..24]);
    assert_eq!(card[..8], [1, 8, 4, 1, 0, 1, 7, 4]);
    run(&mut card, &[1, 8, 1, 1, 1], &three(0, true));
    assert_eq!(card[32..40], [8, 1, 1, 0, 0, 0, 0, 0]);
    assert_eq!(card[..8], [1, 8, 4, 1, 2, 0, 0, 0]);

    // P4.
    let mut card = p1(2);
    run(&mut card, &[1, 8, 1, 1, 1], &three(1, false));
    let stopped = card.clone();
    run(&mut card, &[1, 8, 1, 1, 1], &[refused(8), refused(8)]);
    assert_eq!(card, stopped);
    assert_eq!(card[..8], [1, 8, 2, 1, 0, 1, 7, 4]);
    run(&mut card, &[], &[done(3, 0, true)]);
    assert_eq!(card[..8], [1, 8, 2, 1, 1, 0, 0, 0]);
    assert_eq!(card[8..], stopped[8..]);

    // P5: (5,9) stays only where the addition arrived second.
    for (removed, added) in [(1, 2), (2, 1), (1, TOP), (TOP, 1), (65_536, 4), (4, 65_536)] {
        let mut card = p1(4);
        let batch = [2, 5, 2, 9, removed, 1, 5, 9, 9, added];
        run(&mut card, &batch, &three(1, true));
        if removed < added {
            assert_eq!(card[24..32], [5, 1, 9, 7, 1, 4, 0, 0]);
        } else {
            assert_eq!(card[24..32], [7, 1, 4, 0, 0, 0, 0, 0]);
        }
        assert_eq!(card[..8], [1, 8, 4, 1, 1, 0, 0, 0]);
    }

    // P6.
    for (one, other) in [(1, 2), (2, 1)] {
        let mut card = p1(4);
        let batch = [2, 5, 1, TOP, one, 2, 7, 1, TOP, other];
        run(&mut card, &batch, &[done(3, 1, true)]);
        assert_eq!(card[..8], [1, 8, 4, 1, 0, 0, 0, 0]);
    }
    println!("step_on_the_papers_cases: {comparisons} comparisons");
}

/// Every batch of one record and of two over small alphabets, two in both orders of arrival, and what
/// is left of it when its last words are missing.
#[test]
fn step_with_every_small_batch() {
    let mut steps = Steps::new();
    let records = batches::every_small_record();
    let cards = cards::small();
    for card in &cards {
        for record in &records {
            for arrival in [1, 0, TOP] {
                let batch = batches::with_arrivals(record, &[arrival]);
                for length in 0..=batch.len() {
                    if arrival == 1 || length == batch.len() {
                        let batch = &batch[..length];
                        compare::step(&mut steps, &mut card.clone(), batch, &String::new);
                    }
                }
            }
        }
    }
    let good_records = batches::every_good_small_record();
    let mut random = Random::new(21);
    for one in &records {
        // Any two, and all two good ones.
        for _ in 0..24 {
            let other = random.pick(&records);
            let plain = if random.chance(1, 2) {
                [*one, other].concat()
            } else {
                [other, *one].concat()
            };
            let arrivals = [
                random.pick(&[0, 1, 2, 2, TOP]),
                random.pick(&[1, 1, 2, TOP]),
            ];
            let batch = batches::with_arrivals(&plain, &arrivals);
            let mut card = cards[random.below(cards.len())].clone();
            compare::step(&mut steps, &mut card, &batch, &String::new);
        }
    }
    for one in &good_records {
        for other in &good_records {
            let plain = [one.as_slice(), other.as_slice()].concat();
            for arrivals in [[1, 2], [2, 1], [2, 2]] {
                let batch = batches::with_arrivals(&plain, &arrivals);
                for card in &cards {
                    let mut card = card.clone();
                    if second::judge_batch(&batch) == 0 {
                        compare::pass(&mut steps, &mut card, &batch, &String::new);
                    } else {
                        compare::step(&mut steps, &mut card, &batch, &String::new);
                    }
                }
            }
        }
    }
    steps.report("step_with_every_small_batch");
    println!(
        "step_with_every_small_batch: {} good records",
        good_records.len()
    );
    steps.expect(&[0, 6, 14], 5_000);
    steps.expect(&[7], 1_000);
    steps.expect(&[8], 100);
}

/// Every ground of 6, 14 and 7 at every record of batches of all lengths, alone and with another fault,
/// on cards where 8 would follow as well.
#[test]
fn step_with_bad_batches() {
    let mut random = Random::new(22);
    let mut steps = Steps::new();
    let full = second_full_card(&mut random);
    for round in 0..150 {
        let card = match round % 3 {
            0 => full.clone(),
            _ => cards::any(&mut random, 8, 2 + round % 5),
        };
        let universe = Universe::random(&mut random);
        let count = [1, 2, 3, 5, 9, 17, 40][round as usize % 7];
        let batch = batches::exactly(&mut random, &universe, count);
        for at in 0..count {
            let word = RECORD_WORDS * at;
            let faults = batches::faults(&mut random, &batch, at);
            for (field, value) in faults {
                let mut bad = batch.clone();
                bad[word + field] = value;
                if random.chance(1, 4) {
                    // Another fault anywhere, so that 6, 14 and 7 meet in any order.
                    let other = random.below(bad.len());
                    bad[other] = random.pick(&[0, 1, 2, 3, TOP]);
                }
                let about = || format!("record {at}, field {field}");
                compare::step(&mut steps, &mut card.clone(), &bad, &about);
            }
            let plain = batches::plain(&batch);
            let place = PLAIN_WORDS * at;
            for (wrong, _) in WRONG_ANNULMENTS.iter().chain(&WRONG_EMPTY_RANGES) {
                if random.chance(1, 8) {
                    let mut bad = plain.clone();
                    bad.splice(place..place, wrong.iter().copied());
                    let bad = batches::arriving(&mut random, &bad);
                    let about = || format!("{wrong:?} before record {at}");
                    compare::step(&mut steps, &mut card.clone(), &bad, &about);
                }
            }
            if at > 0 {
                // A fall by term, a fall by from, and repeats; then with an arrival number repeated.
                let arrivals = batches::arrivals(&mut random, count);
                let mut twice = arrivals.clone();
                twice[at] = twice[at - 1];
                let mut both = |falls: &[u32]| {
                    for arrivals in [&arrivals, &twice] {
                        let falls = batches::with_arrivals(falls, arrivals);
                        compare::step(&mut steps, &mut card.clone(), &falls, &String::new);
                    }
                };
                let mut falls = plain.clone();
                falls.copy_within(place - PLAIN_WORDS..place, place);
                both(&falls);
                falls[place] = 2;
                falls[place + 3] = TOP;
                both(&falls);
                falls[place + 2] = falls[place + 2].saturating_sub(1);
                both(&falls);
                falls[place + 1] = falls[place + 1].saturating_sub(1);
                falls[place + 2] = TOP;
                both(&falls);
            }
        }
        for missing in 1..=batch.len().min(8) {
            let short = &batch[..batch.len() - missing];
            compare::step(&mut steps, &mut card.clone(), short, &String::new);
        }
        for _ in 0..8 {
            let bad = batches::bad(&mut random, &universe);
            compare::step(&mut steps, &mut card.clone(), &bad, &String::new);
        }
    }
    steps.report("step_with_bad_batches");
    steps.expect(&[6], 10_000);
    steps.expect(&[7, 0, 14], 1_000);
    steps.expect(&[8], 200);
}

/// A card with one place free, all its blocks full, in mid-pass.
fn second_full_card(random: &mut Random) -> Vec<u32> {
    let old: Vec<Vec<Pair>> = (5..8)
        .map(|term| (1..=6).map(|position| (term * 3, position * 5)).collect())
        .collect();
    let new = vec![(1..=6).map(|position| (3, position)).collect()];
    let memory = cards::memory(random, 8, 5);
    let card = cards::laid_out(memory, 8, 5, 3, &old, &new);
    assert_eq!(second::judge(&card), 0);
    card
}

/// Batches of none, of 4,095 to 4,098 records and of lengths around them; the last record counts.
#[test]
fn step_with_the_longest_batches() {
    let mut random = Random::new(23);
    let mut steps = Steps::new();
    for (b, n) in [(8, 4), (64, 100), (1024, 3)] {
        let card = match b {
            8 => second_full_card(&mut random),
            _ => cards::stepped(&mut random, b, n),
        };
        for batch in &batches::longest(&mut random) {
            let step = |steps: &mut Steps, batch: &[u32]| {
                compare::step(steps, &mut card.clone(), batch, &|| format!("B {b}, N {n}"))
            };
            step(&mut steps, batch);
            let more = batches::with_a_last_record(batch);
            step(&mut steps, &more);
            let more = batches::with_a_last_record(&more);
            step(&mut steps, &more);
            for length in (20_462..=more.len()).rev().step_by(3) {
                step(&mut steps, &more[..length]);
            }
            // A fault in the last record alone, in the first alone, and a fall at the end.
            for (field, value) in batches::LONGEST_FAULTS {
                let mut bad = batch.clone();
                let last = bad.len() - RECORD_WORDS;
                bad[last + field] = value;
                step(&mut steps, &bad);
                let mut bad = batch.clone();
                bad[field] = value;
                step(&mut steps, &bad);
            }
            // The first arrival number again.
            let mut bad = batch.clone();
            let last = bad.len() - 1;
            bad[last] = batch[4];
            step(&mut steps, &bad);
        }
        // The last of many records is the one that matters.
        let many = |record, last| {
            let mut records = vec![record; 4095];
            records.push(last);
            records
        };
        let pass = |steps: &mut Steps, card: &mut [u32], records: Vec<Record>| {
            compare::pass(steps, card, &batches::words(records), &String::new);
            second::live_pairs(card)
        };
        let mut card = cards::fresh(&mut random, b, n);
        let records = many(addition(7, 7), addition(7, TOP));
        let index = pass(&mut steps, &mut card, records);
        assert_eq!(index, BTreeSet::from([(7, 7), (7, TOP)]));
        let mut records = many(addition(7, 7), removal(7, TOP, TOP));
        records[0] = removal(7, 7, 7);
        let index = pass(&mut steps, &mut card, records);
        assert_eq!(index, BTreeSet::from([(7, 7)]));
        // So it is of removals under every term.
        pass(&mut steps, &mut card, vec![addition(9, TOP)]);
        let records = many(annulment(8, 9), annulment(TOP, TOP));
        let index = pass(&mut steps, &mut card, records);
        assert_eq!(index, BTreeSet::from([(7, 7)]));
        let index = pass(&mut steps, &mut card, vec![removal(7, 7, TOP); 4095]);
        assert!(index.is_empty());
        pass(&mut steps, &mut card, vec![]);
    }
    steps.report("step_with_the_longest_batches");
    steps.expect(&[0, 6], 50);
    steps.expect(&[7, 8, 14], 10);
}

/// Whole passes on cards of all shapes, some begun in mid-pass, until the pass finishes or 8 comes.
#[test]
fn step_through_whole_passes() {
    let mut random = Random::new(24);
    let mut steps = Steps::new();
    for round in 0..2600 {
        let (b, n) = match round % 5 {
            0 => (8, random.within(2, 6)),
            1 => (random.within(8, 16), random.within(2, 12)),
            2 => (random.within(8, 12), random.within(3, 5)),
            3 => (random.within(8, 32), random.within(2, 14)),
            _ => (random.pick(&[8, 9, 11, 33]), random.pick(&[2, 3, 16])),
        };
        let mut card = cards::any(&mut random, b, n);
        let universe = Universe::random(&mut random);
        for _ in 0..3 {
            let most = random.pick(&[1, 3, 10, 60]);
            let batch = batches::any(&mut random, &card, &universe, most);
            let from_the_start = Configuration::read(&card).new_length == 0;
            let number = compare::pass(&mut steps, &mut card, &batch, &|| format!("B {b}, N {n}"));
            assert!(number == 0 || number == 8);
            if number == 0 && from_the_start && random.chance(1, 4) {
                // The whole batch once more leaves the index as it is.
                let index = second::live_pairs(&card);
                compare::pass(&mut steps, &mut card, &batch, &String::new);
                assert!(second::live_pairs(&card) == index);
            }
        }
    }
    steps.report("step_through_whole_passes");
    steps.expect(&[0], 40_000);
    steps.expect(&[8], 500);
    steps.expect_every_shape(200);
    assert!(steps.passes > 4_000 && steps.passes_at_the_limit > 1_000);
}

/// Every set of pairs over three terms and three positions, packed as the old segment, and every
/// batch of one record over them; in mid-pass some other batches.
#[test]
fn step_on_every_small_index() {
    let mut random = Random::new(25);
    let mut steps = Steps::new();
    let records = batches::every_record_of_a_small_index();
    for old in cards::every_small_index() {
        let n = (old.len() as u32 + 1 + random.below(3) as u32).max(2);
        let start = random.below(n as usize) as u32;
        let memory = cards::memory(&mut random, 8, n);
        let card = cards::laid_out(memory, 8, n, start, &old, &[]);
        for record in &records {
            let mut card = card.clone();
            if random.chance(1, 3) {
                compare::step(&mut steps, &mut card, record, &String::new);
                let other = random.pick(&records);
                compare::step(&mut steps, &mut card, &other, &String::new);
                compare::step(&mut steps, &mut card, record, &String::new);
            }
            compare::pass(&mut steps, &mut card, record, &String::new);
        }
    }
    steps.report("step_on_every_small_index");
    steps.expect(&[0], 20_000);
    steps.expect(&[8], 200);
}

/// Full cards: additions until 8 comes, then the empty batch, removals, and other additions.
#[test]
fn step_until_no_place_is_left() {
    let mut random = Random::new(26);
    let mut steps = Steps::new();
    let mut removals_through = 0;
    for round in 0..500 {
        let b = random.pick(&[8, 8, 9, 10, 12, 20]);
        let n = random.pick(&[2, 2, 3, 4, 5, 7, 10]);
        let about = || format!("round {round}, B {b}, N {n}");
        let mut card = cards::any(&mut random, b, n);
        let universe = Universe::wide(2 * b as usize * n as usize);
        let mut stops = 0;
        for _ in 0..6 {
            let most = 2 * b as usize;
            let batch = match random.below(3) {
                0 => batches::near(&mut random, &card, Mixture::Both, most),
                _ => batches::good(&mut random, &universe, Mixture::Additions, most),
            };
            if compare::pass(&mut steps, &mut card, &batch, &about) == 0 {
                continue;
            }
            stops += 1;
            // Refused again, and again; then another batch goes on from here.
            compare::step(&mut steps, &mut card, &batch, &about);
            match random.below(4) {
                0 => {}
                1 => {
                    let other = batches::near(&mut random, &card, Mixture::Both, 4);
                    compare::pass(&mut steps, &mut card, &other, &about);
                }
                _ => {
                    let number = compare::pass(&mut steps, &mut card, &[], &about);
                    assert_eq!(number, 0, "8 with an empty batch; {}", about());
                }
            }
            if stops == 2 {
                let free = Configuration::read(&card).free_places().len();
                let batch = batches::near(&mut random, &card, Mixture::Removals, 12);
                let number = compare::pass(&mut steps, &mut card, &batch, &about);
                if free >= 2 {
                    assert_eq!(number, 0, "8 with removals, two free; {}", about());
                    removals_through += 1;
                }
            }
        }
    }
    steps.report("step_until_no_place_is_left");
    println!("step_until_no_place_is_left: {removals_through} passes of removals, two places free");
    steps.expect(&[0], 10_000);
    steps.expect(&[8], 1_000);
    assert!(steps.annulling > 500 && steps.with_empty_ranges > 500);
}

/// Removals alone with two or more places free, on loose cards: 8 never comes.
#[test]
fn step_through_passes_of_removals() {
    let mut random = Random::new(27);
    let mut steps = Steps::new();
    let mut stopped_with_one_free = 0;
    for _ in 0..6000 {
        let b = random.pick(&[8, 8, 9, 10, 12]);
        let n = random.pick(&[3, 4, 5, 6, 8]);
        let mut card = cards::loose(&mut random, b, n);
        let most = random.pick(&[1, 4, 12]);
        let batch = batches::near(&mut random, &card, Mixture::Removals, most);
        let free = Configuration::read(&card).free_places().len();
        let number = compare::pass(&mut steps, &mut card, &batch, &String::new);
        assert!(number == 0 || free == 1);
        stopped_with_one_free += u32::from(number == 8);
        if number == 0 {
            let everything: Vec<u32> = second::live_pairs(&card)
                .into_iter()
                .map(|pair| pair.0)
                .collect::<BTreeSet<u32>>()
                .into_iter()
                .flat_map(|term| [2, term, 1, TOP])
                .collect();
            let everything = batches::numbered(&everything);
            let answer = compare::step(&mut steps, &mut card, &everything, &String::new);
            assert_eq!((answer.number, answer.write, answer.finished), (0, 3, true));
        }
    }
    steps.report("step_through_passes_of_removals");
    println!("step_through_passes_of_removals: {stopped_with_one_free} stopped, one place free");
    steps.expect(&[0], 5_000);
    assert!(stopped_with_one_free > 5);
    assert!(steps.annulling > 1_000 && steps.annulling_in_mid_pass > 500);
    assert!(steps.with_empty_ranges > 1_000 && steps.empty_ranges_in_mid_pass > 500);
}

/// A pass cut at each of its steps with every kind of words left behind; then the same batch, or
/// another, goes on.
#[test]
fn step_after_cuts_in_every_write() {
    let mut random = Random::new(28);
    let mut steps = Steps::new();
    let mut cuts = [0u64; 4];
    for _ in 0..320 {
        let b = random.pick(&[8, 8, 9, 10, 12]);
        let n = random.within(2, 6);
        let mut card = cards::any(&mut random, b, n);
        let universe = Universe::random(&mut random);
        let most = random.pick(&[3, 10, 24]);
        let batch = batches::any(&mut random, &card, &universe, most);
        for _ in 0..12 {
            let Some((which, range)) = second::due_write(&card, &batch) else {
                break;
            };
            let wanted = second::step::due_words(&card, &batch).expect("not refused");
            for kind in 0..cards::CUT_KINDS {
                cuts[which as usize] += 1;
                let mut cut = card.clone();
                if which == 3 {
                    // All old or all new.
                    if kind % 2 == 1 {
                        cut[range.clone()].copy_from_slice(&wanted);
                    }
                } else {
                    let place = random.below(n as usize);
                    let live = Configuration::read(&card).block(&card, place).to_vec();
                    let words = &mut cut[range.clone()];
                    cards::cut_words(&mut random, kind, words, &wanted, &live);
                }
                let about = || format!("cut in write {which}, kind {kind}");
                if random.chance(1, 4) {
                    let other = batches::any(&mut random, &cut, &universe, 8);
                    compare::pass(&mut steps, &mut cut, &other, &about);
                } else {
                    compare::pass(&mut steps, &mut cut, &batch, &about);
                }
            }
            let answer = compare::step(&mut steps, &mut card, &batch, &String::new);
            if answer.finished {
                break;
            }
        }
    }
    steps.report("step_after_cuts_in_every_write");
    println!(
        "step_after_cuts_in_every_write: cuts in writes 1 to 3 {:?}",
        &cuts[1..]
    );
    steps.expect(&[0], 20_000);
    assert!(cuts[1..].iter().all(|&count| count > 1_000));
    assert!(steps.annulling > 3_000 && steps.annulling_in_mid_pass > 1_000);
    assert!(steps.with_empty_ranges > 3_000 && steps.empty_ranges_in_mid_pass > 1_000);
}

/// Lists of steps with changing batches, cuts, restarts and refused calls against the history.
#[test]
fn step_in_lists_against_the_history() {
    let mut steps = Steps::new();
    let mut cuts = 0u64;
    for seed in 0..500 {
        let mut random = Random::new(700_000 + seed);
        let b = random.pick(&[8, 8, 8, 9, 10, 11, 13, 16, 24]);
        let n = random.pick(&[2, 3, 3, 4, 4, 5, 6, 7, 9, 12]);
        let mut card = cards::memory(&mut random, b, n);
        assert_eq!(ffi::format(&mut card, b, n), 0);
        let mut history = History::new(b);
        let universe = Universe::random(&mut random);
        let mut batch = Vec::new();
        let about = || format!("list {seed}, B {b}, N {n}");
        for _ in 0..120 {
            if random.chance(1, 9) {
                let most = random.pick(&[2, 8, 24, 80]);
                batch = batches::any(&mut random, &card, &universe, most);
            }
            match random.below(12) {
                0 => {
                    let bad = batches::bad(&mut random, &universe);
                    compare::step(&mut steps, &mut card, &bad, &about);
                }
                1 => {
                    let before = card.clone();
                    let number = ffi::format(&mut card, b, n + 1);
                    assert!(number == 1 && card == before);
                }
                2 | 3 => {
                    cuts += 1;
                    if let Some((which, range)) = second::due_write(&card, &batch) {
                        let landed = which == 3 && random.chance(1, 2);
                        if landed {
                            let answer = compare::step(&mut steps, &mut card, &batch, &about);
                            assert_eq!((answer.number, answer.write), (0, 3));
                        } else if which != 3 {
                            let wanted = second::step::due_words(&card, &batch).expect("words");
                            let live = wanted.clone();
                            let kind = random.below(cards::CUT_KINDS);
                            let words = &mut card[range];
                            cards::cut_words(&mut random, kind, words, &wanted, &live);
                        }
                        history.cut_step(&batch, landed);
                    }
                }
                _ => {
                    let answer = compare::step(&mut steps, &mut card, &batch, &about);
                    assert!(answer.number == 0 || answer.number == 8);
                    let finished = history.step(&batch, answer.write == 3);
                    assert_eq!(finished.unwrap_or(false), answer.finished, "{}", about());
                }
            }
            assert_eq!(ffi::judge(&card), 0, "{}", about());
            assert!(&second::live_pairs(&card) == history.pairs(), "{}", about());
            assert_eq!((card[6], card[7]), history.boundary_words(), "{}", about());
        }
    }
    steps.report("step_in_lists_against_the_history");
    println!("step_in_lists_against_the_history: {cuts} cuts");
    steps.expect(&[0], 20_000);
    steps.expect(&[6, 7, 8, 14], 500);
    steps.expect_every_shape(20);
}

/// The due place and its map entry right but for one word, each word in turn: the step names the
/// write that is still to be made.
#[test]
fn step_over_leftovers_in_the_due_place() {
    let mut random = Random::new(29);
    let mut steps = Steps::new();
    let mut moments = 0;
    for _ in 0..900 {
        let b = random.pick(&[8, 8, 9, 11, 16]);
        let n = random.within(2, 6);
        let mut card = cards::any(&mut random, b, n);
        let universe = Universe::random(&mut random);
        let most = random.pick(&[3, 10, 24]);
        let batch = batches::any(&mut random, &card, &universe, most);
        for _ in 0..9 {
            let Some((which, _)) = second::due_write(&card, &batch) else {
                break;
            };
            if which == 3 && !second::what_remains(&card, &batch).is_empty() {
                moments += 1;
                let configuration = Configuration::read(&card);
                let place = configuration.due_place();
                let block = configuration.block_range(place);
                let map = configuration.map_range(place);
                for word in map.clone().chain(block.clone()) {
                    let value = card[word];
                    let other = random.pick(&[0, 1, TOP, value ^ 1, value.wrapping_add(1)]);
                    let mut left = card.clone();
                    left[word] = other;
                    let expected = if other == value {
                        3
                    } else if map.contains(&word) {
                        2
                    } else {
                        1
                    };
                    if random.chance(1, 3) {
                        for free in configuration.free_places() {
                            if free != place {
                                random.fill(&mut left[configuration.block_range(free)]);
                                random.fill(&mut left[configuration.map_range(free)]);
                            }
                        }
                    }
                    let about = || format!("word {word} was {value}, now {other}");
                    let answer = compare::step(&mut steps, &mut left, &batch, &about);
                    assert_eq!(answer.write, expected);
                    if expected != 3 {
                        let answer = compare::step(&mut steps, &mut left, &batch, &about);
                        assert_eq!(answer.write, 3);
                    }
                }
                // Both wrong: the block comes first.
                let mut left = card.clone();
                random.fill(&mut left[map]);
                random.fill(&mut left[block]);
                for write in 1..=3 {
                    let answer = compare::step(&mut steps, &mut left, &batch, &String::new);
                    assert_eq!(answer.write, write);
                }
            }
            let answer = compare::step(&mut steps, &mut card, &batch, &String::new);
            if answer.finished {
                break;
            }
        }
    }
    steps.report("step_over_leftovers_in_the_due_place");
    println!("step_over_leftovers_in_the_due_place: {moments} moments");
    assert!(moments > 500);
    assert!(steps.writes[1..].iter().all(|&count| count > 1_000));
}

/// Terms and positions at 4,294,967,295 and next to it, in pairs, records, boundaries and map.
#[test]
fn step_at_the_highest_terms_and_positions() {
    let mut random = Random::new(30);
    let mut steps = Steps::new();
    let mut boundary_at_top = 0u64;
    let mut highest = 0u64;
    let universes = Universe::at_the_top();
    for round in 0..900 {
        let b = random.pick(&[8, 8, 9, 10, 13]);
        let n = random.within(2, 6);
        let universe = &universes[round % universes.len()];
        let mut card = cards::fresh(&mut random, b, n);
        if round % 16 == 0 {
            card = cards::bounded_at_the_top(&mut random, b, n);
        }
        for _ in 0..3 {
            let mixture = Mixture::random(&mut random);
            let batch = if random.chance(1, 3) {
                batches::near(&mut random, &card, mixture, 8)
            } else {
                batches::good(&mut random, universe, mixture, 30)
            };
            for _ in 0..18 {
                let boundary = Configuration::read(&card).boundary();
                boundary_at_top += u64::from(
                    boundary.is_some_and(|(term, position)| term == TOP || position == TOP),
                );
                let answer = compare::step(&mut steps, &mut card, &batch, &String::new);
                highest += u64::from(second::live_pairs(&card).contains(&HIGHEST));
                if answer.number != 0 || answer.finished {
                    break;
                }
            }
        }
    }
    steps.report("step_at_the_highest_terms_and_positions");
    println!(
        "step_at_the_highest_terms_and_positions: {boundary_at_top} boundaries at the top, \
         {highest} cards with the highest pair"
    );
    steps.expect(&[0], 5_000);
    assert!(boundary_at_top > 500 && highest > 500);
}

/// Damaged cards: 1 to 4 before any fault of the batch, and no word changes.
#[test]
fn step_on_unsound_cards() {
    let mut random = Random::new(31);
    let mut steps = Steps::new();
    for round in 0..220 {
        let b = random.pick(&[8, 8, 9, 10]);
        let n = random.within(2, 5);
        let mut card = cards::any(&mut random, b, n);
        let universe = Universe::random(&mut random);
        for word in 0..card.len() {
            let kept = card[word];
            let values = [
                0,
                1,
                kept.wrapping_add(1),
                kept.wrapping_sub(1),
                random.pick(&[TOP, n, 2, random_word_beside(&card, word)]),
            ];
            for value in values {
                card[word] = value;
                let batch = match random.below(4) {
                    0 => Vec::new(),
                    1 => batches::bad(&mut random, &universe),
                    _ => batches::good(&mut random, &universe, Mixture::Both, 6),
                };
                let about = || format!("word {word} was {kept}, now {value}");
                compare::step(&mut steps, &mut card.clone(), &batch, &about);
            }
            card[word] = kept;
        }
        if round % 8 == 0 {
            let mut longer = card.clone();
            longer.extend_from_slice(&card);
            for length in 0..=longer.len() {
                let batch = batches::good(&mut random, &universe, Mixture::Both, 4);
                let mut part = longer[..length].to_vec();
                compare::step(&mut steps, &mut part, &batch, &|| format!("{length} words"));
            }
        }
    }
    steps.report("step_on_unsound_cards");
    steps.expect(&[0, 4], 5_000);
    steps.expect(&[1, 2, 3], 500);
    steps.expect(&[6], 500);
}

fn random_word_beside(card: &[u32], word: usize) -> u32 {
    card[(word + 1) % card.len()]
}

/// Shapes from the smallest to the largest B and N, a few dozen steps each.
#[test]
fn step_on_cards_of_many_shapes() {
    let mut random = Random::new(32);
    let mut steps = Steps::new();
    for (b, n) in cards::MANY_SHAPES {
        let room = b as usize * n as usize;
        let universe = Universe::wide(room.max(100));
        let mut card = cards::well_filled(&mut random, b, n);
        let most_steps = if room > 10_000 { 14 } else { 30 };
        for _ in 0..5 {
            let most = (room / 3).clamp(6, 2_000);
            let batch = batches::any(&mut random, &card, &universe, most);
            for _ in 0..most_steps {
                let about = || format!("B {b}, N {n}");
                let answer = compare::step(&mut steps, &mut card, &batch, &about);
                if answer.number != 0 || answer.finished {
                    break;
                }
            }
        }
    }
    steps.report("step_on_cards_of_many_shapes");
    steps.expect(&[0], 500);
}

/// Whole passes over cards of many places.
#[test]
fn step_through_long_passes() {
    let mut random = Random::new(34);
    let mut steps = Steps::new();
    for (b, n) in [(8, 120), (9, 80), (24, 40), (100, 12)] {
        // An empty index may stand anywhere in the circle.
        let mut card = cards::fresh(&mut random, b, n);
        card[3] = n - 1 - n / 5;
        let universe = Universe::wide(b as usize * n as usize);
        for part in [3, 8, 8] {
            let count = (b * n / part) as usize;
            let batch = if part == 3 {
                batches::exactly(&mut random, &universe, count)
            } else {
                batches::near(&mut random, &card, Mixture::Both, count)
            };
            compare::pass(&mut steps, &mut card, &batch, &|| format!("B {b}, N {n}"));
        }
    }
    steps.report("step_through_long_passes");
    steps.expect(&[0], 400);
}

/// Hundreds of old places freed by one write, in mid-pass and at the end, around the circle.
#[test]
fn step_that_frees_hundreds_of_places() {
    let mut random = Random::new(35);
    let mut steps = Steps::new();
    for (b, n, old_start, kept) in [
        (8, 1024, 0, 900),
        (8, 1024, 700, 300),
        (9, 1023, 1022, 257),
        (10, 600, 300, 1),
        (1024, 300, 40, 250),
    ] {
        // Block i holds term i; those below `kept` go, and two blocks of another term come.
        let old_count = n - 40;
        let old: Vec<Vec<Pair>> = (1..=old_count)
            .map(|term| (1..=b - 2).map(|position| (term, position * 7)).collect())
            .collect();
        let mut card = cards::memory(&mut random, b, n);
        card = cards::laid_out(card, b, n, old_start, &old, &[]);
        assert_eq!(second::judge(&card), 0);
        let about = || format!("B {b}, N {n}, old start {old_start}");
        let mut records: Vec<_> = (1..kept).map(|term| removal(term, 1, TOP)).collect();
        records.extend((1..=(b + b / 2).min(900)).map(|position| addition(kept, position)));
        let batch = batches::words(records);
        let mut finishing = card.clone();
        for _ in 0..6 {
            compare::step(&mut steps, &mut card, &batch, &about);
        }
        let everything = (1..=old_count).map(|term| removal(term, 1, TOP));
        let mut everything: Vec<_> = everything.collect();
        let mut emptied = card.clone();
        let batch = batches::words(everything.clone());
        let answer = compare::step(&mut steps, &mut emptied, &batch, &about);
        assert!(answer.finished, "{}", about());
        everything.push(addition(TOP, TOP));
        let batch = batches::words(everything);
        for write in 1..=3 {
            let answer = compare::step(&mut steps, &mut finishing, &batch, &about);
            assert_eq!(answer.write, write);
            assert_eq!(answer.freed, if write == 3 { old_count } else { 0 });
        }
        compare::pass(&mut steps, &mut finishing, &[2, TOP, 1, TOP, 1], &about);
    }
    steps.report("step_that_frees_hundreds_of_places");
    assert!(steps.freed_several >= 3 && steps.nothing_remained >= 10);
}

/// The largest card: a few steps of passes that go on, that finish and that are stopped.
#[test]
fn step_on_the_largest_card() {
    let mut random = Random::new(33);
    let mut steps = Steps::new();
    let (b, n) = (1024, 1024);
    for (old_start, new_count, old_count) in [(900, 0, 1023), (1023, 1014, 7)] {
        let new: Vec<Vec<Pair>> = (1..=new_count).map(cards::large_block).collect();
        let old: Vec<Vec<Pair>> = (new_count + 1..=new_count + old_count)
            .map(cards::large_block)
            .collect();
        let memory = random.words(cards::right_length(b, n));
        let mut card = cards::laid_out(memory, b, n, old_start, &old, &new);
        assert_eq!(second::judge(&card), 0);
        let about = || format!("{old_count} old blocks");
        let batch = if new_count == 0 {
            // A pair before the first block leaves no old block to be freed.
            let stopped = compare::step(&mut steps, &mut card, &[1, 1, 1, 1, 1], &about);
            assert_eq!(stopped.number, 8);
            // Half of the first block goes.
            let records = old[0].iter().step_by(2).map(|pair| removal(pair.0, 1, TOP));
            batches::words(records.collect())
        } else {
            // All of the old segment goes, and one pair comes.
            let mut records: Vec<_> = (0..4095)
                .map(|i| removal((new_count + 1) * 400 + i, 1, TOP))
                .collect();
            records.push(addition(TOP, TOP));
            batches::words(records)
        };
        for write in 1..=3 {
            let answer = compare::step(&mut steps, &mut card, &batch, &about);
            assert_eq!(answer.write, write);
        }
        compare::step(&mut steps, &mut card, &batch[..7], &about);
        let length = card.len();
        compare::step(&mut steps, &mut card[..length - 1], &batch, &about);
    }
    steps.report("step_on_the_largest_card");
    steps.expect(&[0], 6);
    steps.expect(&[1, 6], 2);
    assert_eq!((steps.going_on, steps.finished), (1, 1));
}
