// The exported forecast: figures written out by hand, and comparisons with the second program's and
// with the library's own runs to the end.

use std::collections::BTreeSet;

use gameindex_tests::batches::{
    self, addition, annulment, removal, Mixture, Stretches, Universe, EMPTY_RANGES,
    EMPTY_RANGES_IN_ORDER, WRONG_ANNULMENTS, WRONG_EMPTY_RANGES,
};
use gameindex_tests::cards;
use gameindex_tests::compare::{self, finishing, no_forecast, stopping, Forecasts};
use gameindex_tests::ffi;
use gameindex_tests::lists::{Figures, List};
use gameindex_tests::questions;
use gameindex_tests::random::Random;
use gameindex_tests::second::batch::{self, Record, ADD, MOST_RECORDS, RECORD_WORDS};
use gameindex_tests::second::{self, Configuration, ForecastAnswer, Pair};

const TOP: u32 = u32::MAX;

/// A forecast with these figures.
fn figures(blocks: u32, limit: u32, finishes: bool, writes: u32) -> ForecastAnswer {
    ForecastAnswer {
        number: 0,
        blocks,
        limit,
        finishes,
        writes,
    }
}

/// The forecast and, for a sound card and a good batch, the run beside it.
fn forecast_or_run(
    forecasts: &mut Forecasts,
    card: &[u32],
    batch: &[u32],
    about: &dyn Fn() -> String,
) -> ForecastAnswer {
    if second::judge(card) == 0 && second::judge_batch(batch) == 0 {
        compare::forecast_run(forecasts, card, batch, about)
    } else {
        compare::forecast(forecasts, card, batch, about)
    }
}

/// P1's card, its other words leftovers of one value.
fn p1(n: u32, leftovers: u32) -> Vec<u32> {
    let mut card = vec![leftovers; cards::right_length(8, n)];
    assert_eq!(ffi::format(&mut card, 8, n), 0);
    let batch = [1, 5, 2, 2, 1, 1, 5, 9, 9, 2, 1, 7, 4, 4, 3];
    assert_eq!(ffi::forecast(&card, &batch), figures(1, 3, true, 0));
    while !ffi::step(&mut card, &batch).finished {}
    assert_eq!(card[..8], [1, 8, n, 0, 1, 0, 0, 0]);
    card
}

/// The cards and batches of P1 to P6; the card of P7 and P8 is P1's.
#[test]
fn forecast_on_the_papers_cases() {
    let mut forecasts = Forecasts::new();
    // The additions arrive after all removals.
    let mut run = |card: &[u32], plain: &[u32], expected: ForecastAnswer| {
        let batch = batches::numbered(plain);
        let about = || format!("{batch:?}");
        let given = compare::forecast_run(&mut forecasts, card, &batch, &about);
        assert_eq!(given, expected, "{batch:?}");
    };
    for leftovers in [0, 5, TOP] {
        // P1.
        let mut fresh = vec![leftovers; 48];
        assert_eq!(ffi::format(&mut fresh, 8, 4), 0);
        let batch = [1, 5, 2, 2, 1, 5, 9, 9, 1, 7, 4, 4];
        run(&fresh, &batch, figures(1, 3, true, 0));
        run(&fresh, &[], figures(0, 1, true, 0));
        run(&fresh, &[2, 5, 1, 9], figures(0, 1, true, 0));
        let card = p1(4, leftovers);
        run(&card, &[], figures(1, 3, true, 0));
        run(&card, &batch, figures(1, 3, true, 0));
        // P2, exactly full, and one position more.
        run(&card, &[1, 7, 11, 11], figures(1, 3, true, 0));
        run(&card, &[1, 7, 11, 11, 1, 7, 12, 12], figures(2, 6, true, 0));
        // P3.
        run(&card, &[1, 8, 1, 1], figures(2, 6, true, 0));
        // P4: N 2, and what is left of it once it has stopped; N 3 has room.
        let card_2 = p1(2, leftovers);
        run(&card_2, &[1, 8, 1, 1], figures(2, 6, false, 1));
        let mut stopped = card_2.clone();
        for _ in 0..3 {
            assert_eq!(ffi::step(&mut stopped, &[1, 8, 1, 1, 1]).number, 0);
        }
        assert_eq!(stopped[..8], [1, 8, 2, 1, 0, 1, 7, 4]);
        run(&stopped, &[1, 8, 1, 1], figures(1, 3, false, 0));
        run(&stopped, &[1, 9, 1, 1], figures(1, 3, false, 0));
        run(&stopped, &[], figures(0, 1, true, 0));
        run(&stopped, &[1, 5, 1, 1, 1, 7, 4, 4], figures(0, 1, true, 0));
        run(&stopped, &[2, 8, 1, 1], figures(0, 1, true, 0));
        run(&p1(3, leftovers), &[1, 8, 1, 1], figures(2, 6, true, 0));
        // P5 and P6.
        run(&card, &[2, 5, 2, 9, 1, 5, 9, 9], figures(1, 3, true, 0));
        let both = [2, 5, 1, TOP, 2, 7, 1, TOP];
        run(&card, &both, figures(0, 1, true, 0));
        run(&card_2, &both, figures(0, 1, true, 0));
        run(&card, &[3, 0, 1, 9], figures(0, 1, true, 0));
        run(&card, &[3, 0, 1, 9, 1, 7, 4, 4], figures(1, 3, true, 0));
    }
    // P5 and P6 by arrival: what is added first goes.
    let mut run = |batch: &[u32], expected: ForecastAnswer| {
        let about = || format!("{batch:?}");
        let given = compare::forecast_run(&mut forecasts, &p1(4, 5), batch, &about);
        assert_eq!(given, expected, "{batch:?}");
    };
    run(&[2, 5, 2, 9, 1, 1, 5, 9, 9, 2], figures(1, 3, true, 0));
    run(&[2, 5, 2, 9, 2, 1, 5, 9, 9, 1], figures(1, 3, true, 0));
    run(&[3, 0, 1, 9, 1, 1, 7, 4, 4, 2], figures(1, 3, true, 0));
    run(&[3, 0, 1, 9, 2, 1, 7, 4, 4, 1], figures(0, 1, true, 0));
    run(&[1, 8, 1, 1, 1, 2, 8, 1, 1, 2], figures(1, 3, true, 0));
    run(&[1, 8, 1, 1, 2, 2, 8, 1, 1, 1], figures(2, 6, true, 0));
    forecasts.report("forecast_on_the_papers_cases");
}

/// A fresh card, and one in mid-pass after blocks that are full: G by the number of positions that
/// a block takes, around the numbers that fill blocks, the card, and the card but for one place.
#[test]
fn forecast_by_how_many_fit() {
    let mut random = Random::new(60);
    let mut forecasts = Forecasts::new();
    for b in [8, 9, 10, 11, 64, 341, 1024] {
        for n in [2, 3, 4, 7, 60, 1024] {
            if b * n > 70_000 {
                continue;
            }
            // Positions of one term, or terms with one position each, to a block.
            for (one_term, to_a_block) in [(true, b - 2), (false, b / 3)] {
                let mut counts = BTreeSet::from([0, 1, 2, 4095, 4096]);
                for blocks in [1, 2, 3, n - 2, n - 1, n] {
                    let full: u32 = blocks * to_a_block;
                    counts.extend([full.saturating_sub(1), full, full + 1]);
                }
                for new_length in [0, 1, n - 1] {
                    let new: Vec<Vec<Pair>> = (0..new_length)
                        .map(|block| (1..=b - 2).map(|i| (7, block * b + i)).collect())
                        .collect();
                    let start = random.below(n as usize) as u32;
                    let memory = cards::memory(&mut random, b, n);
                    let card = cards::laid_out(memory, b, n, start, &[], &new);
                    for &count in counts.iter().filter(|&&count| count <= 4096) {
                        let term = random.pick(&[7, 8, TOP - 1]);
                        let records = (1..=count).map(|i| match one_term {
                            true => addition(term, 2_000_000 + i),
                            false => addition(7 + i, i),
                        });
                        let batch = batches::words(records.collect());
                        let blocks = count.div_ceil(to_a_block);
                        let room = n - 1 - new_length;
                        let expected = if blocks <= room {
                            figures(blocks, if blocks == 0 { 1 } else { 3 * blocks }, true, 0)
                        } else {
                            figures(blocks, 3 * blocks, false, room)
                        };
                        let about = || format!("B {b}, N {n}, {new_length} new, {count} pairs");
                        let given = if blocks <= 4 && count <= 60 {
                            compare::forecast_run(&mut forecasts, &card, &batch, &about)
                        } else if b * n < 9_000 || random.chance(1, 6) {
                            compare::forecast(&mut forecasts, &card, &batch, &about)
                        } else {
                            continue;
                        };
                        assert_eq!(given, expected, "{}", about());
                    }
                }
            }
        }
    }
    forecasts.report("forecast_by_how_many_fit");
    assert!(forecasts.finishing > 500 && forecasts.stopping > 500);
}

/// A full card whose block k holds term k. Where a block's last pair is removed, the due block of its
/// term ends below that pair, so the old block still holds its place and no place is left; the last
/// block's is freed with all when the pass finishes. With two places free it goes through.
#[test]
fn forecast_of_places_held_by_removed_pairs() {
    let mut random = Random::new(61);
    let mut forecasts = Forecasts::new();
    let mut held = 0;
    for (b, n) in [
        (8, 2),
        (8, 3),
        (8, 4),
        (8, 9),
        (9, 5),
        (10, 6),
        (13, 7),
        (31, 12),
        (1024, 3),
        (8, 300),
    ] {
        let block = |term: u32| -> Vec<Pair> { (1..=b - 2).map(|i| (term, i * 10)).collect() };
        let last = (b - 2) * 10;
        for free in [1, 2, 3] {
            if free >= n {
                continue;
            }
            let live = n - free;
            for new_length in [0, 1, live / 2, live - 1] {
                if new_length >= live {
                    continue;
                }
                let new: Vec<Vec<Pair>> = (1..=new_length).map(block).collect();
                let old: Vec<Vec<Pair>> = (new_length + 1..=live).map(block).collect();
                let start = random.below(n as usize) as u32;
                let memory = cards::memory(&mut random, b, n);
                let card = cards::laid_out(memory, b, n, start, &old, &new);
                assert_eq!(second::judge(&card), 0);
                let about = || format!("B {b}, N {n}, {free} free, {new_length} new");
                let mut expect = |batch: &[u32], expected: ForecastAnswer| {
                    let given = if n < 20 {
                        compare::forecast_run(&mut forecasts, &card, batch, &about)
                    } else {
                        compare::forecast(&mut forecasts, &card, batch, &about)
                    };
                    assert_eq!(given, expected, "{batch:?}, {}", about());
                    held += u32::from(!given.finishes);
                };
                let blocks = live - new_length;
                expect(&[], finishing(blocks));
                // The last block has nothing behind it.
                expect(&removal(live, last, last).words(), finishing(blocks));
                for term in new_length + 1..live {
                    if n > 20 && term % 61 != 0 && term + 1 != live {
                        continue;
                    }
                    let stops = match free {
                        1 => stopping(blocks, term - new_length - 1),
                        _ => finishing(blocks),
                    };
                    // The last pair, the last two, and beside it what changes nothing.
                    for batch in [
                        vec![removal(term, last, last)],
                        vec![removal(term, last - 10, TOP)],
                        vec![removal(term, last, last), removal(term + 1, 25, 21)],
                        vec![removal(term, last, last), removal(live, last, TOP)],
                    ] {
                        expect(&batches::words(batch), stops);
                    }
                    // Not the last pair: the due block ends with it and the place is free.
                    for position in [10, last - 10] {
                        let batch = removal(term, position, position).words();
                        expect(&batch, finishing(blocks));
                    }
                    // The removed pair is added again, or one above it.
                    for position in [last, last + 5] {
                        let batch = vec![removal(term, last, last), addition(term, position)];
                        expect(&batches::words(batch), finishing(blocks));
                    }
                    // One below it in its stead: the place is held.
                    let batch = vec![addition(term, last - 5), removal(term, last, last)];
                    expect(&batches::words(batch), stops);
                    // All of it: the block before frees nothing, and the next frees both.
                    let batch = removal(term, 1, TOP).words();
                    expect(&batch, finishing(blocks - 1));
                }
                if blocks > 1 {
                    // Of each block: the first one holds its place at once.
                    let stops = match free {
                        1 => stopping(blocks, 0),
                        _ => finishing(blocks),
                    };
                    expect(&annulment(last, last).words(), stops);
                    expect(&annulment(last - 9, TOP).words(), stops);
                    expect(&annulment(last, last - 1).words(), finishing(blocks));
                }
            }
        }
    }
    forecasts.report("forecast_of_places_held_by_removed_pairs");
    println!("forecast_of_places_held_by_removed_pairs: {held} stopped");
    assert!(held > 300 && forecasts.total() > 5_000);
    assert_eq!(forecasts.stopping_with_two_free, 0);
}

/// What a batch does to one old block, whose positions are 10, 20, 30, 40 and 50 above `base`.
const THINGS_DONE: usize = 8;

fn done_to_a_block(which: usize, term: u32, base: u32) -> Vec<Record> {
    let add = |positions: &[u32]| -> Vec<Record> {
        let positions = positions.iter();
        positions.map(|at| addition(term, base + at)).collect()
    };
    match which {
        0 => vec![],
        // The last pair goes, the last two, all, the first.
        1 => vec![removal(term, base + 50, base + 50)],
        2 => vec![removal(term, base + 40, base + 99)],
        3 => vec![removal(term, base + 1, base + 99)],
        4 => vec![removal(term, base + 10, base + 19)],
        // A block of the term alone is exactly full, has one pair too many, fills two and more.
        5 => add(&[15]),
        6 => add(&[5, 55]),
        _ => add(&[1, 2, 3, 11, 12, 41, 42, 43, 51, 52]),
    }
}

/// Every number of places up to 6, every number of old and new blocks, and to each old block each of
/// eight things done: freed places, held places and new blocks in every order.
#[test]
fn forecast_on_every_small_circle() {
    let mut random = Random::new(62);
    let mut forecasts = Forecasts::new();
    // The blocks are of one term, or of a term each.
    for one_term in [true, false] {
        let term_and_base = |k: u32| if one_term { (5, 100 * k) } else { (5 + k, 0) };
        let block = |k: u32| -> Vec<Pair> {
            let (term, base) = term_and_base(k);
            (1..=5).map(|i| (term, base + 10 * i)).collect()
        };
        for n in 2..=6 {
            for new_length in 0..n {
                for old_length in 0..n - new_length {
                    let live = new_length + old_length;
                    let new: Vec<Vec<Pair>> = (0..new_length).map(block).collect();
                    let mut old: Vec<Vec<Pair>> = (new_length..live).map(block).collect();
                    if let (Some(last), Some(first)) = (new.last(), old.first_mut()) {
                        if one_term && random.chance(1, 2) {
                            // The boundary stands in the old segment as well.
                            first.insert(0, last[4]);
                        }
                    }
                    let start = random.below(n as usize) as u32;
                    let memory = cards::memory(&mut random, 8, n);
                    let card = cards::laid_out(memory, 8, n, start, &old, &new);
                    assert_eq!(second::judge(&card), 0);
                    for code in 0..THINGS_DONE.pow(old_length) {
                        if old_length == 5 && random.chance(4, 5) {
                            continue;
                        }
                        let mut records = Vec::new();
                        let mut rest = code;
                        for k in new_length..live {
                            let (term, base) = term_and_base(k);
                            records.extend(done_to_a_block(rest % THINGS_DONE, term, base));
                            rest /= THINGS_DONE;
                        }
                        // Some pairs behind all, or none; one up to the boundary, which does nothing.
                        let (term, base) = term_and_base(n + 1);
                        let most = random.pick(&[0, 0, 0, 1, 6, 13]);
                        records.extend((1..=most).map(|i| addition(term, base + i)));
                        if new_length > 0 && random.chance(1, 4) {
                            let (term, base) = term_and_base(new_length - 1);
                            records.push(addition(term, base + random.within(1, 50)));
                        }
                        let batch = batches::words(records);
                        let about = || format!("N {n}, {old_length} old, {new_length} new");
                        compare::forecast_run(&mut forecasts, &card, &batch, &about);
                    }
                }
            }
        }
    }
    forecasts.report("forecast_on_every_small_circle");
    assert!(forecasts.stopping > 10_000 && forecasts.finishing > 10_000);
    assert!(forecasts.stopping_later > 2_000 && forecasts.stopping_at_once > 2_000);
    assert!(forecasts.stopping_with_removals_alone > 300);
    assert!(forecasts.stopping_in_mid_pass > 2_000 && forecasts.stopping_with_two_free > 500);
}

/// Every batch of one record and of two over small alphabets, two in both orders of arrival, and what
/// is left of it when its last words are missing.
#[test]
fn forecast_with_every_small_batch() {
    let mut forecasts = Forecasts::new();
    let records = batches::every_small_record();
    let cards = cards::small();
    for card in &cards {
        for record in &records {
            for arrival in [1, 0, TOP] {
                let batch = batches::with_arrivals(record, &[arrival]);
                for length in 0..=batch.len() {
                    if arrival == 1 || length == batch.len() {
                        forecast_or_run(&mut forecasts, card, &batch[..length], &String::new);
                    }
                }
            }
        }
    }
    let good_records = batches::every_good_small_record();
    let mut random = Random::new(63);
    for one in &records {
        for _ in 0..24 {
            let other = random.pick(&records);
            let plain = if random.chance(1, 2) {
                [*one, other].concat()
            } else {
                [other, *one].concat()
            };
            let arrivals = [
                random.pick(&[0, 1, 2, 2, TOP]),
                random.pick(&[1, 1, 2, TOP]),
            ];
            let batch = batches::with_arrivals(&plain, &arrivals);
            let card = &cards[random.below(cards.len())];
            forecast_or_run(&mut forecasts, card, &batch, &String::new);
        }
    }
    for one in &good_records {
        for other in &good_records {
            let plain = [one.as_slice(), other.as_slice()].concat();
            for arrivals in [[1, 2], [2, 1], [2, 2]] {
                let batch = batches::with_arrivals(&plain, &arrivals);
                for card in &cards {
                    forecast_or_run(&mut forecasts, card, &batch, &String::new);
                }
            }
        }
    }
    forecasts.report("forecast_with_every_small_batch");
    forecasts.expect(&[0, 6, 14], 5_000);
    forecasts.expect(&[7], 1_000);
    assert!(forecasts.stopping > 200 && forecasts.nothing_remains > 2_000);
}

/// Every ground of 6, 14 and 7, alone and together, on cards of every number: the card's number first,
/// then 6, then 14, then 7, and where none holds the forecast, which is never 8.
#[test]
fn forecast_refusals_in_their_order() {
    let mut random = Random::new(64);
    let mut forecasts = Forecasts::new();
    // Without arrival numbers.
    let wrong: Vec<(u32, Vec<u32>)> = vec![
        (0, vec![]),
        (0, vec![1, 5, 2, 2]),
        (0, vec![1, 9, 15, 15, 2, 15, 5, TOP]),
        (0, vec![3, 0, 5, 4, 1, 1, 1, 1]),
        (0, (1..=40).flat_map(|i| [1, i, 1, 1]).collect()),
        (0, (1..=40).flat_map(|i| [1, i * 50, 1, 1]).collect()),
        (0, [1, 4, 4, 4].repeat(MOST_RECORDS)),
        (6, [1, 4, 4, 4].repeat(MOST_RECORDS + 1)),
        (6, [5, 4, 4, 4].repeat(MOST_RECORDS + 1)),
        (7, [1, 4, 4, 4, 1, 4, 3, 3].repeat(MOST_RECORDS / 2)),
        (6, [1, 4, 4, 4, 1, 4, 3, 3].repeat(MOST_RECORDS / 2 + 1)),
        (6, vec![1]),
        (6, vec![1, 5, 2, 2, 1]),
        (6, vec![1, 5, 2, 2, 1, 4, 2]),
        (6, vec![1, 5, 2, 2, 1, 4, 2, 2, 0]),
        (6, vec![1, 5, 2, 2, 1, 4, 2, 3]),
        (6, vec![1, 5, 0, 0, 1, 4, 2, 2]),
        (7, vec![1, 5, 2, 2, 1, 4, 2, 2]),
        (7, vec![1, 5, 2, 2, 2, 5, 1, 9]),
        (7, vec![1, 5, 2, 2, 3, 0, 1, 9]),
    ];
    let arriving = |(number, plain): (u32, Vec<u32>)| (number, batches::numbered(&plain));
    let mut wrong: Vec<(u32, Vec<u32>)> = wrong.into_iter().map(arriving).collect();
    // With a wrong arrival number: 14 in place of 7 and of none.
    for (number, batch) in wrong.clone() {
        let count = batch.len() / RECORD_WORDS;
        // 0 at the first and at a middle place, and the first number again at the last.
        let first = batch.get(4).copied().unwrap_or(0);
        for (at, arrival) in [(0, 0), (count / 2, 0), (count.max(1) - 1, first)] {
            let mut changed = batch.clone();
            if let Some(word) = changed.get_mut(RECORD_WORDS * at + 4) {
                *word = arrival;
            }
            if changed != batch {
                wrong.push((if number == 6 { 6 } else { 14 }, changed));
            }
        }
        // The last arrival number is missing.
        if number == 0 && count > 0 {
            wrong.push((6, batch[..batch.len() - 1].to_vec()));
        }
    }
    for (batch, number) in WRONG_ANNULMENTS.iter().chain(&WRONG_EMPTY_RANGES) {
        let around = batches::around(&mut random, batch, false);
        wrong.extend(around.into_iter().map(|batch| (*number, batch)));
    }
    let good = EMPTY_RANGES_IN_ORDER.iter();
    wrong.extend(good.map(|good| (0, batches::numbered(good))));
    for (card_number, card) in cards::of_every_number() {
        for (batch_number, batch) in &wrong {
            let about = || format!("the card {card_number}, the batch {batch_number}");
            let given = forecast_or_run(&mut forecasts, &card, batch, &about);
            let number = match card_number {
                0 => *batch_number,
                _ => card_number,
            };
            assert_eq!(given.number, number, "{}", about());
            if number != 0 {
                assert_eq!(given, no_forecast(number), "{}", about());
            }
            // The step gives the same, and 8 alone is another matter.
            let step = ffi::step(&mut card.clone(), batch).number;
            assert!(step == number || (number, step) == (0, 8), "{}", about());
        }
        for _ in 0..150 {
            let universe = Universe::random(&mut random);
            let batch = batches::bad(&mut random, &universe);
            let about = || format!("the card {card_number}");
            let given = compare::forecast(&mut forecasts, &card, &batch, &about);
            let number = match card_number {
                0 => second::judge_batch(&batch),
                _ => card_number,
            };
            assert_eq!(given, no_forecast(number));
        }
    }
    forecasts.report("forecast_refusals_in_their_order");
    forecasts.expect(&[1, 2, 3, 4], 1_000);
    forecasts.expect(&[6], 500);
    forecasts.expect(&[7, 0, 14], 100);
    assert!(forecasts.of(8) == 0 && forecasts.stopping > 20);
}

/// Every ground of 6, 14 and 7 at every record of batches of all lengths, alone and with another fault,
/// on cards where the pass would be stopped as well.
#[test]
fn forecast_with_bad_batches() {
    let mut random = Random::new(65);
    let mut forecasts = Forecasts::new();
    let full = &cards::of_every_number()[0].1;
    for round in 0..150 {
        let card = match round % 3 {
            0 => full.clone(),
            _ => cards::any(&mut random, 8, 2 + round % 5),
        };
        let universe = Universe::random(&mut random);
        let count = [1, 2, 3, 5, 9, 17, 40][round as usize % 7];
        let batch = batches::exactly(&mut random, &universe, count);
        for at in 0..count {
            let word = RECORD_WORDS * at;
            let faults = batches::faults(&mut random, &batch, at);
            for (field, value) in faults {
                let mut bad = batch.clone();
                bad[word + field] = value;
                if random.chance(1, 4) {
                    // Another fault anywhere, so that 6, 14 and 7 meet in any order.
                    let other = random.below(bad.len());
                    bad[other] = random.pick(&[0, 1, 2, 3, TOP]);
                }
                let about = || format!("record {at}, field {field}");
                compare::forecast(&mut forecasts, &card, &bad, &about);
            }
        }
        for missing in 1..=batch.len().min(8) {
            let short = &batch[..batch.len() - missing];
            compare::forecast(&mut forecasts, &card, short, &String::new);
        }
    }
    forecasts.report("forecast_with_bad_batches");
    forecasts.expect(&[6], 10_000);
    forecasts.expect(&[7, 0, 14], 1_000);
    assert!(forecasts.stopping > 200);
}

/// Batches of none, of 4,095 to 4,098 records and of lengths around them; the last record counts.
#[test]
fn forecast_with_the_longest_batches() {
    let mut random = Random::new(66);
    let mut forecasts = Forecasts::new();
    for (b, n) in [(8, 5), (64, 100), (1024, 3)] {
        let card = match b {
            8 => cards::of_every_number()[0].1.clone(),
            _ => cards::stepped(&mut random, b, n),
        };
        for batch in &batches::longest(&mut random) {
            let mut forecast = |batch: &[u32]| {
                let about = || format!("B {b}, N {n}, {} words", batch.len());
                compare::forecast(&mut forecasts, &card, batch, &about)
            };
            forecast(batch);
            let more = batches::with_a_last_record(batch);
            forecast(&more);
            let more = batches::with_a_last_record(&more);
            forecast(&more);
            for length in (20_462..=more.len()).rev().step_by(3) {
                forecast(&more[..length]);
            }
            // A fault in the last record alone, in the first alone, and a fall at the end.
            for (field, value) in batches::LONGEST_FAULTS {
                let mut bad = batch.clone();
                let last = bad.len() - RECORD_WORDS;
                bad[last + field] = value;
                forecast(&bad);
                let mut bad = batch.clone();
                bad[field] = value;
                forecast(&bad);
            }
            // The first arrival number again.
            let mut bad = batch.clone();
            let last = bad.len() - 1;
            bad[last] = batch[4];
            forecast(&bad);
        }
        // The last of many records is the one that matters.
        let full: Vec<Pair> = (1..=b - 2).map(|i| (7, i)).collect();
        let full = cards::of_blocks(b, n, n - 1, &[full], &[]);
        let mut expect = |last: Record, expected: ForecastAnswer| {
            let mut records = vec![removal(7, TOP, TOP - 1); 4095];
            records.push(last);
            let batch = batches::words(records);
            let given = compare::forecast_run(&mut forecasts, &full, &batch, &String::new);
            assert_eq!(given, expected);
        };
        expect(addition(7, TOP), figures(2, 6, true, 0));
        expect(removal(7, TOP, TOP), figures(1, 3, true, 0));
        expect(addition(8, 1), figures(2, 6, true, 0));
        let mut everything = vec![annulment(TOP, TOP); 4095];
        everything[0] = annulment(1, TOP);
        let everything = batches::words(everything);
        let given = compare::forecast_run(&mut forecasts, &full, &everything, &String::new);
        assert_eq!(given, figures(0, 1, true, 0));
    }
    forecasts.report("forecast_with_the_longest_batches");
    forecasts.expect(&[0, 6], 50);
    forecasts.expect(&[7, 14], 10);
}

/// Cards of all shapes with batches of all kinds, some in mid-pass: the whole run of each.
#[test]
fn forecast_against_whole_runs() {
    let mut random = Random::new(67);
    let mut forecasts = Forecasts::new();
    for round in 0..9000 {
        let (b, n) = match round % 5 {
            0 => (8, random.within(2, 6)),
            1 => (random.within(8, 16), random.within(2, 12)),
            2 => (random.within(8, 12), random.within(3, 5)),
            3 => (random.within(8, 32), random.within(2, 14)),
            _ => (random.pick(&[8, 9, 11, 33]), random.pick(&[2, 3, 16])),
        };
        let card = cards::any(&mut random, b, n);
        let universe = Universe::random(&mut random);
        let about = || format!("B {b}, N {n}");
        for _ in 0..3 {
            let most = random.pick(&[1, 3, 10, 60]);
            let batch = batches::any(&mut random, &card, &universe, most);
            compare::forecast_run(&mut forecasts, &card, &batch, &about);
        }
        let empty = compare::forecast_run(&mut forecasts, &card, &[], &about);
        assert!(empty.finishes, "8 with an empty batch; {}", about());
    }
    forecasts.report("forecast_against_whole_runs");
    forecasts.expect(&[0], 100_000);
    assert!(forecasts.stopping > 2_000 && forecasts.nothing_remains > 2_000);
    assert!(forecasts.annulling > 2_000 && forecasts.with_empty_ranges > 2_000);
}

/// Every set of pairs over three terms and three positions, packed as the old segment, and every
/// batch of one record over them.
#[test]
fn forecast_on_every_small_index() {
    let mut random = Random::new(68);
    let mut forecasts = Forecasts::new();
    let records = batches::every_record_of_a_small_index();
    for old in cards::every_small_index() {
        for free in 1..=2 {
            let n = (old.len() as u32 + free).max(2);
            let start = random.below(n as usize) as u32;
            let memory = cards::memory(&mut random, 8, n);
            let card = cards::laid_out(memory, 8, n, start, &old, &[]);
            for record in &records {
                compare::forecast_run(&mut forecasts, &card, record, &String::new);
            }
        }
    }
    forecasts.report("forecast_on_every_small_index");
    forecasts.expect(&[0], 50_000);
    assert!(forecasts.stopping > 500 && forecasts.stopping_with_removals_alone > 200);
}

/// Cards with one place free, with two, or filling up: additions until the pass would be stopped, the
/// run to there, then the empty batch, removals and other additions from there on.
#[test]
fn forecast_where_places_run_out() {
    let mut random = Random::new(69);
    let mut forecasts = Forecasts::new();
    for round in 0..1600 {
        let b = random.pick(&[8, 8, 9, 10, 12, 20]);
        let n = random.pick(&[2, 2, 3, 4, 5, 7, 10]);
        let about = || format!("round {round}, B {b}, N {n}");
        let mut card = cards::any(&mut random, b, n);
        let universe = Universe::wide(2 * b as usize * n as usize);
        for _ in 0..6 {
            let most = 2 * b as usize;
            let batch = match random.below(3) {
                0 => batches::near(&mut random, &card, Mixture::Both, most),
                _ => batches::good(&mut random, &universe, Mixture::Additions, most),
            };
            let first = compare::forecast_run(&mut forecasts, &card, &batch, &about);
            let number = cards::run(&mut card, &batch, first.limit as usize);
            assert_eq!(number == 8, !first.finishes, "{}", about());
            if first.finishes {
                continue;
            }
            // What stopped stays stopped; other batches go on from here.
            let blocks = first.blocks - first.writes;
            let again = compare::forecast_run(&mut forecasts, &card, &batch, &about);
            assert_eq!(again, stopping(blocks, 0), "{}", about());
            let empty = compare::forecast_run(&mut forecasts, &card, &[], &about);
            assert!(empty.finishes, "8 with an empty batch; {}", about());
            let free = Configuration::read(&card).free_places().len();
            let removals = batches::near(&mut random, &card, Mixture::Removals, 12);
            let given = compare::forecast_run(&mut forecasts, &card, &removals, &about);
            assert!(given.finishes || free == 1, "two free; {}", about());
            let other = batches::near(&mut random, &card, Mixture::Both, 4);
            compare::forecast_run(&mut forecasts, &card, &other, &about);
            if random.chance(3, 4) {
                cards::run(&mut card, &[], empty.limit as usize);
            }
        }
    }
    forecasts.report("forecast_where_places_run_out");
    forecasts.expect(&[0], 50_000);
    forecasts.expect_every_shape(120);
    assert!(forecasts.stopping > 5_000 && forecasts.stopping_in_mid_pass > 2_000);
}

/// A card whose old blocks are as full as can be, of terms with a few positions each, with so many
/// places free.
fn packed_card(random: &mut Random, b: u32, blocks: u32, free: u32) -> Vec<u32> {
    let mut pairs = Vec::new();
    for term in 1..=blocks * b {
        let count = random.within(1, b - 2);
        pairs.extend((1..=count).map(|position| (term * 2, position * 3)));
    }
    let mut old = cards::packed(pairs, b);
    old.truncate(blocks as usize);
    let n = blocks + free;
    let start = random.below(n as usize) as u32;
    let memory = cards::memory(random, b, n);
    let card = cards::laid_out(memory, b, n, start, &old, &[]);
    assert_eq!(second::judge(&card), 0);
    card
}

/// Removals alone: with two or more places free every pass finishes, with one free some are stopped.
#[test]
fn forecast_of_removals() {
    let mut random = Random::new(70);
    let mut forecasts = Forecasts::new();
    for round in 0..14_000 {
        let b = random.pick(&[8, 8, 9, 10, 12]);
        let n = random.pick(&[3, 4, 5, 6, 8]);
        let mut card = match round % 2 {
            0 => cards::loose(&mut random, b, n),
            _ => packed_card(&mut random, b, n - 1, 1 + round / 2 % 2),
        };
        if round % 3 == 0 {
            // Into a pass of another batch, or of none.
            let other = match round % 2 {
                0 => vec![],
                _ => batches::near(&mut random, &card, Mixture::Removals, 2),
            };
            let steps = random.below(3 * n as usize);
            cards::run(&mut card, &other, steps);
        }
        let batch = match random.below(2) {
            0 => {
                // The last pairs of some blocks.
                let mut records = Vec::new();
                for pairs in cards::block_pairs(&card) {
                    let (term, position) = pairs[pairs.len() - 1];
                    match random.below(6) {
                        0 => records.push(removal(term, position, TOP)),
                        1 => records.push(annulment(position, position)),
                        2 => records.push(removal(term, position, position - 1)),
                        _ => {}
                    }
                }
                records.retain(|record| record.to != 0);
                batches::words(records)
            }
            _ => {
                let most = random.pick(&[1, 4, 12]);
                batches::near(&mut random, &card, Mixture::Removals, most)
            }
        };
        let free = Configuration::read(&card).free_places().len();
        let given = compare::forecast_run(&mut forecasts, &card, &batch, &String::new);
        assert!(given.finishes || free == 1);
    }
    forecasts.report("forecast_of_removals");
    forecasts.expect(&[0], 50_000);
    assert!(forecasts.stopping_with_removals_alone > 400);
    assert!(forecasts.stopping_in_mid_pass > 30 && forecasts.stopping_later > 50);
    assert!(forecasts.annulling > 1_000 && forecasts.with_empty_ranges > 1_000);
}

/// At every moment of a pass, also between its writes and after cuts: the run that goes on with the
/// same batch, with another, with none, and a bad batch.
#[test]
fn forecast_in_mid_pass() {
    let mut random = Random::new(71);
    let mut forecasts = Forecasts::new();
    let mut changed_outcome = 0;
    for _ in 0..1500 {
        let b = random.pick(&[8, 8, 9, 10, 12]);
        let n = random.within(2, 7);
        let about = || format!("B {b}, N {n}");
        let mut card = cards::any(&mut random, b, n);
        let universe = Universe::random(&mut random);
        let most = random.pick(&[3, 10, 24]);
        let batch = batches::any(&mut random, &card, &universe, most);
        for _ in 0..12 {
            let same = compare::forecast_run(&mut forecasts, &card, &batch, &about);
            let empty = compare::forecast_run(&mut forecasts, &card, &[], &about);
            assert!(empty.finishes, "{}", about());
            let other = batches::any(&mut random, &card, &universe, 8);
            let other = compare::forecast_run(&mut forecasts, &card, &other, &about);
            changed_outcome += u32::from(same.finishes != other.finishes);
            if random.chance(1, 4) {
                let bad = batches::bad(&mut random, &universe);
                compare::forecast(&mut forecasts, &card, &bad, &about);
            }
            let Some((which, range)) = second::due_write(&card, &batch) else {
                assert_eq!((same.finishes, same.writes), (false, 0), "{}", about());
                break;
            };
            if which != 3 && random.chance(1, 3) {
                // A cut leaves any words, and the forecast as it was.
                let wanted = second::step::due_words(&card, &batch).expect("not refused");
                let kind = random.below(cards::CUT_KINDS);
                let live = wanted.clone();
                cards::cut_words(&mut random, kind, &mut card[range], &wanted, &live);
                let cut = compare::forecast_run(&mut forecasts, &card, &batch, &about);
                assert_eq!(cut, same, "after a cut; {}", about());
            }
            if ffi::step(&mut card, &batch).finished {
                break;
            }
        }
    }
    forecasts.report("forecast_in_mid_pass");
    println!("forecast_in_mid_pass: {changed_outcome} times another batch ended otherwise");
    forecasts.expect(&[0], 50_000);
    forecasts.expect(&[6], 500);
    assert!(forecasts.in_mid_pass > 5_000 && forecasts.stopping_in_mid_pass > 500);
    assert!(changed_outcome > 500);
}

/// Lists of steps, lookups, cuts, restarts and refused calls: after each call the forecast with the
/// list's batch and now and then with another.
#[test]
fn forecast_in_lists() {
    let mut forecasts = Forecasts::new();
    let mut met = Figures::default();
    for seed in 0..400 {
        let mut random = Random::new(800_000 + seed);
        let b = random.pick(&[8, 8, 8, 9, 10, 11, 13, 16, 24]);
        let n = random.pick(&[2, 3, 3, 4, 4, 5, 6, 7, 9, 12]);
        let mut list = List::start(&ffi::Library, &mut random, b, n);
        let about = || format!("list {seed}, B {b}, N {n}");
        for _ in 0..100 {
            list.call(&mut random, &mut met);
            compare::forecast_run(&mut forecasts, list.card(), list.batch(), &about);
            if random.chance(1, 4) {
                let mixture = Mixture::random(&mut random);
                let other = batches::near(&mut random, list.card(), mixture, 6);
                compare::forecast_run(&mut forecasts, list.card(), &other, &about);
            }
        }
    }
    forecasts.report("forecast_in_lists");
    forecasts.expect(&[0], 50_000);
    assert!(forecasts.stopping > 3_000 && forecasts.stopping_in_mid_pass > 1_000);
}

/// Other words in free places and their map entries: the same forecast.
#[test]
fn forecast_over_leftovers() {
    let mut random = Random::new(72);
    let mut forecasts = Forecasts::new();
    for _ in 0..3000 {
        let b = random.pick(&[8, 8, 9, 10, 17]);
        let n = random.within(2, 8);
        let mut card = cards::any(&mut random, b, n);
        let universe = Universe::random(&mut random);
        let batch = batches::any(&mut random, &card, &universe, 20);
        let first = compare::forecast(&mut forecasts, &card, &batch, &String::new);
        let configuration = Configuration::read(&card);
        for kind in 0..4 {
            for place in configuration.free_places() {
                let block = configuration.block_range(place);
                match kind {
                    0 => random.fill(&mut card[block]),
                    1 => card[block].fill(0),
                    2 => card[block].fill(TOP),
                    // The words of another place.
                    _ => {
                        let other = random.below(n as usize);
                        let words = configuration.block(&card, other).to_vec();
                        card[block].copy_from_slice(&words);
                    }
                }
                random.fill(&mut card[configuration.map_range(place)]);
            }
            let given = compare::forecast(&mut forecasts, &card, &batch, &String::new);
            assert_eq!(given, first, "kind {kind}");
        }
        // The due block and its map entry there already: fewer steps, the same forecast.
        for _ in 0..2 {
            match second::due_write(&card, &batch) {
                Some((1 | 2, range)) => {
                    let words = second::step::due_words(&card, &batch).expect("not refused");
                    card[range].copy_from_slice(&words);
                }
                _ => break,
            }
        }
        let given = compare::forecast_run(&mut forecasts, &card, &batch, &String::new);
        assert_eq!(given, first);
    }
    forecasts.report("forecast_over_leftovers");
    forecasts.expect(&[0], 15_000);
}

/// Removals under every term in stretches of every shape at the card's positions and next to them,
/// with additions inside of what goes, and beside them the batch without its empty ranges.
#[test]
fn forecast_with_stretches_of_every_shape() {
    let mut random = Random::new(73);
    let mut forecasts = Forecasts::new();
    let mut added_inside = 0;
    for round in 0..1900 {
        let b = random.pick(&[8, 8, 9, 11, 16]);
        let n = random.within(2, 8);
        let card = match round % 2 {
            0 => cards::loose(&mut random, b, n),
            _ => cards::any(&mut random, b, n),
        };
        let known = questions::known_pairs(&card);
        let mut positions: BTreeSet<u32> = BTreeSet::from([1, TOP]);
        for &(_, position) in &known {
            positions.insert(position);
            if random.chance(1, 3) {
                positions.insert(position.saturating_add(1));
            }
        }
        let positions: Vec<u32> = positions.into_iter().collect();
        for shape in Stretches::EVERY {
            let count = random.pick(&[1, 1, 2, 3, 9]);
            let mut records = shape.records(&mut random, &positions, count);
            let narrow = records.clone();
            for _ in 0..random.below(4) {
                // At pairs of the card, or at an end of a stretch under a term of the card.
                let (term, mut position) = random.pick(&known);
                if random.chance(1, 2) {
                    let record = &narrow[random.below(narrow.len())];
                    position = random.pick(&[record.from, record.to]);
                }
                let within = |record: &Record| record.from <= position && position <= record.to;
                added_inside += u32::from(narrow.iter().any(within));
                records.push(match random.below(3) {
                    0 => removal(term, position, position.saturating_add(2)),
                    _ => addition(term, position),
                });
            }
            let batch = batches::drawn_words(&mut random, records);
            let about = || format!("{shape:?}");
            let given = compare::forecast_run(&mut forecasts, &card, &batch, &about);
            let without = batches::without_empty_ranges(&batch);
            if without.len() < batch.len() {
                let other = compare::forecast(&mut forecasts, &card, &without, &about);
                assert_eq!(given, other, "without empty ranges; {}", about());
            }
        }
    }
    forecasts.report("forecast_with_stretches_of_every_shape");
    println!("forecast_with_stretches_of_every_shape: {added_inside} records inside a stretch");
    forecasts.expect(&[0], 20_000);
    assert!(added_inside > 2_000 && forecasts.stopping > 300);
    assert!(forecasts.with_empty_ranges > 1_000);
}

/// Records that do nothing: repeats, additions of what is there, removals of what is not or of what
/// the batch adds later, anything up to the boundary, ranges with no position. The forecast stays.
#[test]
fn forecast_with_records_that_do_nothing() {
    let mut random = Random::new(80);
    let mut forecasts = Forecasts::new();
    let mut up_to_the_boundary = 0;
    for _ in 0..4000 {
        let b = random.pick(&[8, 8, 9, 10, 17]);
        let n = random.within(2, 8);
        let card = cards::any(&mut random, b, n);
        let universe = Universe::random(&mut random);
        let batch = batches::any(&mut random, &card, &universe, 12);
        let first = compare::forecast(&mut forecasts, &card, &batch, &String::new);
        let boundary = Configuration::read(&card).boundary();
        let live = second::live_pairs(&card);
        let remains: Vec<Pair> = second::what_remains(&card, &batch).into_iter().collect();
        let known = questions::known_pairs(&card);
        // Even arrival numbers, so that others may arrive between them.
        let mut records = batch::records(&batch);
        let arrivals: BTreeSet<u32> = records.iter().map(|record| record.arrival).collect();
        for record in &mut records {
            record.arrival = 2 * arrivals.range(..=record.arrival).count() as u32;
        }
        let last = 2 * records.len() as u32;
        let any = |record: Record, random: &mut Random| Record {
            arrival: random.within(1, last + 1),
            ..record
        };
        for kind in 0..6 {
            let mut more = records.clone();
            match kind {
                // Each record again, before the first of them or just behind itself.
                0 => {
                    let early = random.chance(1, 2);
                    more.extend(records.iter().map(|record| match early {
                        true => Record {
                            arrival: 1,
                            ..*record
                        },
                        false => Record {
                            arrival: record.arrival + 1,
                            ..*record
                        },
                    }));
                }
                1 => {
                    for &(term, position) in &remains {
                        if random.chance(1, 3) {
                            more.push(any(addition(term, position), &mut random));
                        }
                    }
                }
                // Just before the addition.
                2 => {
                    let added = records.iter().filter(|record| record.kind == ADD);
                    more.extend(added.map(|record| Record {
                        arrival: record.arrival - 1,
                        ..removal(record.term, record.from, record.to)
                    }));
                }
                3 => {
                    // Not in the index, and not in what remains either.
                    let (term, position) = random.pick(&known);
                    for position in [position.saturating_add(1), position.saturating_sub(1)] {
                        let pair = (term, position);
                        let absent = !live.contains(&pair) && !remains.contains(&pair);
                        if position != 0 && absent {
                            more.push(any(removal(term, position, position), &mut random));
                        } else if position != 0 && !live.contains(&pair) {
                            // The batch adds it later.
                            more.push(removal(term, position, position));
                        }
                    }
                }
                4 => {
                    let (term, position) = random.pick(&known);
                    if Some((term, position)) <= boundary {
                        up_to_the_boundary += 1;
                        let within = random.within(1, position);
                        for record in [
                            addition(term, position),
                            removal(term, 1, position),
                            addition(term, within),
                        ] {
                            more.push(any(record, &mut random));
                        }
                    }
                }
                _ => {
                    for (from, to) in EMPTY_RANGES {
                        more.push(any(annulment(from, to), &mut random));
                        let term = random.pick(&known).0;
                        more.push(any(removal(term, from, to), &mut random));
                    }
                }
            }
            let more = batches::by_arrival(&mut random, more);
            let about = || format!("kind {kind}");
            let given = compare::forecast(&mut forecasts, &card, &more, &about);
            assert_eq!(given, first, "{}; {batch:?}, then {more:?}", about());
        }
        // All that the universe has goes, or all above the boundary.
        let everything = [3, 0, 1, TOP, 1];
        let given = compare::forecast_run(&mut forecasts, &card, &everything, &String::new);
        assert_eq!(given, figures(0, 1, true, 0));
        let card = cards::fresh(&mut random, b, n);
        let given = compare::forecast(&mut forecasts, &card, &universe.remove_all(), &String::new);
        assert_eq!(given, figures(0, 1, true, 0));
    }
    forecasts.report("forecast_with_records_that_do_nothing");
    println!("forecast_with_records_that_do_nothing: {up_to_the_boundary} up to the boundary");
    forecasts.expect(&[0], 30_000);
    assert!(up_to_the_boundary > 300 && forecasts.stopping > 1_000);
}

/// Terms and positions at 4,294,967,295 and next to it, in pairs, records and boundaries.
#[test]
fn forecast_at_the_highest_terms_and_positions() {
    let mut random = Random::new(74);
    let mut forecasts = Forecasts::new();
    let universes = Universe::at_the_top();
    for round in 0..1600 {
        let b = random.pick(&[8, 8, 9, 10, 13]);
        let n = random.within(2, 6);
        let universe = &universes[round % universes.len()];
        let mut card = cards::fresh(&mut random, b, n);
        if round % 4 == 0 {
            card = cards::bounded_at_the_top(&mut random, b, n);
        }
        for _ in 0..3 {
            let mixture = Mixture::random(&mut random);
            let batch = if random.chance(1, 3) {
                batches::near(&mut random, &card, mixture, 8)
            } else {
                batches::good(&mut random, universe, mixture, 30)
            };
            compare::forecast_run(&mut forecasts, &card, &batch, &String::new);
            let steps = random.below(10);
            cards::run(&mut card, &batch, steps);
        }
    }
    forecasts.report("forecast_at_the_highest_terms_and_positions");
    forecasts.expect(&[0], 10_000);
    assert!(forecasts.stopping > 200);
}

/// Damaged cards: 1 to 4 before any fault of the batch; and words at random.
#[test]
fn forecast_on_unsound_cards() {
    let mut random = Random::new(75);
    let mut forecasts = Forecasts::new();
    for round in 0..300 {
        let b = random.pick(&[8, 8, 9, 10]);
        let n = random.within(2, 5);
        let mut card = cards::any(&mut random, b, n);
        let universe = Universe::random(&mut random);
        for word in 0..card.len() {
            let kept = card[word];
            let beside = card[(word + 1) % card.len()];
            let values = [
                0,
                1,
                kept.wrapping_add(1),
                kept.wrapping_sub(1),
                random.pick(&[TOP, n, 2, beside]),
            ];
            for value in values {
                card[word] = value;
                let batch = match random.below(4) {
                    0 => Vec::new(),
                    1 => batches::bad(&mut random, &universe),
                    _ => batches::good(&mut random, &universe, Mixture::Both, 6),
                };
                let about = || format!("word {word} was {kept}, now {value}");
                compare::forecast(&mut forecasts, &card, &batch, &about);
            }
            card[word] = kept;
        }
        if round % 8 == 0 {
            let mut longer = card.clone();
            longer.extend_from_slice(&card);
            for length in 0..=longer.len() {
                let batch = match random.below(3) {
                    0 => batches::bad(&mut random, &universe),
                    _ => batches::good(&mut random, &universe, Mixture::Both, 4),
                };
                let about = || format!("{length} words");
                compare::forecast(&mut forecasts, &longer[..length], &batch, &about);
            }
        }
    }
    for _ in 0..20_000 {
        let card = cards::random_words(&mut random);
        let batch = match random.below(3) {
            0 => vec![1, 5, 2, 2, 1],
            1 => vec![1, 5, 2, 2, 1, 1, 4, 2, 2, 2],
            _ => random.words(RECORD_WORDS),
        };
        forecast_or_run(&mut forecasts, &card, &batch, &String::new);
    }
    forecasts.report("forecast_on_unsound_cards");
    forecasts.expect(&[0, 4], 5_000);
    forecasts.expect(&[1, 2, 3], 500);
    forecasts.expect(&[6], 500);
}

/// Terms over many blocks in both segments, and cards of one term that are nearly full.
#[test]
fn forecast_of_terms_over_many_blocks() {
    let mut random = Random::new(76);
    let mut forecasts = Forecasts::new();
    for _ in 0..3000 {
        let terms = random.within(1, 4);
        let card = cards::over_many_blocks(&mut random, terms, 12);
        assert_eq!(second::judge(&card), 0);
        for most in [2, 6, 20] {
            let mixture = Mixture::random(&mut random);
            let batch = batches::near(&mut random, &card, mixture, most);
            compare::forecast_run(&mut forecasts, &card, &batch, &String::new);
        }
    }
    for (b, n) in [(8, 4), (8, 9), (9, 6), (12, 12), (40, 5), (1024, 4)] {
        for new_length in 0..n as usize {
            for live in new_length.max(1)..n as usize {
                let (new, old) = cards::blocks_of_one_term(7, b, new_length, live);
                let start = random.below(n as usize) as u32;
                let card = cards::of_blocks(b, n, start, &old, &new);
                for _ in 0..6 {
                    let mixture = Mixture::random(&mut random);
                    let batch = batches::near(&mut random, &card, mixture, 8);
                    let about = || format!("B {b}, N {n}, {new_length} new of {live}");
                    compare::forecast_run(&mut forecasts, &card, &batch, &about);
                }
            }
        }
    }
    forecasts.report("forecast_of_terms_over_many_blocks");
    forecasts.expect(&[0], 40_000);
    assert!(forecasts.stopping > 150 && forecasts.stopping_in_mid_pass > 100);
}

/// Shapes from the smallest to the largest B and N, well filled, and a part of a run each.
#[test]
fn forecast_on_cards_of_many_shapes() {
    let mut random = Random::new(77);
    let mut forecasts = Forecasts::new();
    for (b, n) in cards::MANY_SHAPES {
        let room = b as usize * n as usize;
        let universe = Universe::wide(room.max(100));
        let mut card = cards::well_filled(&mut random, b, n);
        let about = || format!("B {b}, N {n}");
        for _ in 0..5 {
            let most = (room / 3).clamp(6, 2_000);
            let batch = batches::any(&mut random, &card, &universe, most);
            if room > 2_000 {
                let mut now = compare::forecast(&mut forecasts, &card, &batch, &about);
                for _ in 0..8 {
                    let answer = ffi::step(&mut card, &batch);
                    if answer.number != 0 || answer.finished {
                        break;
                    }
                    let next = compare::forecast(&mut forecasts, &card, &batch, &about);
                    let made = u32::from(answer.write == 3);
                    assert_eq!(next.blocks, now.blocks - made, "{}", about());
                    assert_eq!(next.finishes, now.finishes, "{}", about());
                    now = next;
                }
            } else {
                compare::forecast_run(&mut forecasts, &card, &batch, &about);
                cards::run(&mut card, &batch, 5);
            }
        }
    }
    forecasts.report("forecast_on_cards_of_many_shapes");
    forecasts.expect(&[0], 200);
}

/// Long runs to the end, and figures beyond 255: passes of hundreds of blocks.
#[test]
fn forecast_of_long_runs() {
    let mut random = Random::new(78);
    let mut forecasts = Forecasts::new();
    for (b, n) in [(8, 120), (9, 80), (24, 40), (100, 12)] {
        let mut card = cards::fresh(&mut random, b, n);
        card[3] = n - 1 - n / 5;
        let universe = Universe::wide(b as usize * n as usize);
        for part in [3, 8, 8] {
            let count = (b * n / part) as usize;
            let batch = if part == 3 {
                batches::exactly(&mut random, &universe, count)
            } else {
                batches::near(&mut random, &card, Mixture::Both, count)
            };
            let about = || format!("B {b}, N {n}");
            let given = compare::forecast_run(&mut forecasts, &card, &batch, &about);
            cards::run(&mut card, &batch, given.limit as usize);
        }
    }
    // Two terms fill a block of 8 words. 1,023 of 1,024 places can be filled.
    let terms = |from: u32, count: u32| -> Vec<u32> {
        let records = (0..count).map(|i| addition(from + i, 9));
        batches::words(records.collect())
    };
    let card = cards::fresh(&mut random, 8, 1024);
    for (count, expected) in [
        (509, figures(255, 765, true, 0)),
        (511, figures(256, 768, true, 0)),
        (682, figures(341, 1023, true, 0)),
        (683, figures(342, 1026, true, 0)),
        (2046, figures(1023, 3069, true, 0)),
        (2047, figures(1024, 3072, false, 1023)),
        (4096, figures(2048, 6144, false, 1023)),
    ] {
        let about = || format!("{count} terms");
        let given = compare::forecast(&mut forecasts, &card, &terms(3, count), &about);
        assert_eq!(given, expected, "{}", about());
    }
    // Whole runs that finish, and that are stopped at the last block.
    for (n, count, expected) in [
        (300, 598, figures(299, 897, true, 0)),
        (300, 600, figures(300, 900, false, 299)),
        (700, 1398, figures(699, 2097, true, 0)),
    ] {
        let card = cards::fresh(&mut random, 8, n);
        let given = compare::forecast_run(&mut forecasts, &card, &terms(3, count), &String::new);
        assert_eq!(given, expected, "{count} terms");
    }
    // 700 old blocks of two terms: those before an addition free a place each, those after it too.
    let old: Vec<Vec<Pair>> = (1..=700)
        .map(|i| vec![(i * 4, 9), (i * 4 + 2, 9)])
        .collect();
    for (n, start) in [(701, 350), (702, 701), (703, 0)] {
        let card = cards::of_blocks(8, n, start, &old, &[]);
        // A term between two of the first block, of the 300th, of the last: from there on each due
        // block ends in the middle of an old one, and one place more is taken.
        for (block, writes) in [(1, 0), (300, 299), (699, 698)] {
            let batch = addition(block * 4 + 1, 9).words();
            let given = compare::forecast(&mut forecasts, &card, &batch, &String::new);
            let expected = match n {
                701 => stopping(701, writes),
                _ => finishing(701),
            };
            assert_eq!(given, expected, "N {n}, block {block}");
        }
    }
    forecasts.report("forecast_of_long_runs");
    forecasts.expect(&[0], 2_000);
}

/// The largest card: passes that finish and passes that are stopped.
#[test]
fn forecast_on_the_largest_card() {
    let mut random = Random::new(79);
    let mut forecasts = Forecasts::new();
    let (b, n) = (1024, 1024);
    for (old_start, new_count, old_count) in [(900, 0, 1023), (1023, 1014, 7)] {
        let new: Vec<Vec<Pair>> = (1..=new_count).map(cards::large_block).collect();
        let old: Vec<Vec<Pair>> = (new_count + 1..=new_count + old_count)
            .map(cards::large_block)
            .collect();
        let memory = random.words(cards::right_length(b, n));
        let card = cards::laid_out(memory, b, n, old_start, &old, &new);
        let about = || format!("{old_count} old blocks");
        if new_count == 0 {
            // A pair before the first block leaves no old block to be freed.
            let batch = [1, 1, 1, 1, 1];
            let given = compare::forecast(&mut forecasts, &card, &batch, &about);
            assert!(!given.finishes && given.writes == 0 && given.blocks > 1_000);
            let given = compare::forecast(&mut forecasts, &card, &[3, 0, 1, TOP, 1], &about);
            assert_eq!(given, figures(0, 1, true, 0));
        } else {
            // All of the old segment goes, and one pair comes.
            let mut records: Vec<_> = (0..4095)
                .map(|i| removal((new_count + 1) * 400 + i, 1, TOP))
                .collect();
            records.push(addition(TOP, TOP));
            let batch = batches::words(records);
            let given = compare::forecast_run(&mut forecasts, &card, &batch, &about);
            assert_eq!(given, figures(1, 3, true, 0));
            // 2 places are free: 1,021 are taken, and 9 blocks come.
            let records = (1..=9 * 341).map(|i| addition(5_000_000 + i, 1));
            let mut records: Vec<_> = records.collect();
            records.push(annulment(1, TOP));
            let batch = batches::words(records);
            let given = compare::forecast(&mut forecasts, &card, &batch, &about);
            assert_eq!(given, figures(9, 27, true, 0));
            let more = batches::with_a_last_record(&batch);
            let given = compare::forecast(&mut forecasts, &card, &more, &about);
            assert_eq!(given, figures(10, 30, false, 9));
            compare::forecast(&mut forecasts, &card, &batch[..7], &about);
        }
        let short = &card[..card.len() - 1];
        let given = compare::forecast(&mut forecasts, short, &[0], &about);
        assert_eq!(given, no_forecast(1));
    }
    forecasts.report("forecast_on_the_largest_card");
    forecasts.expect(&[0], 6);
    forecasts.expect(&[1], 2);
}
