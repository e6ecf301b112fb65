// The second program by itself: the paper's cases P1 to P8, a table of judgements, lists of calls
// against the history, and pages, scorekeepers' files and forecasts written out by hand.

use std::collections::BTreeSet;

use gameindex_tests::batches::{
    self, addition, annulment, removal, Mixture, Stretches, Universe, EMPTY_RANGES,
    EMPTY_RANGES_IN_ORDER, WRONG_ANNULMENTS, WRONG_EMPTY_RANGES,
};
use gameindex_tests::cards;
use gameindex_tests::compare::{done, no_forecast, refused};
use gameindex_tests::lists::{self, Figures, List, Second};
use gameindex_tests::random::Random;
use gameindex_tests::second::page::page_bytes;
use gameindex_tests::second::scores::{self, Outcome, ScoresAnswer};
use gameindex_tests::second::{
    self, block, Configuration, ForecastAnswer, History, Pair, HIGHEST, LOWEST,
};

fn zeros(n: u32) -> Vec<u32> {
    let mut card = vec![0; cards::right_length(8, n)];
    assert_eq!(second::format(&mut card, 8, n), 0);
    assert_eq!(card[..8], [1, 8, n, 0, 0, 0, 0, 0]);
    card
}

fn p1_batch() -> Vec<u32> {
    batches::words(vec![addition(5, 2), addition(5, 9), addition(7, 4)])
}

/// The card after P1, its three steps checked on the way.
fn p1(n: u32) -> Vec<u32> {
    let mut card = zeros(n);
    let batch = p1_batch();
    assert_eq!(batch, [1, 5, 2, 2, 1, 1, 5, 9, 9, 2, 1, 7, 4, 4, 3]);
    assert_eq!(second::blocks_filled(&card, &batch), 1);
    assert_eq!(second::step(&mut card, &batch), done(1, 0, false));
    assert_eq!(block_at(&card, 0), [5, 2, 2, 9, 7, 1, 4, 0]);
    assert_eq!(card[..8], [1, 8, n, 0, 0, 0, 0, 0]);
    assert_eq!(map_at(&card, 0), (0, 0));
    assert_eq!(second::step(&mut card, &batch), done(2, 0, false));
    assert_eq!(map_at(&card, 0), (5, 2));
    assert_eq!(card[..8], [1, 8, n, 0, 0, 0, 0, 0]);
    assert_eq!(second::step(&mut card, &batch), done(3, 0, true));
    assert_eq!(card[..8], [1, 8, n, 0, 1, 0, 0, 0]);
    assert_eq!(live(&card), [(5, 2), (5, 9), (7, 4)]);
    card
}

fn block_at(card: &[u32], place: usize) -> Vec<u32> {
    Configuration::read(card).block(card, place).to_vec()
}

fn map_at(card: &[u32], place: usize) -> Pair {
    Configuration::read(card).map_pair(card, place)
}

fn live(card: &[u32]) -> Vec<Pair> {
    assert_eq!(second::judge(card), 0);
    second::live_pairs(card).into_iter().collect()
}

/// The positions, and the count of blocks read.
fn found(card: &[u32], term: u32, from: u32, to: u32) -> (Vec<u32>, u32) {
    let mut answer = vec![77; 4];
    let reply = second::lookup(card, term, from, to, &mut answer);
    assert_eq!(reply.number, 0);
    assert!(answer[reply.count as usize..]
        .iter()
        .all(|&word| word == 77));
    answer.truncate(reply.count as usize);
    (answer, reply.blocks)
}

#[test]
fn bounds_of_pairs() {
    assert_eq!(LOWEST, (1, 1));
    assert_eq!(HIGHEST, (4_294_967_295, 4_294_967_295));
    assert_eq!(second::card_words(1024, 1024), 1_050_632);
}

#[test]
fn p1_three_steps_on_zeros() {
    let card = p1(4);
    assert_eq!(card.len(), 48);
    // On leftovers that are right already the block and the map entry are passed over.
    let mut again = card.clone();
    assert_eq!(second::format(&mut again, 8, 4), 0);
    assert_eq!(second::step(&mut again, &p1_batch()), done(3, 0, true));
    assert_eq!(again, card);
    again[8] = 1;
    assert_eq!(second::format(&mut again, 8, 4), 0);
    assert_eq!(second::step(&mut again, &p1_batch()), done(2, 0, false));
    assert_eq!(second::step(&mut again, &p1_batch()), done(3, 0, true));
    assert_eq!(again, card);
}

#[test]
fn p2_exactly_full() {
    let mut card = p1(4);
    let batch = batches::words(vec![addition(7, 11)]);
    assert_eq!(second::step(&mut card, &batch), done(1, 0, false));
    assert_eq!(second::step(&mut card, &batch), done(2, 0, false));
    assert_eq!(second::step(&mut card, &batch), done(3, 1, true));
    assert_eq!(block_at(&card, 1), [5, 2, 2, 9, 7, 2, 4, 11]);
    assert_eq!(map_at(&card, 1), (5, 2));
    assert_eq!(card[..8], [1, 8, 4, 1, 1, 0, 0, 0]);
    assert_eq!(live(&card), [(5, 2), (5, 9), (7, 4), (7, 11)]);
}

#[test]
fn p3_two_blocks() {
    let mut card = p1(4);
    let batch = batches::words(vec![addition(8, 1)]);
    assert_eq!(second::blocks_filled(&card, &batch), 2);
    assert_eq!(second::step_limit(2), 6);
    assert_eq!(second::step(&mut card, &batch), done(1, 0, false));
    assert_eq!(block_at(&card, 1), [5, 2, 2, 9, 7, 1, 4, 0]);
    assert_eq!(second::step(&mut card, &batch), done(2, 0, false));
    assert_eq!(map_at(&card, 1), (5, 2));
    assert_eq!(second::step(&mut card, &batch), done(3, 1, false));
    assert_eq!(card[..8], [1, 8, 4, 1, 0, 1, 7, 4]);
    assert_eq!(live(&card), [(5, 2), (5, 9), (7, 4)]);
    assert_eq!(second::step(&mut card, &batch), done(1, 0, false));
    assert_eq!(block_at(&card, 2), [8, 1, 1, 0, 0, 0, 0, 0]);
    assert_eq!(second::step(&mut card, &batch), done(2, 0, false));
    assert_eq!(map_at(&card, 2), (8, 1));
    assert_eq!(second::step(&mut card, &batch), done(3, 0, true));
    assert_eq!(card[..8], [1, 8, 4, 1, 2, 0, 0, 0]);
    assert_eq!(live(&card), [(5, 2), (5, 9), (7, 4), (8, 1)]);
}

#[test]
fn p4_stops_with_8() {
    let mut card = p1(2);
    let batch = batches::words(vec![addition(8, 1)]);
    assert_eq!(second::step(&mut card, &batch), done(1, 0, false));
    assert_eq!(second::step(&mut card, &batch), done(2, 0, false));
    assert_eq!(second::step(&mut card, &batch), done(3, 1, false));
    assert_eq!(card[..8], [1, 8, 2, 1, 0, 1, 7, 4]);
    let stopped = card.clone();
    assert_eq!(second::step(&mut card, &batch), refused(8));
    assert_eq!(second::due_write(&card, &batch), None);
    assert_eq!(card, stopped);
    assert_eq!(second::step(&mut card, &[]), done(3, 0, true));
    assert_eq!(card[..8], [1, 8, 2, 1, 1, 0, 0, 0]);
    assert_eq!(live(&card), [(5, 2), (5, 9), (7, 4)]);
}

/// (5,9) stays only where the addition arrived second; a repeat of it counts by its own arrival.
#[test]
fn p5_in_both_orders_of_arrival() {
    let cases: [(&[u32], bool); 8] = [
        (&[2, 5, 2, 9, 1, 1, 5, 9, 9, 2], true),
        (&[2, 5, 2, 9, 2, 1, 5, 9, 9, 1], false),
        (&[2, 5, 2, 9, 7, 1, 5, 9, 9, u32::MAX], true),
        (&[2, 5, 2, 9, u32::MAX, 1, 5, 9, 9, 7], false),
        (&[2, 5, 2, 9, 1, 1, 5, 9, 9, 2, 1, 5, 9, 9, 3], true),
        (&[2, 5, 2, 9, 2, 1, 5, 9, 9, 3, 1, 5, 9, 9, 1], true),
        (&[2, 5, 2, 9, 2, 1, 5, 9, 9, 1, 1, 5, 9, 9, 3], true),
        (&[2, 5, 2, 9, 3, 1, 5, 9, 9, 1, 1, 5, 9, 9, 2], false),
    ];
    for (batch, stays) in cases {
        let mut card = p1(4);
        let (pairs, block): (&[Pair], [u32; 8]) = if stays {
            (&[(5, 9), (7, 4)], [5, 1, 9, 7, 1, 4, 0, 0])
        } else {
            (&[(7, 4)], [7, 1, 4, 0, 0, 0, 0, 0])
        };
        assert_eq!(cards::run(&mut card, batch, 3), 0);
        assert_eq!(card[..8], [1, 8, 4, 1, 1, 0, 0, 0]);
        assert_eq!(live(&card), pairs);
        assert_eq!(block_at(&card, 1), block);
        // The whole batch once more changes nothing in the index.
        assert_eq!(cards::run(&mut card, batch, 3), 0);
        assert_eq!(live(&card), pairs);
    }
}

#[test]
fn p6_nothing_remains() {
    let mut card = p1(4);
    let batch = batches::words(vec![removal(5, 1, u32::MAX), removal(7, 1, u32::MAX)]);
    assert_eq!(second::blocks_filled(&card, &batch), 0);
    assert_eq!(second::step_limit(0), 1);
    assert_eq!(second::due_write(&card, &batch), Some((3, 0..8)));
    assert_eq!(second::step(&mut card, &batch), done(3, 1, true));
    assert_eq!(card[..8], [1, 8, 4, 1, 0, 0, 0, 0]);
    assert_eq!(live(&card), []);
}

#[test]
fn p7_lookups_that_read_one_block() {
    let card = p1(4);
    assert_eq!(found(&card, 5, 1, 9), (vec![2, 9], 1));
    assert_eq!(found(&card, 5, 3, 8), (vec![], 1));
    let (number, run) = second::run_view(&card, 5, 1, 9);
    assert_eq!((number, &card[run]), (0, &[2, 9][..]));
    assert_eq!(second::run_view(&card, 5, 3, 8), (0, 0..0));
    let mut small = [77];
    let reply = second::lookup(&card, 5, 1, 9, &mut small);
    assert_eq!((reply.number, reply.count, reply.blocks), (10, 0, 0));
    assert_eq!(small, [77]);
}

#[test]
fn p8_lookups_that_find_none() {
    let card = p1(4);
    assert_eq!(found(&card, 4, 1, 9), (vec![], 0));
    assert_eq!(found(&card, 6, 1, 9), (vec![], 1));
}

#[test]
fn numbers_of_the_formatter() {
    let mut card = vec![9; 48];
    for (b, n) in [(7, 4), (1025, 4), (8, 1), (8, 1025), (0, 0), (u32::MAX, 4)] {
        assert_eq!(second::format(&mut card, b, n), 5);
    }
    assert_eq!(second::format(&mut card, 8, 3), 1);
    assert_eq!(second::format(&mut card[..47], 8, 4), 1);
    assert_eq!(second::format(&mut [], 8, 4), 1);
    assert_eq!(second::format(&mut [], 7, 4), 5);
    assert_eq!(card, vec![9; 48]);
}

#[test]
fn numbers_of_the_batch() {
    let number = |plain: &[u32]| second::judge_batch(&batches::numbered(plain));
    assert_eq!(number(&[]), 0);
    assert_eq!(number(&[1, 5, 2, 2]), 0);
    assert_eq!(number(&[2, 5, 2, 9, 1, 5, 2, 2, 2, 5, 2, 3]), 0);
    for length in [1, 2, 3, 4, 6, 7, 8, 9] {
        let words = [1, 1, 1, 1, 1, 1, 1, 1, 1, 2];
        assert_eq!(second::judge_batch(&words[..length]), 6);
    }
    assert_eq!(number(&[1, 5, 2, 2].repeat(4096)), 0);
    assert_eq!(number(&[1, 5, 2, 2].repeat(4097)), 6);
    for bad in [
        [0, 5, 2, 2],
        [3, 5, 2, 2],
        [1, 0, 2, 2],
        [1, 5, 0, 0],
        [2, 5, 0, 2],
        [2, 5, 2, 0],
        [1, 5, 3, 2],
        [1, 5, 2, 3],
    ] {
        assert_eq!(number(&bad), 6);
        // 6 comes before 7, wherever it stands.
        let after_fall = [&[1, 9, 9, 9, 1, 1, 1, 1][..], &bad].concat();
        assert_eq!(number(&after_fall), 6);
    }
    assert_eq!(number(&[1, 5, 2, 2, 1, 4, 9, 9]), 7);
    assert_eq!(number(&[1, 5, 2, 2, 2, 5, 1, 9]), 7);
}

/// 14: an arrival number that is 0 or used twice, after 6 and before 7. The fifth word never makes a
/// record ill formed.
#[test]
fn numbers_of_arrivals() {
    let top = u32::MAX;
    let number = second::judge_batch;
    for arrival in [1, 2, 4095, 4096, 4097, 65_536, 1 << 31, top - 1, top] {
        assert_eq!(number(&[1, 5, 2, 2, arrival]), 0);
        assert_eq!(number(&[2, 5, 9, 2, arrival]), 0);
        assert_eq!(number(&[3, 0, 2, 9, arrival]), 0);
        assert_eq!(number(&[1, 5, 2, 2, arrival, 1, 5, 2, 2, arrival]), 14);
        assert_eq!(number(&[2, 5, 9, 2, arrival, 3, 0, 2, 9, arrival]), 14);
        assert_eq!(number(&[1, 5, 2, 2, 3, 1, 5, 2, 2, arrival]), 0);
        assert_eq!(number(&[1, 5, 2, 2, 3, 1, 4, 2, 2, arrival]), 7);
        assert_eq!(number(&[1, 5, 2, 2, arrival, 1, 4, 2, 2, arrival]), 14);
        assert_eq!(number(&[1, 5, 2, 2, arrival, 1, 4, 0, 0, arrival]), 6);
        assert_eq!(number(&[1, 5, 2, 2, arrival, 1, 4, 2, 2]), 6);
    }
    assert_eq!(number(&[1, 5, 2, 2, 0]), 14);
    assert_eq!(number(&[2, 5, 9, 2, 0]), 14);
    assert_eq!(number(&[3, 0, 2, 9, 0]), 14);
    assert_eq!(number(&[3, 0, 9, 2, 0]), 14);
    assert_eq!(number(&[1, 5, 2, 2, 0, 1, 4, 2, 2, 1]), 14);
    assert_eq!(number(&[1, 5, 2, 2, 1, 1, 4, 2, 2, 0]), 14);
    assert_eq!(number(&[1, 5, 2, 3, 0]), 6);
    assert_eq!(number(&[4, 5, 2, 2, 0]), 6);
    // Of 4,096 any two, wherever they stand; of 4,097 always 6.
    let most = batches::numbered(&[1, 5, 2, 2].repeat(4096));
    assert_eq!(number(&most), 0);
    for (one, other) in [(0, 1), (0, 4095), (17, 3000), (4094, 4095)] {
        for arrival in [0, 1, 4096, 4097, top] {
            let mut twice = most.clone();
            twice[5 * one + 4] = arrival;
            twice[5 * other + 4] = arrival;
            assert_eq!(number(&twice), 14);
            assert_eq!(number(&[&twice[..], &[1, 5, 2, 2, 9999]].concat()), 6);
        }
    }
}

/// What a batch leaves of (5,2), (5,9), (7,4), by the order of arrival alone.
#[test]
fn the_latest_record_decides() {
    let set = BTreeSet::from([(5, 2), (5, 9), (7, 4)]);
    let top = u32::MAX;
    let cases: [(&[u32], &[Pair]); 16] = [
        // An addition and the removal of its pair, of both kinds.
        (&[1, 6, 1, 1, 1, 2, 6, 1, 9, 2], &[(5, 2), (5, 9), (7, 4)]),
        (
            &[1, 6, 1, 1, 2, 2, 6, 1, 9, 1],
            &[(5, 2), (5, 9), (6, 1), (7, 4)],
        ),
        (&[3, 0, 1, 9, 2, 1, 6, 1, 1, 1], &[]),
        (&[3, 0, 1, 9, 1, 1, 6, 1, 1, 2], &[(6, 1)]),
        (&[3, 0, 1, 9, top, 1, 6, 1, 1, top - 1], &[]),
        (&[3, 0, 1, 9, top - 1, 1, 6, 1, 1, top], &[(6, 1)]),
        // A removal before and one after the addition.
        (
            &[3, 0, 9, 9, 1, 2, 5, 9, 9, 3, 1, 5, 9, 9, 2],
            &[(5, 2), (7, 4)],
        ),
        (
            &[3, 0, 9, 9, 3, 2, 5, 9, 9, 1, 1, 5, 9, 9, 2],
            &[(5, 2), (7, 4)],
        ),
        (
            &[3, 0, 9, 9, 1, 2, 5, 9, 9, 2, 1, 5, 9, 9, 3],
            &[(5, 2), (5, 9), (7, 4)],
        ),
        // Two additions around a removal.
        (
            &[1, 5, 9, 9, 1, 2, 5, 9, 9, 2, 1, 5, 9, 9, 3],
            &[(5, 2), (5, 9), (7, 4)],
        ),
        (
            &[1, 5, 9, 9, 3, 2, 5, 9, 9, 2, 1, 5, 9, 9, 1],
            &[(5, 2), (5, 9), (7, 4)],
        ),
        (
            &[1, 5, 9, 9, 2, 2, 5, 9, 9, 3, 1, 5, 9, 9, 1],
            &[(5, 2), (7, 4)],
        ),
        // Records beside the pair, and of another term, arrive in vain.
        (&[1, 5, 9, 9, 1, 2, 5, 10, 12, 2], &[(5, 2), (5, 9), (7, 4)]),
        (&[1, 5, 9, 9, 1, 2, 6, 1, 12, 2], &[(5, 2), (5, 9), (7, 4)]),
        // So does a range with no position.
        (&[1, 5, 9, 9, 1, 2, 5, 9, 2, 2], &[(5, 2), (5, 9), (7, 4)]),
        (
            &[3, 0, 9, 2, 3, 2, 5, 2, 9, 1, 1, 5, 9, 9, 2],
            &[(5, 9), (7, 4)],
        ),
    ];
    for (batch, expected) in cases {
        assert_eq!(second::judge_batch(batch), 0);
        let left: Vec<Pair> = second::applied(batch, &set).into_iter().collect();
        assert_eq!(left, expected, "{batch:?}");
        // Once more it changes nothing.
        let again = second::applied(batch, &left.iter().copied().collect());
        assert!(again.iter().eq(&left), "{batch:?}");
    }
}

#[test]
fn numbers_of_annulments() {
    let number = |plain: &[u32]| second::judge_batch(&batches::numbered(plain));
    let top = u32::MAX;
    for good in [
        &[3, 0, 1, 1][..],
        &[3, 0, 1, top],
        &[3, 0, top, top],
        &[3, 0, 5, 9, 3, 0, 5, 9],
        &[3, 0, 5, 9, 3, 0, 5, 6],
        &[3, 0, 5, 6, 3, 0, 5, 9],
        &[3, 0, 1, top, 3, 0, 2, 2, 3, 0, top, top],
        &[3, 0, 7, 9, 1, 1, 1, 1],
        &[3, 0, 7, 9, 2, 1, 1, 1, 1, top, top, top],
    ] {
        assert_eq!(number(good), 0, "{good:?}");
    }
    assert_eq!(number(&[3, 0, 5, 9].repeat(4096)), 0);
    assert_eq!(number(&[3, 0, 5, 9].repeat(4097)), 6);
    for (wrong, expected) in WRONG_ANNULMENTS {
        is_refused(wrong, expected);
    }
}

/// The batch, without arrival numbers, has this number, also behind good records in front and before good ones at the end, and
/// a step with it writes nothing.
fn is_refused(wrong: &[u32], expected: u32) {
    let mut random = Random::new(14);
    for batch in batches::around(&mut random, wrong, true) {
        assert_eq!(second::judge_batch(&batch), expected, "{wrong:?}");
    }
    let wrong = &batches::numbered(wrong);
    let mut card = p1(4);
    let before = card.clone();
    assert_eq!(second::step(&mut card, wrong), refused(expected));
    assert_eq!(second::due_write(&card, wrong), None);
    assert_eq!(card, before);
}

/// A removal whose from is above its to is well formed, of either kind, and stands by its from. All
/// other grounds are as they were.
#[test]
fn numbers_of_empty_ranges() {
    let number = |plain: &[u32]| second::judge_batch(&batches::numbered(plain));
    for (from, to) in EMPTY_RANGES {
        for term in [1, 5, u32::MAX] {
            assert_eq!(number(&[2, term, from, to]), 0);
            assert_eq!(number(&[1, term, from, to]), 6);
            assert_eq!(number(&[3, term, from, to]), 6);
            assert_eq!(number(&[2, term, from, 0]), 6);
        }
        assert_eq!(number(&[3, 0, from, to]), 0);
        assert_eq!(number(&[3, 0, from, 0]), 6);
        assert_eq!(number(&[2, 0, from, to]), 6);
        assert_eq!(number(&[2, 5, from, to].repeat(4096)), 0);
        assert_eq!(number(&[2, 5, from, to].repeat(4097)), 6);
    }
    for good in EMPTY_RANGES_IN_ORDER {
        assert_eq!(number(good), 0, "{good:?}");
    }
    for (wrong, expected) in WRONG_EMPTY_RANGES {
        is_refused(wrong, expected);
    }
}

/// What a batch leaves of (5,2), (5,9), (7,4) where a range of it has no position.
#[test]
fn empty_ranges_remove_nothing() {
    let all: &[Pair] = &[(5, 2), (5, 9), (7, 4)];
    let set: BTreeSet<Pair> = all.iter().copied().collect();
    let top = u32::MAX;
    for (from, to) in EMPTY_RANGES {
        for term in [1, 4, 5, 6, 7, 8, top] {
            assert_eq!(second::applied(&[2, term, from, to, 1], &set), set);
        }
        assert_eq!(second::applied(&[3, 0, from, to, 1], &set), set);
    }
    let cases: [(&[u32], &[Pair]); 14] = [
        (&[2, 5, 9, 2], all),
        (&[2, 5, 3, 2], all),
        (&[2, 5, 9, 8], all),
        (&[2, 7, 5, 4], all),
        (&[3, 0, 9, 2], all),
        (&[3, 0, 5, 4, 2, 5, 9, 2, 2, 7, 4, 3], all),
        // Inside a range, starting with it, ending with it, and beside it.
        (&[2, 5, 1, 9, 2, 5, 9, 2], &[(7, 4)]),
        (&[2, 5, 2, 9, 2, 5, 2, 1], &[(7, 4)]),
        (&[2, 5, 2, 1, 2, 5, 2, 9], &[(7, 4)]),
        (&[2, 5, 3, 2, 2, 5, 9, 9], &[(5, 2), (7, 4)]),
        (&[3, 0, 2, 4, 3, 0, 3, 2, 3, 0, 9, 3], &[(5, 9)]),
        (&[3, 0, 9, 2, 2, 5, 2, 2], &[(5, 9), (7, 4)]),
        // With the from of an addition.
        (&[1, 5, 3, 3, 2, 5, 3, 2], &[(5, 2), (5, 3), (5, 9), (7, 4)]),
        (
            &[2, 6, top, 1, 1, 6, top, top],
            &[(5, 2), (5, 9), (6, top), (7, 4)],
        ),
    ];
    for (batch, expected) in cases {
        let batch = batches::numbered(batch);
        assert_eq!(second::judge_batch(&batch), 0);
        let left: Vec<Pair> = second::applied(&batch, &set).into_iter().collect();
        assert_eq!(left, expected, "{batch:?}");
    }
}

/// P1, P2, P5 and P6 with ranges that have no position: the same steps and the same words.
#[test]
fn empty_ranges_change_no_step() {
    let run = |batch: &[u32]| {
        let mut card = p1(4);
        let mut answers = Vec::new();
        let mut cards = Vec::new();
        while !answers.last().is_some_and(|last| *last == done(3, 1, true)) {
            answers.push(second::step(&mut card, batch));
            assert!(answers.len() <= 3);
            cards.push(card.clone());
        }
        (answers, cards)
    };
    let top = u32::MAX;
    let plain: [&[u32]; 4] = [
        &[],
        &[1, 7, 11, 11],
        &[2, 5, 2, 9, 1, 5, 9, 9],
        &[2, 5, 1, top, 2, 7, 1, top],
    ];
    let with: [&[u32]; 4] = [
        &[2, 5, 9, 2],
        &[3, 0, top, 1, 2, 7, 5, 4, 1, 7, 11, 11, 2, 7, 11, 4],
        &[3, 0, 9, 2, 2, 5, 2, 1, 2, 5, 2, 9, 2, 5, 9, 2, 1, 5, 9, 9],
        &[2, 5, 1, top, 2, 5, 9, 2, 2, 7, 1, top, 2, top, top, 1],
    ];
    for (plain, with) in plain.into_iter().zip(with) {
        let with = batches::numbered(with);
        assert_eq!(run(&batches::numbered(plain)), run(&with), "{with:?}");
        let without = batches::without_empty_ranges(&with);
        assert_eq!(batches::plain(&without), plain);
        assert_eq!(run(&without), run(&with), "{with:?}");
    }
    let (answers, cards) = run(&[3, 0, 9, 2, 1]);
    assert_eq!(
        answers,
        [done(1, 0, false), done(2, 0, false), done(3, 1, true)]
    );
    assert_eq!(cards[2][..8], [1, 8, 4, 1, 1, 0, 0, 0]);
    assert_eq!(block_at(&cards[2], 1), [5, 2, 2, 9, 7, 1, 4, 0]);
}

/// Round 2 stood at positions 3 to 9 under three terms. It goes; the game at 9 under term 7 is added
/// in the same batch and stays, and what stands beside the round stays too.
#[test]
fn an_annulled_round() {
    let mut card = zeros(5);
    let played = [(5, 2), (5, 3), (5, 9), (7, 4), (7, 9), (9, 3), (9, 10)];
    let adding = batches::words(played.iter().map(|pair| addition(pair.0, pair.1)).collect());
    assert_eq!(cards::run(&mut card, &adding, 12), 0);
    assert_eq!(live(&card), played);
    assert_eq!(card[..8], [1, 8, 5, 0, 2, 0, 0, 0]);

    let batch = batches::words(vec![addition(7, 9), annulment(3, 9)]);
    assert_eq!(batch, [3, 0, 3, 9, 1, 1, 7, 9, 9, 2]);
    assert_eq!(second::blocks_filled(&card, &batch), 2);
    let mut history = History::new(8);
    assert_eq!(history.step(&adding, true), Some(false));
    assert_eq!(history.step(&adding, true), Some(true));
    assert_eq!(history.pairs(), &BTreeSet::from(played));

    assert_eq!(second::step(&mut card, &batch), done(1, 0, false));
    assert_eq!(block_at(&card, 2), [5, 1, 2, 7, 1, 9, 0, 0]);
    assert_eq!(second::step(&mut card, &batch), done(2, 0, false));
    assert_eq!(map_at(&card, 2), (5, 2));
    // (7,9), the due block's last pair, is the boundary; the first old block ends with (7,4).
    assert_eq!(second::step(&mut card, &batch), done(3, 1, false));
    assert_eq!(card[..8], [1, 8, 5, 1, 1, 1, 7, 9]);
    // In mid-pass (9,3) is still there.
    assert_eq!(live(&card), [(5, 2), (7, 9), (9, 3), (9, 10)]);
    assert_eq!(history.step(&batch, true), Some(false));
    assert_eq!(
        history.pairs(),
        &BTreeSet::from([(5, 2), (7, 9), (9, 3), (9, 10)])
    );
    assert_eq!(history.mark(), Some((7, 9)));
    assert_eq!(second::step(&mut card, &batch), done(1, 0, false));
    assert_eq!(block_at(&card, 3), [9, 1, 10, 0, 0, 0, 0, 0]);
    assert_eq!(second::step(&mut card, &batch), done(2, 0, false));
    assert_eq!(second::step(&mut card, &batch), done(3, 1, true));
    assert_eq!(card[..8], [1, 8, 5, 2, 2, 0, 0, 0]);
    assert_eq!(live(&card), [(5, 2), (7, 9), (9, 10)]);
    assert_eq!(history.step(&batch, true), Some(true));
    assert_eq!(history.pairs(), &BTreeSet::from([(5, 2), (7, 9), (9, 10)]));
    assert_eq!(found(&card, 7, 1, 9), (vec![9], 1));
    assert_eq!(found(&card, 9, 3, 9), (vec![], 1));

    // The whole batch once more leaves the index as it is.
    assert_eq!(cards::run(&mut card, &batch, 6), 0);
    assert_eq!(live(&card), [(5, 2), (7, 9), (9, 10)]);
    // Everything goes in one step, under all terms at once.
    let everything = annulment(1, u32::MAX).words();
    assert_eq!(second::blocks_filled(&card, &everything), 0);
    assert_eq!(second::step(&mut card, &everything), done(3, 2, true));
    assert_eq!(live(&card), []);
}

/// What a batch leaves of (5,2), (5,9), (7,4).
#[test]
fn annulments_written_out() {
    let set = BTreeSet::from([(5, 2), (5, 9), (7, 4)]);
    let top = u32::MAX;
    let cases: [(&[u32], &[Pair]); 13] = [
        (&[3, 0, 1, top], &[]),
        (&[3, 0, 2, 9], &[]),
        (&[3, 0, 3, 8], &[(5, 2), (5, 9)]),
        (&[3, 0, 2, 4], &[(5, 9)]),
        (&[3, 0, 4, 4], &[(5, 2), (5, 9)]),
        (&[3, 0, 5, 8], &[(5, 2), (5, 9), (7, 4)]),
        (&[3, 0, 1, 1, 3, 0, 10, top], &[(5, 2), (5, 9), (7, 4)]),
        (&[3, 0, 1, 9, 3, 0, 2, 2], &[]),
        (&[3, 0, 2, 3, 3, 0, 2, 4], &[(5, 9)]),
        (&[3, 0, 2, 4, 3, 0, 2, 3], &[(5, 9)]),
        (&[3, 0, 4, 9, 2, 5, 2, 2], &[]),
        (&[3, 0, 1, 9, 1, 5, 9, 9, 1, 6, 3, 3], &[(5, 9), (6, 3)]),
        (&[3, 0, 1, 9, 2, 5, 9, 9, 1, 5, 9, 9], &[(5, 9)]),
    ];
    for (batch, expected) in cases {
        let batch = batches::numbered(batch);
        assert_eq!(second::judge_batch(&batch), 0);
        let left: Vec<Pair> = second::applied(&batch, &set).into_iter().collect();
        assert_eq!(left, expected, "{batch:?}");
    }
}

/// A card of B 8 and N 4 with two old and one new block around the circle, as words to damage.
fn judged_example() -> Vec<u32> {
    let card = cards::laid_out(
        vec![6; 48],
        8,
        4,
        3,
        &[vec![(5, 2), (5, 9), (7, 4)], vec![(7, 5), (9, 1)]],
        &[vec![(3, 3), (5, 4)]],
    );
    assert_eq!(card[..8], [1, 8, 4, 3, 2, 1, 5, 4]);
    assert_eq!(
        live(&card),
        [(3, 3), (5, 4), (5, 9), (7, 4), (7, 5), (9, 1)]
    );
    card
}

#[test]
fn judgements_one_by_one() {
    let example = judged_example();
    let with = |changes: &[(usize, u32)]| {
        let mut card = example.clone();
        for &(word, value) in changes {
            card[word] = value;
        }
        second::judge(&card)
    };
    // The blocks' words: place 0 from 16 (second old), 1 from 24 (new), 2 from 32 (free), 3 from
    // 40 (first old). The map: 8, 10, 12, 14.
    assert_eq!(with(&[]), 0);
    for length in 0..8 {
        assert_eq!(second::judge(&example[..length]), 1);
        assert_eq!(second::judge(&vec![0; length]), 1);
    }
    for length in 8..48 {
        assert_eq!(second::judge(&example[..length]), 1);
        assert_eq!(second::judge(&vec![0; length]), 2);
    }
    let too_long = [&example[..], &[0]].concat();
    assert_eq!(second::judge(&too_long), 1);
    assert_eq!(with(&[(0, 0)]), 2);
    assert_eq!(with(&[(0, 2), (1, 0)]), 2);
    for b in [0, 7, 1025, u32::MAX] {
        assert_eq!(with(&[(1, b)]), 3);
    }
    for n in [0, 1, 1025, u32::MAX] {
        assert_eq!(with(&[(2, n)]), 3);
    }
    assert_eq!(with(&[(1, 9)]), 1);
    assert_eq!(with(&[(2, 5), (3, 9)]), 1);
    assert_eq!(with(&[(3, 4)]), 3);
    assert_eq!(with(&[(4, 3)]), 3);
    assert_eq!(with(&[(5, 2)]), 3);
    assert_eq!(with(&[(4, u32::MAX)]), 3);
    assert_eq!(with(&[(5, u32::MAX)]), 3);
    assert_eq!(with(&[(4, u32::MAX), (5, 2)]), 3);
    assert_eq!(with(&[(4, 1 << 31), (5, 1 << 31)]), 3);
    assert_eq!(with(&[(6, 0)]), 3);
    assert_eq!(with(&[(7, 0)]), 3);
    assert_eq!(with(&[(6, 0), (7, 0)]), 3);
    assert_eq!(with(&[(5, 0)]), 3);
    assert_eq!(with(&[(5, 0), (6, 0)]), 3);
    assert_eq!(with(&[(5, 0), (7, 0)]), 3);
    assert_eq!(with(&[(5, 0), (6, 0), (7, 0)]), 0);
    // Free words are never judged.
    for word in (12..14).chain(32..40) {
        assert_eq!(with(&[(word, u32::MAX)]), 0);
    }
    // The map.
    for word in [8, 9, 10, 11, 14, 15] {
        assert_eq!(with(&[(word, 8)]), 4);
        assert_eq!(with(&[(word, 0)]), 4);
    }
    // The first old block, 5 2 2 9 7 1 4 0.
    assert_eq!(with(&[(40, 0)]), 4);
    assert_eq!(with(&[(41, 0)]), 4);
    assert_eq!(with(&[(41, 7)]), 4);
    assert_eq!(with(&[(41, u32::MAX)]), 4);
    assert_eq!(with(&[(42, 0), (15, 0)]), 4);
    assert_eq!(with(&[(43, 2)]), 4);
    assert_eq!(with(&[(43, 1)]), 4);
    assert_eq!(with(&[(44, 5)]), 4);
    assert_eq!(with(&[(44, 4)]), 4);
    assert_eq!(with(&[(45, 0)]), 4);
    assert_eq!(with(&[(45, 3)]), 4);
    assert_eq!(with(&[(45, u32::MAX)]), 4);
    assert_eq!(with(&[(46, 0)]), 4);
    assert_eq!(with(&[(47, 1)]), 4);
    assert_eq!(with(&[(42, 4), (15, 4)]), 0);
    // Two words left at its end must be 0.
    assert_eq!(with(&[(44, 0), (45, 0), (46, 0)]), 0);
    assert_eq!(with(&[(44, 0)]), 4);
    // Rising from the first old block (ends 7 4) to the second (begins 7 5).
    assert_eq!(with(&[(46, 5)]), 4);
    assert_eq!(with(&[(46, 6)]), 4);
    assert_eq!(with(&[(46, 3)]), 0);
    // The boundary is the last new pair.
    assert_eq!(with(&[(6, 6)]), 4);
    assert_eq!(with(&[(7, 3)]), 4);
    assert_eq!(with(&[(7, 5)]), 4);
    // The first old block needs a pair above it: 7 4 is, 7 3 is, 5 9 is.
    assert_eq!(with(&[(27, 7), (29, 3), (6, 7), (7, 3)]), 0);
    assert_eq!(with(&[(27, 7), (29, 4), (6, 7), (7, 4)]), 4);
    assert_eq!(with(&[(27, 8), (29, 1), (6, 8), (7, 1)]), 4);
    assert_eq!(with(&[(27, 8), (29, 1), (6, 8), (7, 1), (4, 0), (3, 1)]), 0);
    // A live block of zeros.
    let mut empty = zeros(4);
    empty[4] = 1;
    assert_eq!(second::judge(&empty), 4);
}

#[test]
fn packing_agrees_with_the_words_of_a_block() {
    let mut random = Random::new(11);
    let mut checked = 0;
    for _ in 0..20_000 {
        let universe = Universe::random(&mut random);
        let b = random.pick(&[8, 9, 10, 11, 16, 33]);
        let mut set = BTreeSet::new();
        for _ in 0..1 + random.below(40) {
            set.insert((universe.term(&mut random), universe.position(&mut random)));
        }
        let pairs: Vec<Pair> = set.into_iter().collect();
        let beginning = block::longest_beginning(pairs.iter().copied(), b);
        assert!(!beginning.is_empty());
        assert!(pairs.starts_with(&beginning));
        let words = block::block_words(&beginning, b);
        assert_eq!(block::pairs(&words), Some(beginning.clone()));
        if beginning.len() < pairs.len() {
            let more = &pairs[..beginning.len() + 1];
            let terms: BTreeSet<u32> = more.iter().map(|pair| pair.0).collect();
            assert!(more.len() + 2 * terms.len() > b);
        }
        checked += 1;
    }
    println!("packing_agrees_with_the_words_of_a_block: {checked} comparisons");
}

/// How a batch came by a pair.
#[derive(Debug, Default)]
struct Met {
    checked: u64,
    annulled: u64,
    annulled_and_added: u64,
    annulled_and_removed: u64,
    beside: u64,
    in_an_empty_range: u64,
    added_last: u64,
    removed_last: u64,
    annulled_last: u64,
}

/// Whether a pair is in the set after a batch: the record that touches it and has the greatest arrival
/// number says so, and where none touches it, it is as it was.
fn expected_in(met: &mut Met, batch: &[u32], set: &BTreeSet<Pair>, pair: Pair) -> bool {
    let (term, position) = pair;
    // The greatest arrival number of those that add the pair, remove it, annul it; 0 for none.
    let mut added = 0;
    let mut removed = 0;
    let mut annulled = 0;
    let mut beside = false;
    let mut empty = false;
    for record in batch.chunks(5) {
        let (kind, its_term, from, to) = (record[0], record[1], record[2], record[3]);
        let arrival = record[4];
        let within = from <= position && position <= to;
        if from > to {
            // No position is within it.
            empty |= (its_term == term || kind == 3) && to <= position && position <= from;
            continue;
        }
        match kind {
            1 if its_term == term && from == position => added = added.max(arrival),
            2 if its_term == term && within => removed = removed.max(arrival),
            1 | 2 => {}
            _ => {
                assert_eq!((kind, its_term), (3, 0));
                if within {
                    annulled = annulled.max(arrival);
                }
                beside |= !within && (position == from - 1 || position - 1 == to);
            }
        }
    }
    let was = set.contains(&pair);
    let gone = removed.max(annulled);
    met.checked += 1;
    met.annulled += u64::from(was && annulled > 0 && removed == 0 && added == 0);
    met.annulled_and_added += u64::from(was && annulled > 0 && added > 0);
    met.annulled_and_removed += u64::from(was && annulled > 0 && removed > 0 && added == 0);
    met.beside += u64::from(was && beside && gone == 0);
    met.in_an_empty_range += u64::from(was && empty && gone == 0);
    met.added_last += u64::from(gone > 0 && added > gone);
    met.removed_last += u64::from(added > 0 && removed > added && removed > annulled);
    met.annulled_last += u64::from(added > 0 && annulled > added && annulled > removed);
    if added == 0 && gone == 0 {
        was
    } else {
        added > gone
    }
}

/// A pair is in the result where the latest record that touches it adds it, or where it was there and
/// none touches it.
#[test]
fn batches_applied_pair_by_pair() {
    let mut random = Random::new(12);
    let mut met = Met::default();
    for _ in 0..10_000 {
        let universe = Universe::random(&mut random);
        let batch = batches::good(&mut random, &universe, Mixture::Both, 12);
        let mut set = BTreeSet::new();
        for _ in 0..random.below(30) {
            set.insert((universe.term(&mut random), universe.position(&mut random)));
        }
        let result = second::applied(&batch, &set);
        for &term in &universe.terms {
            for &position in &universe.positions {
                let pair = (term, position);
                let expected = expected_in(&mut met, &batch, &set, pair);
                assert_eq!(result.contains(&pair), expected);
            }
        }
        let known =
            |pair: &Pair| universe.terms.contains(&pair.0) && universe.positions.contains(&pair.1);
        assert!(result.iter().all(known));
    }
    println!(
        "batches_applied_pair_by_pair: {} comparisons, {met:?}",
        met.checked
    );
    assert!(met.annulled > 5_000 && met.annulled_and_added > 500);
    assert!(met.annulled_and_removed > 500 && met.beside > 500);
    assert!(met.in_an_empty_range > 500);
    assert!(met.added_last > 500 && met.removed_last > 500 && met.annulled_last > 500);
}

/// Stretches of every shape, up to the most records, beside other records, over positions at their
/// ends and next to them.
#[test]
fn stretches_applied_pair_by_pair() {
    let mut random = Random::new(13);
    let mut met = Met::default();
    for shape in Stretches::EVERY {
        for count in [0, 1, 2, 3, 7, 16, 16, 60, 200, 4095] {
            let grid: Vec<u32> = match random.below(3) {
                0 => (1..=40).collect(),
                1 => (1..=40).map(|i| i * 5).collect(),
                _ => (0..40).map(|i| u32::MAX - (39 - i) * 3).collect(),
            };
            let mut records = shape.records(&mut random, &grid, count);
            assert_eq!(records.len(), count);
            let terms = [1, 2, 7, u32::MAX];
            let mut set = BTreeSet::new();
            for &position in &grid {
                for position in [position - 1, position, position.saturating_add(1)] {
                    if position != 0 && random.chance(2, 3) {
                        set.insert((random.pick(&terms), position));
                    }
                }
            }
            let known: Vec<Pair> = set.iter().copied().collect();
            for _ in 0..random.below(2) * 12 {
                let (term, position) = random.pick(&known);
                let record = match random.below(3) {
                    0 => removal(term, position, position.saturating_add(2)),
                    _ => addition(term, position),
                };
                if records.len() < 4096 {
                    records.push(record);
                }
            }
            let batch = batches::drawn_words(&mut random, records);
            assert_eq!(second::judge_batch(&batch), 0);
            let result = second::applied(&batch, &set);
            for &pair in set.iter().chain(&result) {
                let expected = expected_in(&mut met, &batch, &set, pair);
                assert_eq!(result.contains(&pair), expected, "{shape:?}, {count}");
            }
        }
    }
    println!(
        "stretches_applied_pair_by_pair: {} comparisons, {met:?}",
        met.checked
    );
    assert!(met.annulled > 1_000 && met.annulled_and_added > 50);
    assert!(met.annulled_and_removed > 50 && met.beside > 200);
    assert!(met.in_an_empty_range > 500);
}

#[test]
fn lists_of_calls_against_the_history() {
    let mut figures = Figures::default();
    for seed in 0..1500 {
        let mut random = Random::new(1000 + seed);
        let b = random.pick(&[8, 8, 8, 9, 10, 11, 13, 16, 24]);
        let n = random.pick(&[2, 3, 3, 4, 4, 5, 6, 7, 9, 12]);
        let mut list = List::start(&Second, &mut random, b, n);
        for _ in 0..200 {
            list.call(&mut random, &mut figures);
        }
    }
    println!(
        "lists_of_calls_against_the_history: {} comparisons, {figures:?}",
        figures.calls
    );
    assert!(figures.writes[1] > 1000 && figures.writes[2] > 1000 && figures.writes[3] > 1000);
    assert!(figures.cuts[1] > 1000 && figures.cuts[2] > 1000 && figures.cuts[3] > 1000);
    assert!(figures.finished > 1000 && figures.stopped_by_8 > 1000 && figures.landed > 1000);
    assert!(figures.wrapped > 1000 && figures.postings > 1000);
    assert!(figures.annulling[1..].iter().all(|&count| count > 1000));
    let empty = &figures.with_empty_ranges[1..];
    assert!(empty.iter().all(|&count| count > 1000));
}

/// Runs a pass to its end. Gives the steps taken and the last answer's number.
fn whole_pass(card: &mut [u32], batch: &[u32]) -> (u32, u32) {
    let limit = second::step_limit(second::blocks_filled(card, batch));
    let wanted = second::what_remains(card, batch);
    let mut moved = second::live_pairs(card);
    if let Some(boundary) = Configuration::read(card).boundary() {
        moved.retain(|&pair| pair <= boundary);
        moved.extend(&wanted);
    } else {
        moved = wanted;
    }
    for taken in 1.. {
        let answer = second::step(card, batch);
        assert_eq!(second::judge(card), 0);
        assert!(taken <= limit, "a pass beyond its step limit");
        if answer.number != 0 {
            assert_eq!(answer.number, 8);
            return (taken, 8);
        }
        if answer.finished {
            assert_eq!(second::live_pairs(card), moved);
            return (taken, 0);
        }
    }
    unreachable!()
}

#[test]
fn passes_keep_the_step_limit() {
    let mut passes = 0;
    let mut at_limit = 0;
    let mut stopped = 0;
    for seed in 0..6000 {
        let mut random = Random::new(50_000 + seed);
        let b = random.pick(&[8, 8, 9, 10, 12, 16, 20]);
        let n = random.pick(&[2, 3, 4, 5, 6, 8, 11]);
        let mut card = if random.chance(1, 2) {
            cards::stepped(&mut random, b, n)
        } else {
            cards::loose(&mut random, b, n)
        };
        let universe = Universe::random(&mut random);
        for mixture in [Mixture::Both, Mixture::Additions] {
            let most = random.pick(&[2, 10, 60]);
            let batch = batches::good(&mut random, &universe, mixture, most);
            let limit = second::step_limit(second::blocks_filled(&card, &batch));
            let (taken, number) = whole_pass(&mut card, &batch);
            passes += 1;
            at_limit += u32::from(number == 0 && taken == limit);
            stopped += u32::from(number == 8);
        }
        // An empty batch is never stopped by 8.
        let (_, number) = whole_pass(&mut card, &[]);
        assert_eq!(number, 0);
        passes += 1;
    }
    println!(
        "passes_keep_the_step_limit: {passes} comparisons, {at_limit} at the limit, \
         {stopped} stopped by 8"
    );
    assert!(at_limit > 1000 && stopped > 500);
}

/// A batch of removals that takes out some of the card's own pairs, under their terms, under every
/// term, or both.
fn removals_of(random: &mut Random, card: &[u32]) -> Vec<u32> {
    let of_every_term = random.pick(&[0, 1, 4]);
    let mut records = Vec::new();
    for (term, position) in second::live_pairs(card) {
        if random.chance(1, 4) {
            let to = position.saturating_add(random.below(3) as u32);
            let (from, to) = batches::or_empty(random, (position, to));
            if random.chance(of_every_term, 4) {
                records.push(annulment(from, to));
            } else {
                records.push(removal(term, from, to));
            }
        }
    }
    batches::drawn_words(random, records)
}

#[test]
fn removals_with_two_places_free_always_go_through() {
    let mut passes = 0;
    let mut by_annulments_alone = 0;
    let mut stopped_with_one = 0;
    let mut annulments_stopped_with_one = 0;
    for seed in 0..12_000 {
        let mut random = Random::new(90_000 + seed);
        let b = random.pick(&[8, 8, 9, 10, 12]);
        let n = random.pick(&[3, 4, 5, 6, 8]);
        let mut card = cards::loose(&mut random, b, n);
        let batch = removals_of(&mut random, &card);
        let free = Configuration::read(&card).free_places().len();
        let (_, number) = whole_pass(&mut card, &batch);
        let alone = batches::annuls(&batch) && batch.chunks(5).all(|record| record[0] == 3);
        if free >= 2 {
            assert_eq!(number, 0);
            passes += 1;
            by_annulments_alone += u32::from(alone);
        } else if number == 8 {
            stopped_with_one += 1;
            annulments_stopped_with_one += u32::from(alone);
        }
    }
    println!(
        "removals_with_two_places_free_always_go_through: {passes} comparisons, \
         {by_annulments_alone} of annulments alone; {stopped_with_one} stopped with one place \
         free, {annulments_stopped_with_one} of annulments alone"
    );
    assert!(passes > 1000 && by_annulments_alone > 500);
    assert!(annulments_stopped_with_one > 5);
}

#[test]
fn lookups_on_loose_cards() {
    let mut lookups = 0;
    let mut spread = 0;
    for seed in 0..4000 {
        let mut random = Random::new(130_000 + seed);
        let b = random.pick(&[8, 9, 12, 20]);
        let n = random.pick(&[2, 3, 5, 8, 12]);
        let card = cards::loose(&mut random, b, n);
        let pairs = second::live_pairs(&card);
        let known: Vec<Pair> = pairs.iter().copied().collect();
        for _ in 0..20 {
            let (term, near) = if known.is_empty() || random.chance(1, 8) {
                (random.within(1, u32::MAX), random.word())
            } else {
                random.pick(&known)
            };
            let from = near
                .saturating_sub(random.pick(&[0, 1, 5, u32::MAX]))
                .max(1);
            let to = near
                .saturating_add(random.pick(&[0, 1, 5, u32::MAX]))
                .max(from);
            let expected: Vec<u32> = pairs
                .iter()
                .filter(|pair| pair.0 == term && from <= pair.1 && pair.1 <= to)
                .map(|pair| pair.1)
                .collect();
            let mut answer = vec![0; expected.len()];
            let reply = second::lookup(&card, term, from, to, &mut answer);
            assert_eq!((reply.number, &answer), (0, &expected));
            assert_eq!(reply.count as usize, expected.len());
            let holders = lists::holders(&card, term, from, to);
            assert!(holders <= reply.blocks && reply.blocks <= holders + 2);
            spread += u32::from(reply.blocks == holders + 2);
            lists::check_lookup_beside(&card, term, from, to, &expected);
            lookups += 1;
        }
    }
    println!("lookups_on_loose_cards: {lookups} comparisons, {spread} two above the holders");
    assert!(spread > 10);
}

#[test]
fn refused_calls_on_unsound_cards() {
    let mut random = Random::new(7);
    let mut refusals = 0;
    for _ in 0..4000 {
        let mut card = cards::stepped(&mut random, 8, 4);
        let word = random.below(card.len());
        card[word] = random.pick(&[0, 1, 2, u32::MAX]);
        let number = second::judge(&card);
        if number == 0 {
            continue;
        }
        let before = card.clone();
        let universe = Universe::random(&mut random);
        for batch in [Vec::new(), batches::bad(&mut random, &universe)] {
            assert_eq!(second::step(&mut card, &batch), refused(number));
            assert_eq!(second::due_write(&card, &batch), None);
        }
        for (term, from, to) in [(1, 1, 9), (0, 0, 0)] {
            let mut answer = [5; 3];
            let reply = second::lookup(&card, term, from, to, &mut answer);
            assert_eq!((reply.number, reply.count, reply.blocks), (number, 0, 0));
            assert_eq!(answer, [5; 3]);
            lists::check_lookup_beside(&card, term, from, to, &[]);
            assert_eq!(second::run_view_number(&card, term, from, to), number);
        }
        assert_eq!(card, before);
        refusals += 1;
    }
    println!("refused_calls_on_unsound_cards: {refusals} comparisons");
    assert!(refusals > 1000);
}

/// The number, the lines, and a memory of so many bytes after the call.
fn paged(card: &[u32], question: (u32, u32, u32), room: usize) -> (u32, u32, String) {
    let (term, from, to) = question;
    let mut memory = vec![b'#'; room];
    let reply = second::page(card, term, from, to, &mut memory);
    let text = String::from_utf8(memory).expect("bytes of a page");
    (reply.number, reply.lines, text)
}

#[test]
fn pages_of_p7_and_p8() {
    let card = p1(4);
    let line = "         5          2          9                                 \n";
    assert_eq!(line.len(), 66);
    assert_eq!(paged(&card, (5, 1, 9), 66), (0, 1, line.to_string()));
    assert_eq!(
        paged(&card, (5, 1, 9), 70),
        (0, 1, line.to_string() + "####")
    );
    for room in 0..66 {
        assert_eq!(paged(&card, (5, 1, 9), room), (11, 0, "#".repeat(room)));
    }
    for question in [(5, 3, 8), (4, 1, 9), (6, 1, 9)] {
        assert_eq!(paged(&card, question, 0), (0, 0, String::new()));
        assert_eq!(paged(&card, question, 3), (0, 0, "###".to_string()));
    }
    // 1 to 4, then 9, then 11.
    for question in [(0, 1, 9), (5, 0, 9), (5, 9, 8), (0, 0, 0)] {
        assert_eq!(paged(&card, question, 0), (9, 0, String::new()));
        assert_eq!(paged(&card, question, 66), (9, 0, "#".repeat(66)));
    }
    for (number, word, value) in [(1, 1, 9), (2, 0, 2), (3, 2, 1), (4, 8, 6)] {
        let mut wrong = card.clone();
        wrong[word] = value;
        for question in [(5, 1, 9), (4, 1, 9), (0, 1, 9)] {
            assert_eq!(paged(&wrong, question, 0), (number, 0, String::new()));
            assert_eq!(paged(&wrong, question, 66), (number, 0, "#".repeat(66)));
        }
    }
}

/// A term on both sides of the boundary, (12, 1,000). Old pairs up to it are not live.
#[test]
fn pages_of_several_lines() {
    let pairs = |positions: &[u32]| -> Vec<Pair> {
        let pairs = positions.iter().map(|&position| (12, position));
        pairs.collect()
    };
    let card = cards::laid_out(
        vec![6; cards::right_length(8, 5)],
        8,
        5,
        4,
        &[
            pairs(&[5, 1_000, 99_999]),
            pairs(&[999_999_999, 1_000_000_000, u32::MAX]),
        ],
        &[pairs(&[1, 9, 10]), pairs(&[11, 99, 100, 1_000])],
    );
    assert_eq!(second::judge(&card), 0);
    let lines = [
        "        12          1          9         10         11         99\n",
        "                  100       1000      99999  999999999 1000000000\n",
        "           4294967295                                            \n",
    ];
    let whole = lines.concat();
    assert_eq!(paged(&card, (12, 1, u32::MAX), 198), (0, 3, whole.clone()));
    assert_eq!(paged(&card, (12, 1, u32::MAX), 197).0, 11);
    let ten = lines[..2].concat();
    assert_eq!(paged(&card, (12, 1, u32::MAX - 1), 132), (0, 2, ten));
    let nine = [
        "        12          9         10         11         99        100\n",
        "                 1000      99999  999999999 1000000000           \n",
    ];
    assert_eq!(
        paged(&card, (12, 2, u32::MAX - 1), 132),
        (0, 2, nine.concat())
    );
    let read = second::read_page(whole.as_bytes()).expect("a page");
    let mut positions = vec![1, 9, 10, 11, 99, 100, 1_000, 99_999];
    positions.extend([999_999_999, 1_000_000_000, u32::MAX]);
    assert_eq!(read, (Some(12), positions));
}

/// A page read by its columns, and bytes that are no page.
#[test]
fn pages_read_back() {
    let read = |text: &str| second::read_page(text.as_bytes());
    let five = "4294967295 4294967295         10          3 1000000000         20\n";
    let one = "                    8                                            \n";
    let positions = vec![u32::MAX, 10, 3, 1_000_000_000, 20];
    assert_eq!(read(""), Some((None, vec![])));
    assert_eq!(read(five), Some((Some(u32::MAX), positions.clone())));
    let six = [&positions[..], &[8]].concat();
    assert_eq!(read(&[five, one].concat()), Some((Some(u32::MAX), six)));
    // Bytes that cannot stand where they do.
    for text in [
        five[..65].to_string(),
        [five, "\n"].concat(),
        five.replace('\n', " "),
        five.replace(" 42", "_42"),
        five.replace("295 4", "29504"),
        five.replace("295 4", "296 4"),
        five.replace(" 3 ", "3  "),
        five.replace(" 10 ", "010 "),
        five.replace(" 10 ", "  0 "),
        five.replace(" 10 ", "1 0 "),
        five.replace(" 10 ", " -1 "),
        five.replace(" 10 ", "    "),
    ] {
        assert_eq!(read(&text), None, "{text}");
    }
    // The term on the first line alone, fields absent at the end alone, no empty line.
    let blank = " ".repeat(65) + "\n";
    for lines in [
        [five, five],
        [one, five],
        [one, one],
        [five, &blank],
        [&blank, five],
        [&five.replace("20\n", "  \n"), one],
    ] {
        assert_eq!(read(&lines.concat()), None, "{lines:?}");
    }
    assert_eq!(read(&blank), None);
}

#[test]
fn pages_on_loose_cards() {
    let mut random = Random::new(13);
    let mut checked = 0;
    let mut several_lines = 0;
    for _ in 0..3000 {
        let b = random.pick(&[8, 9, 12, 20]);
        let n = random.pick(&[2, 3, 5, 8, 12]);
        let card = cards::loose(&mut random, b, n);
        let pairs = second::live_pairs(&card);
        for &term in &pairs.iter().map(|pair| pair.0).collect::<BTreeSet<u32>>() {
            let whole = pairs.range((term, 1)..=(term, u32::MAX));
            let positions: Vec<u32> = whole.map(|pair| pair.1).collect();
            let need = page_bytes(positions.len());
            let (number, lines, text) = paged(&card, (term, 1, u32::MAX), need);
            assert_eq!((number, 66 * lines as usize), (0, need));
            assert_eq!(
                second::read_page(text.as_bytes()),
                Some((Some(term), positions))
            );
            assert_eq!(paged(&card, (term, 1, u32::MAX), need - 1).0, 11);
            checked += 1;
            several_lines += u32::from(lines > 1);
        }
    }
    println!("pages_on_loose_cards: {checked} comparisons, {several_lines} of several lines");
    assert!(checked > 10_000 && several_lines > 1_000);
}

/// What the program prints for a text that has, and for one that lacks, the last line feed.
fn prints(text: &str, expected: &str) {
    assert!(!text.is_empty() && !text.ends_with('\n'), "{text}");
    assert_eq!(scores::printed(text.as_bytes()), expected, "{text}");
    let ended = [text, "\n"].concat();
    assert_eq!(scores::printed(ended.as_bytes()), expected, "{text}");
}

/// The number and the words of a file with so many words lent, which must hold the batch and be as
/// they were behind it.
fn scores_with(text: &str, room: usize, batch: &[u32]) -> ScoresAnswer {
    let mut lent = vec![77; room];
    let reply = second::scores(text.as_bytes(), &mut lent);
    let unused = vec![77; room - batch.len()];
    assert_eq!(lent, [batch, &unused].concat(), "{text}");
    reply
}

fn scores_answer(number: u32, words: usize, line: usize) -> ScoresAnswer {
    ScoresAnswer {
        number,
        words,
        line,
    }
}

#[test]
fn files_of_no_line_and_of_empty_lines() {
    let lines = |text: &'static str| scores::lines(text.as_bytes());
    assert!(lines("").is_empty());
    assert_eq!(lines("\n"), [b""]);
    assert_eq!(lines("\n\n"), [b"", b""]);
    assert_eq!(lines("x"), [b"x"]);
    assert_eq!(lines("x\n"), [b"x"]);
    assert_eq!(lines("x\n\n"), [&b"x"[..], b""]);
    assert_eq!(lines("x\ny"), [b"x", b"y"]);
    assert_eq!(lines("\nx\r\n"), [&b""[..], b"x\r"]);
    assert_eq!(scores::outcome(b""), Outcome::Steps(1));
    assert_eq!(scores::printed(b""), "D\t1\n");
    assert_eq!(scores_with("", 0, &[]), scores_answer(0, 0, 0));
    assert_eq!(scores_with("", 3, &[]), scores_answer(0, 0, 0));
    for (text, line) in [
        ("\n", 1),
        ("\n\n", 1),
        ("A\t5\t2\n\n", 2),
        ("A\t5\t2\n\nA\t5\t2", 2),
        ("\nA\t5\t2\n", 1),
        ("A\t5\t2\nA\t5\t3\n\n", 3),
    ] {
        assert_eq!(scores::printed(text.as_bytes()), "N\t12\n");
        assert_eq!(scores_with(text, 0, &[]), scores_answer(12, 0, line));
        assert_eq!(scores_with(text, 12, &[]), scores_answer(12, 0, line));
    }
}

#[test]
fn lines_of_records_and_of_another_form() {
    let read = |text: &[u8]| scores::record(text, 1);
    assert_eq!(read(b"A\t5\t2"), Some(addition(5, 2)));
    assert_eq!(read(b"R\t5\t2\t9"), Some(removal(5, 2, 9)));
    assert_eq!(read(b"R\t5\t9\t2"), Some(removal(5, 9, 2)));
    assert_eq!(read(b"A\t0\t0"), Some(addition(0, 0)));
    assert_eq!(read(b"R\t0\t0\t0"), Some(removal(0, 0, 0)));
    assert_eq!(
        read(b"A\t10\t1000000000"),
        Some(addition(10, 1_000_000_000))
    );
    let top = "4294967295";
    let highest = format!("A\t{top}\t{top}");
    assert_eq!(read(highest.as_bytes()), Some(addition(u32::MAX, u32::MAX)));
    let highest = format!("R\t{top}\t{top}\t{top}");
    let removed = removal(u32::MAX, u32::MAX, u32::MAX);
    assert_eq!(read(highest.as_bytes()), Some(removed));
    assert_eq!(highest.len() + 1, 35);
    for text in [
        "",
        "A",
        "R",
        "A\t",
        "A\t5",
        "A\t5\t",
        "A\t\t2",
        "\t5\t2",
        "5\t2",
        "A\t5\t2\t",
        "A\t5\t2\t2",
        "A\t\t5\t2",
        "R\t5\t2",
        "R\t5\t2\t",
        "R\t5\t2\t9\t",
        "R\t5\t2\t9\t9",
        "R\t5\t\t9",
        "R\t\t2\t9",
        "R\t5\t2\t\t9",
        "a\t5\t2",
        "r\t5\t2\t9",
        "B\t5\t2",
        "AA\t5\t2",
        "A\t5\t2\r",
        "A\t5\t2 ",
        " A\t5\t2",
        "A \t5\t2",
        "A\t 5\t2",
        "A\t5 \t2",
        "A 5 2",
        "A\t+5\t2",
        "A\t-5\t2",
        "A\t5\t-0",
        "A\t5\t+0",
        "A\t05\t2",
        "A\t5\t02",
        "A\t5\t00",
        "R\t5\t2\t09",
        "A\t5\t2\0",
        "A\t5\t0x2",
        "A\t5\t2.0",
        "A\t5\t1e3",
        "A\t5\t1,000",
        "A\t5\t\u{ff12}",
        "A\t5\t2\u{e9}",
        "\u{feff}A\t5\t2",
        "A\t5\t4294967296",
        "A\t4294967296\t2",
        "R\t5\t2\t4294967296",
        "A\t5\t4294967297",
        "A\t5\t9999999999",
        "A\t5\t10000000000",
        "A\t5\t18446744073709551618",
        "A\t5\t00000000002",
    ] {
        assert_eq!(read(text.as_bytes()), None, "{text}");
        if !text.is_empty() {
            prints(text, "N\t12\n");
        }
    }
    assert_eq!(read(b"A\t5\t\xb2"), None);
    assert_eq!(read(b"\xc1\t5\t2"), None);
    let long = "1".repeat(100_000);
    assert_eq!(read(format!("A\t5\t{long}").as_bytes()), None);
    let zeros = "0".repeat(100_000);
    assert_eq!(read(format!("A\t5\t{zeros}").as_bytes()), None);
}

#[test]
fn batches_of_files() {
    let text = "R\t7\t4\t9\nA\t5\t9\nA\t7\t4\nA\t10\t1\nA\t5\t2\nR\t7\t4\t5\n";
    // Each record has its line's number at its end.
    let batch = [
        [1, 5, 2, 2, 5],
        [1, 5, 9, 9, 2],
        [2, 7, 4, 9, 1],
        [1, 7, 4, 4, 3],
        [2, 7, 4, 5, 6],
        [1, 10, 1, 1, 4],
    ]
    .concat();
    assert_eq!(scores::fault(text.as_bytes()), None);
    assert_eq!(scores::batch(text.as_bytes()), batch);
    assert_eq!(scores_with(text, 30, &batch), scores_answer(0, 30, 0));
    assert_eq!(scores_with(text, 37, &batch), scores_answer(0, 30, 0));
    for room in 0..30 {
        assert_eq!(scores_with(text, room, &[]), scores_answer(10, 0, 0));
    }
    // 12 before 10, and its line alone is told.
    let wrong = text.replace("10", "010");
    for room in [0, 24, 29, 30, 37] {
        assert_eq!(scores_with(&wrong, room, &[]), scores_answer(12, 0, 4));
    }
    let swapped = text.replace("R\t7\t4\t9", "R\t7\t4\t1");
    let words = scores::batch(swapped.as_bytes());
    assert_eq!(words[10..15], [2, 7, 4, 1, 1]);
    // A range that has no position stands by its from as well.
    let words = scores::batch(b"R\t5\t9\t3\nA\t5\t4\nA\t5\t10");
    assert_eq!(words, [1, 5, 4, 4, 2, 2, 5, 9, 3, 1, 1, 5, 10, 10, 3]);
    // Many lines, sixteen to a from, the froms falling: each sixteen stay in the order of their lines.
    let mut many = String::new();
    for i in 0..4096 {
        many += &format!("R\t5\t{}\t{i}\n", 1000 - i / 16);
    }
    let words = scores::batch(many.as_bytes());
    assert_eq!(words.len(), 20_480);
    for (record, at) in words.chunks(5).zip(0..) {
        let from = 745 + at / 16;
        let to = 16 * (255 - at / 16) + at % 16;
        assert_eq!(record, [2, 5, from, to, to + 1]);
    }
}

#[test]
fn the_4097th_line() {
    let most = "A\t5\t2\n".repeat(4096);
    let fault = |text: &str| scores::fault(text.as_bytes());
    assert_eq!(fault(&most), None);
    assert_eq!(fault(&most[..most.len() - 1]), None);
    assert_eq!(scores::printed(most.as_bytes()), "D\t3\n");
    for (end, number) in [
        ("A\t5\t2\n", 13),
        ("A\t5\t2", 13),
        ("A\t5\t2\nx\n", 13),
        ("A\t5\t2\n\n", 13),
        ("A\t0\t0\n", 13),
        ("\n", 12),
        ("x", 12),
        ("x\n", 12),
        ("A\t5\t2\r\n", 12),
        ("A\t5\t4294967296\n", 12),
    ] {
        let text = most.clone() + end;
        assert_eq!(fault(&text), Some((number, 4097)), "{end}");
        assert_eq!(scores::printed(text.as_bytes()), format!("N\t{number}\n"));
        // A fault of an earlier line comes first.
        for line in [1, 2, 4096] {
            let mut earlier = text.clone().into_bytes();
            earlier[6 * (line - 1)] = b'a';
            assert_eq!(scores::fault(&earlier), Some((12, line)), "{end}");
        }
    }
    // 13 also before 10, with all words left.
    let more = most + "A\t5\t2\n";
    assert_eq!(scores_with(&more, 0, &[]), scores_answer(13, 0, 4097));
    assert_eq!(scores_with(&more, 20_480, &[]), scores_answer(13, 0, 4097));
}

/// A block of 8 words has room for six positions of one term, or for two terms with a position each.
/// On a card of zeros each block takes three steps; five of the six places can be filled.
#[test]
fn passes_of_files() {
    prints("A\t5\t2", "D\t3\n");
    prints("R\t5\t2\t9", "D\t1\n");
    // Added, then taken back: nothing remains. The other way round it stays.
    prints("A\t5\t2\nR\t5\t1\t9", "D\t1\n");
    prints("R\t5\t1\t9\nA\t5\t2", "D\t3\n");
    prints("A\t5\t2\nR\t5\t1\t9\nA\t5\t2", "D\t3\n");
    prints("R\t5\t1\t9\nA\t5\t2\nR\t5\t2\t2", "D\t1\n");
    prints("A\t5\t2\nR\t6\t1\t9", "D\t3\n");
    prints("A\t5\t2\nR\t5\t3\t9", "D\t3\n");
    // The lines of P1 in two orders, with those of P2 and P3.
    prints("A\t5\t2\nA\t5\t9\nA\t7\t4", "D\t3\n");
    prints("A\t7\t4\nA\t5\t9\nA\t5\t2", "D\t3\n");
    prints("A\t7\t11\nA\t7\t4\nA\t5\t9\nA\t5\t2", "D\t3\n");
    prints("A\t8\t1\nA\t7\t4\nA\t5\t9\nA\t5\t2", "D\t6\n");
    let one_term = |count: u32| {
        let lines: Vec<String> = (1..=count).rev().map(|i| format!("A\t9\t{i}")).collect();
        lines.join("\n")
    };
    for (count, steps) in [(1, 3), (6, 3), (7, 6), (12, 6), (13, 9), (18, 9)] {
        prints(&one_term(count), &format!("D\t{steps}\n"));
    }
    for (count, steps) in [(19, 12), (24, 12), (25, 15), (30, 15)] {
        prints(&one_term(count), &format!("D\t{steps}\n"));
    }
    prints(&one_term(31), "N\t8\n");
    prints(&one_term(4096), "N\t8\n");
    let many_terms = |count: u32| {
        let lines: Vec<String> = (1..=count).map(|i| format!("A\t{i}\t9")).collect();
        lines.join("\n")
    };
    for (count, steps) in [(2, 3), (3, 6), (4, 6), (9, 15), (10, 15)] {
        prints(&many_terms(count), &format!("D\t{steps}\n"));
    }
    prints(&many_terms(11), "N\t8\n");
    // A range with no position removes nothing.
    for line in [
        "R\t5\t9\t2",
        "R\t5\t9\t3",
        "R\t5\t3\t2",
        "R\t5\t4294967295\t1",
    ] {
        prints(line, "D\t1\n");
        prints(&format!("A\t5\t2\n{line}\nA\t5\t2"), "D\t3\n");
        prints(&format!("{line}\nA\t5\t2\nA\t5\t9"), "D\t3\n");
        prints(&format!("{}\n{line}", many_terms(10)), "D\t15\n");
        prints(&format!("{}\n{line}", many_terms(11)), "N\t8\n");
        prints(&format!("{line}\nx"), "N\t12\n");
        let many = format!("{line}\n").repeat(4096);
        prints(many.trim_end(), "D\t1\n");
        prints(&(many + "A\t5\t2"), "N\t13\n");
    }
    // The batch's judge gives 6, after all faults of lines and before 8.
    for line in [
        "A\t0\t2",
        "A\t5\t0",
        "R\t0\t2\t9",
        "R\t0\t9\t2",
        "R\t5\t0\t9",
        "R\t5\t2\t0",
        "R\t5\t9\t0",
    ] {
        prints(line, "N\t6\n");
        prints(&format!("A\t5\t2\n{line}\nA\t5\t2"), "N\t6\n");
        prints(&format!("{}\n{line}", many_terms(11)), "N\t6\n");
        prints(&format!("{line}\nx"), "N\t12\n");
        let many = format!("{line}\n").repeat(4096);
        prints(&(many + "A\t5\t2"), "N\t13\n");
    }
    assert_eq!(scores::outcome(b"A\t5\t2"), Outcome::Steps(3));
    assert_eq!(scores::outcome(b"A\t5\t0"), Outcome::Number(6));
}

/// A forecast by its figures: G, the step limit, and what comes of it.
fn finishes(blocks: u32, limit: u32) -> ForecastAnswer {
    ForecastAnswer {
        number: 0,
        blocks,
        limit,
        finishes: true,
        writes: 0,
    }
}

fn stops(blocks: u32, limit: u32, writes: u32) -> ForecastAnswer {
    ForecastAnswer {
        finishes: false,
        writes,
        ..finishes(blocks, limit)
    }
}

/// Each batch, without arrival numbers and with additions that arrive after all removals, has its
/// forecast on this card, and the second program's run agrees with it.
fn forecasts(card: &[u32], cases: &[(&[u32], ForecastAnswer)]) {
    for (plain, expected) in cases {
        let batch = batches::numbered(plain);
        assert_eq!(second::forecast(card, &batch), *expected, "{plain:?}");
        forecast_agrees(card, &batch);
    }
}

/// The second program's forecast against its own run to the end.
fn forecast_agrees(card: &[u32], batch: &[u32]) -> ForecastAnswer {
    let forecast = second::forecast(card, batch);
    assert_eq!(forecast.number, 0);
    assert_eq!(forecast.blocks, second::blocks_filled(card, batch));
    let mut card = card.to_vec();
    let mut writes = 0;
    for taken in 1..=forecast.limit {
        let answer = second::step(&mut card, batch);
        if answer.number != 0 {
            assert_eq!((answer.number, forecast.finishes), (8, false));
            assert_eq!(writes, forecast.writes);
            return forecast;
        }
        writes += u32::from(answer.write == 3);
        if answer.finished {
            assert!(forecast.finishes && taken <= forecast.limit);
            assert_eq!(writes, forecast.blocks.max(1));
            return forecast;
        }
    }
    panic!("a run beyond the limit");
}

#[test]
fn forecasts_of_p1_to_p6() {
    // P1 on zeros; nothing to do there.
    forecasts(
        &zeros(4),
        &[
            (&batches::plain(&p1_batch()), finishes(1, 3)),
            (&[], finishes(0, 1)),
            (&[2, 5, 1, 9], finishes(0, 1)),
        ],
    );
    let both = [2, 5, 1, u32::MAX, 2, 7, 1, u32::MAX];
    forecasts(
        &p1(4),
        &[
            (&[], finishes(1, 3)),
            // P2 fills the block, and a position more is one too many; P3.
            (&[1, 7, 11, 11], finishes(1, 3)),
            (&[1, 7, 11, 11, 1, 7, 12, 12], finishes(2, 6)),
            (&[1, 8, 1, 1], finishes(2, 6)),
            // P5 and P6.
            (&[2, 5, 2, 9, 1, 5, 9, 9], finishes(1, 3)),
            (&both, finishes(0, 1)),
            (&[3, 0, 2, 9], finishes(0, 1)),
            // Blocks 5 2 2 9 7 1 4 and then two terms each: three places can be filled.
            (
                &[1, 8, 1, 1, 1, 9, 1, 1, 1, 10, 1, 1, 1, 11, 1, 1],
                finishes(3, 9),
            ),
            (
                &[
                    1, 8, 1, 1, 1, 9, 1, 1, 1, 10, 1, 1, 1, 11, 1, 1, 1, 12, 1, 1,
                ],
                stops(4, 12, 3),
            ),
        ],
    );
    // P3 after its first configuration write.
    let mut card = p1(4);
    assert_eq!(cards::run(&mut card, &[1, 8, 1, 1, 1], 3), 0);
    assert_eq!(card[..8], [1, 8, 4, 1, 0, 1, 7, 4]);
    forecasts(&card, &[(&[1, 8, 1, 1], finishes(1, 3))]);
    // P4, from the start and where it stopped.
    forecasts(
        &p1(2),
        &[(&[1, 8, 1, 1], stops(2, 6, 1)), (&[], finishes(1, 3))],
    );
    let mut card = p1(2);
    assert_eq!(cards::run(&mut card, &[1, 8, 1, 1, 1], 4), 8);
    assert_eq!(card[..8], [1, 8, 2, 1, 0, 1, 7, 4]);
    forecasts(
        &card,
        &[
            (&[1, 8, 1, 1], stops(1, 3, 0)),
            (&[], finishes(0, 1)),
            // Up to the boundary nothing is done.
            (&[1, 5, 1, 1, 1, 7, 4, 4], finishes(0, 1)),
            (&both, finishes(0, 1)),
        ],
    );
    // P3 with N 3: both blocks have a place.
    forecasts(&p1(3), &[(&[1, 8, 1, 1], finishes(2, 6))]);
}

/// Three blocks, each exactly full of one term: (1,10) to (1,60), (2,1) to (2,6), (3,1) to (3,6).
fn three_full_blocks(n: u32) -> Vec<u32> {
    let blocks = [
        (1..=6).map(|i| (1, i * 10)).collect(),
        (1..=6).map(|i| (2, i)).collect(),
        (1..=6).map(|i| (3, i)).collect(),
    ];
    let memory = vec![9; cards::right_length(8, n)];
    let card = cards::laid_out(memory, 8, n, 2, &blocks, &[]);
    assert_eq!(second::judge(&card), 0);
    card
}

/// One place is free. A due block that ends below an old block's last pair leaves that block its
/// place, also where the batch removes this pair.
#[test]
fn forecasts_with_one_place_free() {
    forecasts(
        &three_full_blocks(4),
        &[
            // Each due block is an old block and frees it.
            (&[], finishes(3, 9)),
            // (1,10) to (1,50): the first block still holds its place for (1,60).
            (&[2, 1, 60, 60], stops(3, 9, 0)),
            (&[3, 0, 60, 60], stops(3, 9, 0)),
            // The first block is freed, then the second holds its place for (2,6).
            (&[2, 2, 6, 6], stops(3, 9, 1)),
            (&[3, 0, 6, 6], stops(3, 9, 1)),
            // At the end all are freed.
            (&[2, 3, 6, 6], finishes(3, 9)),
            // What is removed is not the last pair.
            (&[2, 1, 10, 10], finishes(3, 9)),
            // 2 1 6 3 3 1 2 3, then 3 3 4 5 6.
            (&[2, 2, 1, 5], finishes(3, 9)),
            // One block wholly: the next due block frees two.
            (&[2, 1, 1, 60], finishes(2, 6)),
            (&[2, 2, 1, 6], finishes(2, 6)),
            // (1,10) and (1,20) leave room for (2,1), above (1,60).
            (&[2, 1, 30, 60], finishes(3, 9)),
            // The last pair goes and another comes, above it or below.
            (&[2, 1, 60, 60, 1, 1, 70, 70], finishes(3, 9)),
            (&[1, 1, 55, 55, 2, 1, 60, 60], stops(3, 9, 0)),
            (&[2, 1, 60, 60, 1, 1, 60, 60], finishes(3, 9)),
            (&[3, 0, 60, 60, 1, 1, 60, 60], finishes(3, 9)),
            // One pair more: 1 7 10 .. 60 15 does not fit. Then 1 1 60 2 3 1 2 3, then
            // 2 3 4 5 6 3 1 1, then 3 5 2 3 4 5 6.
            (&[1, 1, 15, 15], stops(4, 12, 0)),
            // 1 6 10 .. 60 frees its block; 1 1 70 2 3 1 2 3 does not free (2,6).
            (&[1, 1, 70, 70], stops(4, 12, 1)),
            // The fourth block has no place.
            (&[1, 4, 1, 1], stops(4, 12, 3)),
            (&[2, 3, 5, 6, 1, 4, 1, 1], stops(4, 12, 2)),
            (&[2, 3, 4, 6, 1, 4, 1, 1], finishes(3, 9)),
            // A range with no position, and a pair that is there.
            (&[2, 1, 60, 50], finishes(3, 9)),
            (&[1, 1, 60, 60, 1, 1, 60, 60], finishes(3, 9)),
        ],
    );
}

/// The same blocks with two places free.
#[test]
fn forecasts_with_two_places_free() {
    forecasts(
        &three_full_blocks(5),
        &[
            (&[], finishes(3, 9)),
            (&[2, 1, 60, 60], finishes(3, 9)),
            (&[3, 0, 60, 60], finishes(3, 9)),
            (&[2, 1, 60, 60, 2, 2, 6, 6], finishes(3, 9)),
            (&[1, 1, 15, 15], finishes(4, 12)),
            // Eight of term 1: 1 6 1 2 10 .. 40, then 1 2 50 60 2 2 1 2, 2 4 3 .. 6, 3 6 1 .. 6.
            (&[1, 1, 1, 1, 1, 1, 2, 2], finishes(4, 12)),
            (&[1, 1, 70, 70], finishes(4, 12)),
            (&[1, 4, 1, 1], finishes(4, 12)),
            // 3 5 2 .. 6 is the fourth block, (4,1) the fifth.
            (&[1, 1, 15, 15, 1, 4, 1, 1], stops(5, 15, 4)),
            // Nine below (1,10): 1 6 1 .. 6 and 1 6 7 8 9 10 20 30 free nothing. Then
            // 1 3 40 50 60 2 1 1, 2 5 2 .. 6 and 3 6 1 .. 6.
            (
                &(1..=9).flat_map(|i| [1, 1, i, i]).collect::<Vec<u32>>(),
                stops(5, 15, 1),
            ),
        ],
    );
}

/// Places 3 and 0 are old, 1 is new, the boundary is (5,4): what remains is of (5,9), (7,4), (7,5),
/// (9,1).
#[test]
fn forecasts_of_an_open_pass() {
    let top = u32::MAX;
    forecasts(
        &judged_example(),
        &[
            // 5 1 9 7 2 4 5 frees the first old block; then 9 1 1.
            (&[], finishes(2, 6)),
            // Up to the boundary nothing is done.
            (&[1, 5, 1, 1, 1, 5, 4, 4], finishes(2, 6)),
            (&[2, 3, 1, top, 2, 5, 1, 4], finishes(2, 6)),
            // 5 2 5 9 7 2 4 5 is full.
            (&[1, 5, 5, 5], finishes(2, 6)),
            // 5 3 5 6 9 7 1 4 frees the first old block, whose last pair it ends with.
            (&[1, 5, 5, 5, 1, 5, 6, 6], finishes(2, 6)),
            // 5 4 5 6 7 9 does not.
            (&[1, 5, 5, 5, 1, 5, 6, 6, 1, 5, 7, 7], stops(2, 6, 0)),
            // The same with (7,4) removed: it still stands in the old block.
            (
                &[1, 5, 5, 5, 1, 5, 6, 6, 1, 5, 7, 7, 2, 7, 4, 4],
                stops(2, 6, 0),
            ),
            // 5 1 9 7 1 5 ends above (7,4).
            (&[2, 7, 4, 4], finishes(2, 6)),
            // 5 1 9 9 1 1.
            (&[2, 7, 4, 5], finishes(1, 3)),
            (&[2, 9, 1, 1], finishes(1, 3)),
            (&[3, 0, 1, 1, 3, 0, 9, 9], finishes(1, 3)),
            (&[3, 0, 1, top], finishes(0, 1)),
            (&[3, 0, 1, top, 1, 5, 4, 4], finishes(0, 1)),
            (&[3, 0, 1, top, 1, 5, 9, 9], finishes(1, 3)),
            // 5 1 9 7 2 4 5, then 9 6 1 .. 6, then 9 1 7: with the new block one too many.
            (
                &(2..=7).flat_map(|i| [1, 9, i, i]).collect::<Vec<u32>>(),
                stops(3, 9, 2),
            ),
            (
                &(2..=6).flat_map(|i| [1, 9, i, i]).collect::<Vec<u32>>(),
                finishes(2, 6),
            ),
        ],
    );
    // No old block is left, and three new ones: a due block has no place.
    let new = [vec![(1, 1)], vec![(2, 1)], vec![(3, 1)]];
    let card = cards::laid_out(vec![9; 48], 8, 4, 1, &[], &new);
    forecasts(
        &card,
        &[
            (&[], finishes(0, 1)),
            (&[1, 2, 9, 9, 1, 3, 1, 1], finishes(0, 1)),
            (&[1, 4, 1, 1], stops(1, 3, 0)),
            (&[1, 3, 2, 2, 2, 3, 2, 2], stops(1, 3, 0)),
            (&[2, 3, 1, 9], finishes(0, 1)),
        ],
    );
}

/// Old blocks of one pair each: a due block may free two of them, one or none.
#[test]
fn forecasts_of_several_places_freed() {
    let old = [vec![(2, 1)], vec![(3, 1)], vec![(4, 1)]];
    let card = cards::laid_out(vec![9; 48], 8, 4, 3, &old, &[]);
    let term_1 = |count: u32| -> Vec<u32> { (1..=count).flat_map(|i| [1, 1, i, i]).collect() };
    forecasts(
        &card,
        &[
            (&[], finishes(2, 6)),
            // 1 1 1 2 1 1, then 3 1 1 4 1 1.
            (&term_1(1), finishes(2, 6)),
            // 1 3 1 2 3 2 1 1.
            (&term_1(3), finishes(2, 6)),
            // 1 4 1 2 3 4 frees nothing; two blocks more.
            (&term_1(4), stops(3, 9, 0)),
            // 1 6 1 .. 6, then 1 1 7 2 1 1, then 3 1 1 4 1 1.
            (&term_1(7), stops(3, 9, 0)),
            (&[1, 2, 2, 2, 1, 2, 3, 3], finishes(2, 6)),
            // 2 4 1 2 3 4 frees one; then 3 1 1 4 1 1.
            (&[1, 2, 2, 2, 1, 2, 3, 3, 1, 2, 4, 4], finishes(2, 6)),
            (&[2, 3, 1, 1], finishes(1, 3)),
        ],
    );
}

/// A term that goes on in the next block costs three words there again.
#[test]
fn forecasts_by_how_many_fit() {
    let fresh = |b: u32, n: u32| {
        let mut card = vec![5; cards::right_length(b, n)];
        assert_eq!(second::format(&mut card, b, n), 0);
        card
    };
    let one_term = |count: u32| -> Vec<u32> { (1..=count).flat_map(|i| [1, 6, i, i]).collect() };
    let many_terms = |count: u32| -> Vec<u32> { (1..=count).flat_map(|i| [1, i, 6, 6]).collect() };
    forecasts(
        &fresh(8, 3),
        &[
            (&one_term(6), finishes(1, 3)),
            (&one_term(7), finishes(2, 6)),
            (&one_term(12), finishes(2, 6)),
            (&one_term(13), stops(3, 9, 2)),
            (&one_term(18), stops(3, 9, 2)),
            (&one_term(19), stops(4, 12, 2)),
            (&many_terms(2), finishes(1, 3)),
            (&many_terms(3), finishes(2, 6)),
            (&many_terms(4), finishes(2, 6)),
            (&many_terms(5), stops(3, 9, 2)),
            // 6 1 1 .. and the same pair again and again.
            (&[1, 6, 1, 1].repeat(4096), finishes(1, 3)),
        ],
    );
    forecasts(
        &fresh(9, 3),
        &[
            (&one_term(14), finishes(2, 6)),
            (&one_term(15), stops(3, 9, 2)),
            (&many_terms(6), finishes(2, 6)),
            (&many_terms(7), stops(3, 9, 2)),
        ],
    );
    forecasts(
        &fresh(1024, 5),
        &[
            (&one_term(1022), finishes(1, 3)),
            (&one_term(1023), finishes(2, 6)),
            (&one_term(4088), finishes(4, 12)),
            (&one_term(4089), stops(5, 15, 4)),
            (&many_terms(1364), finishes(4, 12)),
            (&many_terms(1365), stops(5, 15, 4)),
            (&many_terms(4096), stops(13, 39, 4)),
        ],
    );
    forecasts(&fresh(1024, 14), &[(&many_terms(4096), finishes(13, 39))]);
    let most = fresh(8, 1024);
    for (count, expected) in [
        (2046, finishes(1023, 3069)),
        (2047, stops(1024, 3072, 1023)),
        (4096, stops(2048, 6144, 1023)),
    ] {
        let batch = batches::numbered(&many_terms(count));
        assert_eq!(second::forecast(&most, &batch), expected);
    }
}

/// 1 to 4 for the card, then 6, then 14, then 7; 8 is none of them.
#[test]
fn numbers_of_the_forecast() {
    let card = p1(2);
    let good: &[u32] = &[1, 8, 1, 1, 1];
    let form: &[u32] = &[1, 8, 1, 1, 1, 1, 7, 0, 0, 1];
    let arrival: &[u32] = &[1, 8, 1, 1, 1, 1, 7, 1, 1, 1];
    let order: &[u32] = &[1, 8, 1, 1, 1, 1, 7, 1, 1, 2];
    assert_eq!(second::forecast(&card, good), stops(2, 6, 1));
    assert_eq!(second::forecast(&card, form), no_forecast(6));
    assert_eq!(second::forecast(&card, arrival), no_forecast(14));
    assert_eq!(second::forecast(&card, order), no_forecast(7));
    for batch in [good, form, arrival, order, &[1]] {
        for (number, word, value) in [(1, 1, 9), (2, 0, 2), (3, 2, 1), (3, 6, 1), (4, 8, 6)] {
            let mut wrong = card.clone();
            wrong[word] = value;
            assert_eq!(second::forecast(&wrong, batch), no_forecast(number));
        }
        for length in 0..card.len() {
            assert_eq!(second::forecast(&card[..length], batch), no_forecast(1));
        }
    }
    for (wrong, number) in WRONG_ANNULMENTS.iter().chain(&WRONG_EMPTY_RANGES) {
        let wrong = batches::numbered(wrong);
        assert_eq!(second::forecast(&card, &wrong), no_forecast(*number));
    }
}

#[test]
fn forecasts_against_the_second_programs_runs() {
    let mut checked = 0;
    let mut stopped = 0;
    let mut stopped_later = 0;
    for seed in 0..8000 {
        let mut random = Random::new(170_000 + seed);
        let b = random.pick(&[8, 8, 9, 10, 12, 16, 20]);
        let n = random.pick(&[2, 3, 4, 5, 6, 8, 11]);
        let card = cards::any(&mut random, b, n);
        let universe = Universe::random(&mut random);
        for _ in 0..3 {
            let mixture = Mixture::random(&mut random);
            let most = random.pick(&[2, 10, 60]);
            let batch = if random.chance(1, 2) {
                batches::good(&mut random, &universe, mixture, most)
            } else {
                batches::near(&mut random, &card, mixture, most)
            };
            let forecast = forecast_agrees(&card, &batch);
            checked += 1;
            stopped += u32::from(!forecast.finishes);
            stopped_later += u32::from(forecast.writes > 0);
        }
        assert!(forecast_agrees(&card, &[]).finishes);
        let removals = removals_of(&mut random, &card);
        let free = Configuration::read(&card).free_places().len();
        assert!(forecast_agrees(&card, &removals).finishes || free == 1);
        checked += 2;
    }
    println!(
        "forecasts_against_the_second_programs_runs: {checked} comparisons, {stopped} stopped, \
         {stopped_later} of them after a write"
    );
    assert!(stopped > 1_000 && stopped_later > 300);
}
