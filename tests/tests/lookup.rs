// The exported lookup compared with the second program's, and whole lists of calls on the library
// beside the history.

use gameindex_tests::cards;
use gameindex_tests::compare::{self, Question, Tally};
use gameindex_tests::ffi::{self, Library};
use gameindex_tests::lists::{Figures, List};
use gameindex_tests::questions::{self, Spread};
use gameindex_tests::random::Random;
use gameindex_tests::second::block;
use gameindex_tests::second::{self, Configuration, LookupAnswer, Pair};

const TOP: u32 = u32::MAX;

/// P7 and P8 by the paper's own words, with the refusals beside them.
#[test]
fn lookup_on_the_papers_cases() {
    let mut comparisons = 0;
    for leftovers in [0, 5, TOP] {
        let mut card = vec![leftovers; 48];
        assert_eq!(ffi::format(&mut card, 8, 4), 0);
        let batch = [1, 5, 2, 2, 1, 1, 5, 9, 9, 2, 1, 7, 4, 4, 3];
        let mut ask = |card: &[u32], question: Question, room, reply, positions: &[u32]| {
            let (term, from, to) = question;
            let mut answer = vec![77; room];
            let (number, count, blocks) = reply;
            let expected = LookupAnswer {
                number,
                count,
                blocks,
            };
            let given = ffi::lookup(card, term, from, to, &mut answer);
            assert_eq!(given, expected, "{question:?}, {room} words");
            assert_eq!(answer[..positions.len()], *positions);
            assert!(answer[positions.len()..].iter().all(|&word| word == 77));
            comparisons += 1;
            if (from, to) == (1, TOP) {
                let mut whole = vec![77; room];
                let given = ffi::lookup_all(card, term, &mut whole);
                assert_eq!((given, whole), (expected, answer), "all of term {term}");
                comparisons += 1;
            }
        };
        ask(&card, (5, 1, 9), 2, (0, 0, 0), &[]);
        while !ffi::step(&mut card, &batch).finished {}
        ask(&card, (5, 1, 9), 4, (0, 2, 1), &[2, 9]);
        ask(&card, (5, 1, 9), 2, (0, 2, 1), &[2, 9]);
        ask(&card, (5, 1, 9), 1, (10, 0, 0), &[]);
        ask(&card, (5, 3, 8), 0, (0, 0, 1), &[]);
        ask(&card, (4, 1, 9), 4, (0, 0, 0), &[]);
        ask(&card, (6, 1, 9), 4, (0, 0, 1), &[]);
        ask(&card, (5, 2, 2), 1, (0, 1, 1), &[2]);
        ask(&card, (7, 1, TOP), 1, (0, 1, 1), &[4]);
        ask(&card, (5, 1, TOP), 3, (0, 2, 1), &[2, 9]);
        ask(&card, (5, 1, TOP), 1, (10, 0, 0), &[]);
        ask(&card, (0, 1, TOP), 2, (9, 0, 0), &[]);
        ask(&card, (5, 1, 1), 1, (0, 0, 0), &[]);
        for question in [
            (0, 1, 9),
            (5, 0, 9),
            (5, 9, 2),
            (5, 0, 0),
            (0, 0, 0),
            (5, 1, 0),
        ] {
            ask(&card, question, 0, (9, 0, 0), &[]);
            ask(&card, question, 4, (9, 0, 0), &[]);
            let mut unsound = card.clone();
            unsound[0] = 2;
            ask(&unsound, question, 0, (2, 0, 0), &[]);
            ask(&card[..47], question, 4, (1, 0, 0), &[]);
        }
    }
    println!("lookup_on_the_papers_cases: {comparisons} comparisons");
}

/// How the answers were spread.
#[derive(Debug, Default)]
struct Seen {
    spread: Spread,
    none_found: u64,
    two_above_the_holders: u64,
    most_blocks: u32,
}

impl Seen {
    fn note(&mut self, card: &[u32], question: Question, reply: &LookupAnswer) {
        if reply.number != 0 {
            return;
        }
        let holders = self.spread.note(card, question);
        self.none_found += u64::from(reply.count == 0);
        self.most_blocks = self.most_blocks.max(reply.blocks);
        self.two_above_the_holders += u64::from(reply.blocks == holders + 2);
        assert!(holders <= reply.blocks && reply.blocks <= holders + 2);
    }

    fn expect(&self, least: u64) {
        self.spread.expect(least);
        for count in [self.none_found, self.two_above_the_holders] {
            assert!(count >= least, "too few: {self:?}");
        }
    }
}

/// What stands around the answer words of a lookup of all positions.
const AROUND: [u32; 3] = [0x5EED_0001, 0x5EED_0002, 0x5EED_0003];

/// The lookup of all positions of a term gives what the second program finds from the lowest
/// position to the highest, in so many answer words; it leaves the words around them and the card.
fn lookup_all(tally: &mut Tally, random: &mut Random, card: &[u32], term: u32, room: usize) {
    let answer = random.words(room);
    let mut expected_words = answer.clone();
    let expected = second::lookup(card, term, 1, TOP, &mut expected_words);
    let before = card.to_vec();
    let mut memory = [&AROUND[..], &answer, &AROUND].concat();
    let reply = ffi::lookup_all(card, term, &mut memory[3..3 + room]);
    let about = || format!("all of term {term}, {room} answer words, card {before:?}");
    assert_eq!(reply, expected, "{}", about());
    if reply.number != 0 {
        assert_eq!((reply.count, reply.blocks), (0, 0), "{}", about());
        assert!(memory[3..3 + room] == answer, "{}", about());
    }
    assert!(memory[3..3 + room] == expected_words, "{}", about());
    let around = memory[..3] == AROUND && memory[3 + room..] == AROUND;
    assert!(around && before == card, "{}", about());
    tally.note(reply.number);
}

/// The same of every term of the questions with just enough answer words, one too few, some too
/// few and some more.
fn lookups_all(tally: &mut Tally, random: &mut Random, card: &[u32], questions: &[Question]) {
    let mut terms: Vec<u32> = questions.iter().map(|question| question.0).collect();
    terms.sort_unstable();
    terms.dedup();
    for term in terms {
        let found = second::PostingReader::open(card, term, 1, TOP).count();
        let more = found + 1 + random.below(6);
        for room in [found, more] {
            lookup_all(tally, random, card, term, room);
        }
        if found > 0 {
            for room in [found - 1, random.below(found)] {
                lookup_all(tally, random, card, term, room);
            }
        }
    }
}

/// Every question on cards over a small universe, at every moment of their passes.
#[test]
fn lookup_of_every_question_on_small_cards() {
    let mut random = Random::new(41);
    let mut tally = Tally::new();
    let mut whole = Tally::new();
    let mut seen = Seen::default();
    let mut cards_asked = 0;
    questions::on_small_cards(&mut random, 36, |random, card, questions| {
        cards_asked += 1;
        for &question in questions {
            let reply = compare::lookups(&mut tally, random, card, question, &String::new);
            seen.note(card, question, &reply);
        }
        lookups_all(&mut whole, random, card, questions);
    });
    tally.report("lookup_of_every_question_on_small_cards");
    whole.report("lookup_of_every_question_on_small_cards, all of a term");
    println!("lookup_of_every_question_on_small_cards: {cards_asked} cards, {seen:?}");
    tally.expect(&[0, 9, 10], 10_000);
    whole.expect(&[0, 9, 10], 300);
    seen.expect(50);
}

/// Terms over many blocks laid out by hand; every question.
#[test]
fn lookup_across_many_blocks() {
    let mut random = Random::new(42);
    let mut tally = Tally::new();
    let mut whole = Tally::new();
    let mut seen = Seen::default();
    questions::across_many_blocks(&mut random, 36, |random, card, questions| {
        lookups_all(&mut whole, random, card, questions);
        for &question in questions {
            // Of those that are refused a few will do.
            if question.1 > question.2 && random.chance(7, 8) {
                continue;
            }
            let reply = compare::lookups(&mut tally, random, card, question, &String::new);
            seen.note(card, question, &reply);
        }
    });
    tally.report("lookup_across_many_blocks");
    whole.report("lookup_across_many_blocks, all of a term");
    println!("lookup_across_many_blocks: {seen:?}");
    tally.expect(&[0, 9, 10], 10_000);
    whole.expect(&[0, 10], 50);
    seen.expect(500);
}

/// Random cards of all shapes, reached by steps or not, with questions at their pairs.
#[test]
fn lookup_on_cards_of_many_shapes() {
    let mut random = Random::new(43);
    let mut tally = Tally::new();
    let mut whole = Tally::new();
    let mut seen = Seen::default();
    for round in 0..1500 {
        let (b, n) = match round % 4 {
            0 => (8, random.within(2, 6)),
            1 => (random.within(8, 16), random.within(2, 12)),
            2 => (random.within(8, 40), random.within(2, 16)),
            _ => (random.pick(&[8, 9, 11, 100]), random.pick(&[2, 3, 16])),
        };
        let card = if round % 3 == 0 {
            cards::stepped(&mut random, b, n)
        } else {
            cards::loose(&mut random, b, n)
        };
        let known = questions::known_pairs(&card);
        for _ in 0..24 {
            let question = questions::near(&mut random, &known);
            let about = || format!("B {b}, N {n}");
            let reply = compare::lookups(&mut tally, &mut random, &card, question, &about);
            seen.note(&card, question, &reply);
            lookups_all(&mut whole, &mut random, &card, &[question]);
        }
    }
    tally.report("lookup_on_cards_of_many_shapes");
    whole.report("lookup_on_cards_of_many_shapes, all of a term");
    println!("lookup_on_cards_of_many_shapes: {seen:?}");
    tally.expect(&[0, 10], 10_000);
    tally.expect(&[9], 1_000);
    whole.expect(&[0, 10], 10_000);
    whole.expect(&[9], 100);
    seen.expect(100);
}

/// Cards damaged word by word: 1 to 4 before 9 and 10, in that order; sound ones answer.
#[test]
fn lookup_on_damaged_cards() {
    let mut random = Random::new(44);
    let mut tally = Tally::new();
    let mut whole = Tally::new();
    for round in 0..260 {
        let b = random.pick(&[8, 8, 9, 10]);
        let n = random.within(2, 5);
        let mut card = if round % 2 == 0 {
            cards::stepped(&mut random, b, n)
        } else {
            cards::loose(&mut random, b, n)
        };
        let known = questions::known_pairs(&card);
        for word in 0..card.len() {
            let kept = card[word];
            let neighbour = card[(word + 1) % card.len()];
            let values = [
                0,
                1,
                kept.wrapping_add(1),
                kept.wrapping_sub(1),
                random.pick(&[TOP, n, 2, neighbour]),
            ];
            for value in values {
                card[word] = value;
                let question = match random.below(3) {
                    0 => random.pick(&[(0, 1, 1), (1, 0, 1), (1, 2, 1), (0, 0, 0), (TOP, 0, TOP)]),
                    _ => questions::near(&mut random, &known),
                };
                let room = random.pick(&[0, 0, 1, 2, 40]);
                let answer = random.words(room);
                let about = || format!("word {word} was {kept}, now {value}");
                compare::lookup(&mut tally, &card, question, &answer, &about);
                lookup_all(&mut whole, &mut random, &card, question.0, room);
            }
            card[word] = kept;
        }
        if round % 8 == 0 {
            let mut longer = card.clone();
            longer.extend_from_slice(&card);
            for length in 0..=longer.len() {
                let question = questions::near(&mut random, &known);
                let part = &longer[..length];
                let answer = random.words(length % 9);
                compare::lookup(&mut tally, part, question, &answer, &String::new);
                lookup_all(&mut whole, &mut random, part, question.0, length % 9);
            }
        }
    }
    tally.report("lookup_on_damaged_cards");
    whole.report("lookup_on_damaged_cards, all of a term");
    tally.expect(&[0, 4, 9], 5_000);
    tally.expect(&[1, 2, 3, 10], 500);
    whole.expect(&[0, 4], 5_000);
    whole.expect(&[1, 2, 3, 9, 10], 500);
}

/// Large cards with old and new segments anywhere in the circle.
#[test]
fn lookup_on_large_cards() {
    let mut random = Random::new(45);
    let mut tally = Tally::new();
    let mut whole = Tally::new();
    let mut seen = Seen::default();
    for (b, n, questions) in [
        (8, 1024, 60),
        (9, 1023, 60),
        (1024, 2, 60),
        (1023, 3, 60),
        (1024, 8, 60),
        (64, 64, 120),
        (300, 20, 120),
        (16, 500, 60),
        (1024, 1024, 6),
    ] {
        for one_term in [false, true] {
            let live = n as usize - 1;
            let new_count = random.below(live + 1);
            let mut cursor = (0, 0);
            let (new, old) = if one_term {
                cards::blocks_of_one_term(9, b, new_count, live)
            } else {
                let new = cards::segment(&mut random, b, new_count, &mut cursor, false);
                let old = cards::segment(&mut random, b, live - new.len(), &mut cursor, false);
                (new, old)
            };
            let start = random.below(n as usize) as u32;
            let memory = random.words(cards::right_length(b, n));
            let card = cards::laid_out(memory, b, n, start, &old, &new);
            assert_eq!(second::judge(&card), 0);
            let known = questions::known_pairs(&card);
            let few: Vec<Pair> = (0..200).map(|_| random.pick(&known)).collect();
            for _ in 0..questions {
                let question = questions::near(&mut random, &few);
                let about = || format!("B {b}, N {n}");
                if n == 1024 && b == 1024 {
                    let (term, from, to) = question;
                    let found = second::PostingReader::open(&card, term, from, to).count();
                    let room = (found + random.below(3)).saturating_sub(1);
                    let words = random.words(room);
                    compare::lookup(&mut tally, &card, question, &words, &about);
                } else {
                    let reply = compare::lookups(&mut tally, &mut random, &card, question, &about);
                    seen.note(&card, question, &reply);
                }
            }
            if one_term {
                // All of the term's positions, over every block.
                let all = known.len() + 1;
                let mut questions: Vec<Question> = vec![(9, 1, TOP)];
                if b < 1024 || n < 1024 {
                    questions.extend([(9, 3, TOP), (9, 4, TOP - 1), (8, 1, TOP), (10, 1, TOP)]);
                }
                lookups_all(&mut whole, &mut random, &card, &questions);
                for question in questions {
                    let words = random.words(all);
                    let reply = compare::lookup(&mut tally, &card, question, &words, &String::new);
                    assert_eq!(reply.number, 0);
                }
            }
        }
    }
    tally.report("lookup_on_large_cards");
    whole.report("lookup_on_large_cards, all of a term");
    println!("lookup_on_large_cards: {seen:?}");
    tally.expect(&[0, 10], 500);
    whole.expect(&[0, 10], 10);
    assert!(seen.spread.from_both_segments > 20 && seen.spread.several_blocks > 100);
}

/// Free places that hold well-formed blocks of an earlier event, mapped and all: none is found.
#[test]
fn lookup_beside_leftovers() {
    let mut random = Random::new(46);
    let mut tally = Tally::new();
    let mut leaks_possible = 0u64;
    for _ in 0..1200 {
        let b = random.pick(&[8, 9, 12]);
        let n = random.within(2, 7);
        let mut card = cards::stepped(&mut random, b, n);
        let configuration = Configuration::read(&card);
        let mut known = questions::known_pairs(&card);
        for place in configuration.free_places() {
            let mut pairs: Vec<Pair> = (0..4)
                .map(|_| {
                    let (term, position) = random.pick(&known);
                    (term, position.saturating_add(random.below(3) as u32))
                })
                .collect();
            pairs.sort_unstable();
            pairs.dedup();
            let pairs = block::longest_beginning(pairs.into_iter(), b as usize);
            cards::put_block(&mut card, &configuration, place, &pairs);
            known.extend(pairs);
        }
        let live = second::live_pairs(&card);
        for _ in 0..20 {
            let question = questions::near(&mut random, &known);
            let (term, from, to) = question;
            let inside = |pair: &&Pair| pair.0 == term && from <= pair.1 && pair.1 <= to;
            let mut wanted = known.iter().filter(inside);
            leaks_possible += u64::from(wanted.any(|pair| !live.contains(pair)));
            compare::lookups(&mut tally, &mut random, &card, question, &String::new);
        }
    }
    tally.report("lookup_beside_leftovers");
    println!("lookup_beside_leftovers: {leaks_possible} questions over pairs that are not live");
    tally.expect(&[0, 10], 5_000);
    assert!(leaks_possible > 2_000);
}

/// Says which list failed.
struct Named(u64);

impl Drop for Named {
    fn drop(&mut self) {
        if std::thread::panicking() {
            eprintln!("the list of seed {}", self.0);
        }
    }
}

/// Demand 3's lists on the library beside the history: steps, lookups, cuts, restarts, refused
/// calls, all checked after every call.
#[test]
fn lists_on_the_library_against_the_history() {
    let mut figures = Figures::default();
    for seed in 0..500 {
        let _named = Named(seed);
        let mut random = Random::new(2_000_000 + seed);
        let (b, n) = if seed % 10 == 0 {
            (random.within(8, 64), random.within(2, 24))
        } else {
            let b = random.pick(&[8, 8, 8, 9, 10, 11, 13, 16, 24]);
            (b, random.pick(&[2, 3, 3, 4, 4, 5, 6, 7, 9, 12]))
        };
        let mut list = List::start(&Library, &mut random, b, n);
        for _ in 0..200 {
            list.call(&mut random, &mut figures);
        }
    }
    println!(
        "lists_on_the_library_against_the_history: {} comparisons, {figures:?}",
        figures.calls
    );
    assert!(figures.writes[1..].iter().all(|&count| count > 1000));
    assert!(figures.cuts[1..].iter().all(|&count| count > 1000));
    assert!(figures.finished > 1000 && figures.stopped_by_8 > 1000 && figures.landed > 500);
    assert!(figures.wrapped > 1000 && figures.postings > 1000 && figures.restarts > 1000);
    assert!(figures.annulling[1..].iter().all(|&count| count > 1000));
    let empty = &figures.with_empty_ranges[1..];
    assert!(empty.iter().all(|&count| count > 1000));
}
