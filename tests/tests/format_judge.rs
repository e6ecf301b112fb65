// The exported formatter and judge compared with the second program's.

use gameindex_tests::batches::{self, Mixture, Universe};
use gameindex_tests::cards;
use gameindex_tests::compare::{self, Tally};
use gameindex_tests::random::Random;
use gameindex_tests::second::block;
use gameindex_tests::second::{self, Configuration, Pair};

const TOP: u32 = u32::MAX;

/// The lengths worth trying for a card of B and N: tiny ones, the right one and its neighbours, and
/// what a formula with a slip in it would give.
fn lengths(b: u32, n: u32) -> Vec<usize> {
    let most = cards::right_length(1024, 1024) as u128 + 3;
    let (wide_b, wide_n) = (u128::from(b), u128::from(n));
    let right = second::card_words(b, n);
    let slips = [
        right,
        right - 8,
        8 + wide_n * wide_b,
        8 + 2 * wide_b + wide_n * wide_b,
        8 + wide_n + wide_n * wide_b,
        8 + 4 * wide_n + wide_n * wide_b,
        8 + 2 * wide_n,
        u128::from(right as u32),
        u128::from(right as u16),
    ];
    let mut lengths: Vec<usize> = (0..=18).collect();
    for slip in slips {
        for length in slip.saturating_sub(2)..=slip + 2 {
            let small = length < 20_000;
            if small || (length <= most && length.abs_diff(right) <= 1) {
                lengths.push(length as usize);
            }
        }
    }
    lengths.sort_unstable();
    lengths.dedup();
    lengths
}

#[test]
fn format_at_the_limits() {
    let mut random = Random::new(1);
    let mut tally = Tally::new();
    let all_b = [
        0,
        1,
        2,
        6,
        7,
        8,
        9,
        10,
        255,
        256,
        1023,
        1024,
        1025,
        1026,
        65_535,
        65_536,
        65_536 + 8,
        1 << 31,
        (1 << 31) + 8,
        TOP - 1,
        TOP,
    ];
    let all_n = [
        0,
        1,
        2,
        3,
        4,
        5,
        1022,
        1023,
        1024,
        1025,
        1026,
        65_536,
        65_536 + 2,
        1 << 31,
        (1 << 31) + 2,
        TOP - 1,
        TOP,
    ];
    for b in all_b {
        for n in all_n {
            for length in lengths(b, n) {
                let card = random.words(length);
                compare::format(&mut tally, &mut random, &card, b, n);
            }
        }
    }
    tally.report("format_at_the_limits");
    tally.expect(&[0], 49);
    tally.expect(&[1, 5], 1000);
}

#[test]
fn format_of_every_small_shape() {
    let mut random = Random::new(2);
    let mut tally = Tally::new();
    for b in 0..=40 {
        for n in 0..=24 {
            for length in lengths(b, n) {
                let card = random.words(length);
                compare::format(&mut tally, &mut random, &card, b, n);
            }
        }
    }
    // Any length against any shape that it is near to.
    for b in 7..=11 {
        for n in 1..=6 {
            for length in 0..=100 {
                let card = random.words(length);
                compare::format(&mut tally, &mut random, &card, b, n);
            }
        }
    }
    tally.report("format_of_every_small_shape");
    tally.expect(&[0], 700);
    tally.expect(&[1, 5], 5000);
}

#[test]
fn format_of_random_shapes() {
    let mut random = Random::new(3);
    let mut tally = Tally::new();
    for _ in 0..6000 {
        let top_b = random_top(&mut random, 8);
        let b = random.within(8, top_b);
        let top_n = random_top(&mut random, 2);
        let n = random.within(2, top_n);
        let right = cards::right_length(b, n);
        if right > 60_000 {
            continue;
        }
        for length in [right, right, right - 1, right + 1] {
            let card = match random.below(4) {
                0 => vec![0; length],
                1 => vec![TOP; length],
                _ => random.words(length),
            };
            compare::format(&mut tally, &mut random, &card, b, n);
        }
        for (b, n) in [(random.word(), n), (b, random.word())] {
            let card = random.words(right);
            compare::format(&mut tally, &mut random, &card, b, n);
        }
    }
    tally.report("format_of_random_shapes");
    tally.expect(&[0, 1, 5], 5000);
}

/// A top end between low and 1,024, small ones as often as large ones.
fn random_top(random: &mut Random, low: u32) -> u32 {
    let bits = random.below(11) as u32;
    (1u32 << bits).max(low)
}

/// A card over one that was in use: its games are gone and the card is sound.
#[test]
fn format_over_cards_in_use() {
    let mut random = Random::new(4);
    let mut tally = Tally::new();
    for _ in 0..3000 {
        let b = random.within(8, 20);
        let n = random.within(2, 9);
        let card = cards::stepped(&mut random, b, n);
        compare::format(&mut tally, &mut random, &card, b, n);
        compare::format(&mut tally, &mut random, &card, b + 1, n);
        compare::format(&mut tally, &mut random, &card, b, n - 1);
        compare::format(&mut tally, &mut random, &card, n, b);
    }
    tally.report("format_over_cards_in_use");
    tally.expect(&[0, 1, 5], 500);
}

#[test]
fn judge_of_lengths() {
    let mut random = Random::new(5);
    let mut tally = Tally::new();
    // Tiny ones of all kinds of words.
    for length in 0..=16 {
        for _ in 0..400 {
            let words = match random.below(3) {
                0 => random.words(length),
                1 => (0..length).map(|_| random.below(9) as u32).collect(),
                _ => {
                    let (b, n) = (random.within(7, 10), random.within(1, 3));
                    let mut words = vec![1, b, n, 0, 0, 0, 0, 0];
                    words.extend(random.words(8));
                    let damaged = random.below(8);
                    words[damaged] = random.below(3) as u32;
                    words.truncate(length);
                    words
                }
            };
            compare::judge(&mut tally, &words, &|| "tiny".to_string());
        }
    }
    // The beginnings of sound cards, and sound cards with words after them.
    for _ in 0..60 {
        let b = random.within(8, 12);
        let n = random.within(2, 5);
        let card = cards::stepped(&mut random, b, n);
        let mut longer = card.clone();
        longer.extend_from_slice(&card);
        for length in 0..=longer.len() {
            compare::judge(&mut tally, &longer[..length], &|| "beginning".to_string());
        }
        for (word, value) in [(0, 2), (1, 7), (2, 1), (3, TOP), (4, TOP), (6, 1), (6, 0)] {
            let mut damaged = longer.clone();
            damaged[word] = value;
            for length in (0..=17).chain(card.len() - 2..=card.len() + 2) {
                compare::judge(&mut tally, &damaged[..length], &|| "beginning".to_string());
            }
        }
    }
    // Formatted cards whose length is a slip's.
    for b in [7, 8, 9, 16, 1023, 1024, 1025] {
        for n in [1, 2, 3, 9, 1023, 1024, 1025] {
            for length in lengths(b, n) {
                let mut card = vec![0; length];
                let configuration = [1, b, n, 0, 0, 0, 0, 0];
                let kept = length.min(8);
                card[..kept].copy_from_slice(&configuration[..kept]);
                compare::judge(&mut tally, &card, &|| "formula".to_string());
            }
        }
    }
    tally.report("judge_of_lengths");
    tally.expect(&[0], 50);
    tally.expect(&[1, 2, 3], 1000);
}

/// Fills the free places and their map entries with other leftovers.
fn new_leftovers(random: &mut Random, card: &mut [u32]) {
    let configuration = Configuration::read(card);
    let live = configuration
        .block(card, configuration.old_start as usize)
        .to_vec();
    for place in configuration.free_places() {
        match random.below(4) {
            0 => random.fill(&mut card[configuration.block_range(place)]),
            1 => card[configuration.block_range(place)].fill(0),
            2 => card[configuration.block_range(place)].copy_from_slice(&live),
            _ => card[configuration.block_range(place)].fill(TOP),
        }
        random.fill(&mut card[configuration.map_range(place)]);
    }
}

#[test]
fn judge_of_cards_made_by_steps() {
    let mut random = Random::new(6);
    let mut tally = Tally::new();
    let mut seen = Shapes::default();
    for round in 0..1400 {
        let (b, n) = match round % 4 {
            0 => (8, random.within(2, 6)),
            1 => (random.within(8, 16), random.within(2, 12)),
            2 => (random.within(8, 64), random.within(2, 40)),
            _ => (random.pick(&[8, 9, 11, 100, 257]), random.pick(&[2, 3, 16])),
        };
        let mut card = cards::fresh(&mut random, b, n);
        let room = b as usize * n as usize;
        let universe = if room > 400 {
            Universe::wide(room)
        } else {
            Universe::random(&mut random)
        };
        let most = (room / 2).clamp(3, 600);
        let cuts = random.chance(1, 2);
        for _ in 0..5 {
            let mixture = Mixture::random(&mut random);
            let batch = batches::good(&mut random, &universe, mixture, most);
            for _ in 0..40 {
                if cuts && random.chance(1, 6) {
                    if let Some((which, range)) = second::due_write(&card, &batch) {
                        if which != 3 {
                            random.fill(&mut card[range]);
                        }
                    }
                }
                let answer = second::step(&mut card, &batch);
                seen.note(&card);
                compare::judge(&mut tally, &card, &|| "after a step".to_string());
                if random.chance(1, 8) {
                    new_leftovers(&mut random, &mut card);
                    compare::judge(&mut tally, &card, &|| "other leftovers".to_string());
                }
                if answer.number != 0 || answer.finished {
                    break;
                }
            }
        }
    }
    tally.report("judge_of_cards_made_by_steps");
    println!("judge_of_cards_made_by_steps: {seen:?}");
    tally.expect(&[0], 20_000);
    assert_eq!(tally.of(0), tally.total());
    seen.expect(300);
}

/// How many of the sound cards had each shape worth having.
#[derive(Debug, Default)]
struct Shapes {
    open: u64,
    old_wrapped: u64,
    new_wrapped: u64,
    old_below_boundary: u64,
    full: u64,
    full_open: u64,
    top_term: u64,
    top_position: u64,
    no_old_open: u64,
}

impl Shapes {
    fn note(&mut self, card: &[u32]) {
        let configuration = Configuration::read(card);
        let n = configuration.n;
        let open = configuration.new_length > 0;
        let old_end = configuration.old_start + configuration.old_length;
        let live = configuration.old_length + configuration.new_length;
        self.open += u64::from(open);
        self.old_wrapped += u64::from(old_end > n);
        self.new_wrapped += u64::from(old_end < n && old_end + configuration.new_length > n);
        self.full += u64::from(live == n - 1);
        self.full_open += u64::from(live == n - 1 && open);
        self.no_old_open += u64::from(open && configuration.old_length == 0);
        if open && configuration.old_length > 0 {
            let first = configuration.map_pair(card, configuration.old_start as usize);
            self.old_below_boundary += u64::from(!configuration.is_above_boundary(first));
        }
        let pairs = second::live_pairs(card);
        self.top_term += u64::from(pairs.last().is_some_and(|pair| pair.0 == TOP));
        self.top_position += u64::from(pairs.iter().any(|pair| pair.1 == TOP));
    }

    fn expect(&self, least: u64) {
        for count in [
            self.open,
            self.old_wrapped,
            self.new_wrapped,
            self.old_below_boundary,
            self.full,
            self.full_open,
            self.top_term,
            self.top_position,
            self.no_old_open,
        ] {
            assert!(count >= least, "a shape came {count} times: {self:?}");
        }
    }
}

/// Large cards made by steps, each judged at a few moments of its passes.
#[test]
fn judge_of_large_cards_made_by_steps() {
    let mut random = Random::new(7);
    let mut tally = Tally::new();
    for (b, n) in [
        (8, 1024),
        (9, 1023),
        (1024, 2),
        (1023, 3),
        (1024, 8),
        (64, 64),
        (300, 20),
        (16, 500),
    ] {
        let room = b as usize * n as usize;
        let universe = Universe::wide(room);
        let mut card = cards::fresh(&mut random, b, n);
        for _ in 0..6 {
            let mixture = random.pick(&[Mixture::Additions, Mixture::Both]);
            let batch = batches::good(&mut random, &universe, mixture, 1500);
            for _ in 0..60 {
                let answer = second::step(&mut card, &batch);
                compare::judge(&mut tally, &card, &|| format!("B {b}, N {n}"));
                if answer.number != 0 || answer.finished {
                    break;
                }
            }
            for _ in 0..30 {
                let word = random.below(card.len());
                let kept = card[word];
                card[word] = damage_value(&mut random, &card, word);
                compare::judge(&mut tally, &card, &|| format!("B {b}, N {n}, word {word}"));
                card[word] = kept;
            }
        }
    }
    tally.report("judge_of_large_cards_made_by_steps");
    tally.expect(&[0], 800);
    tally.expect(&[4], 200);
}

/// One of the values worth putting in a word.
fn damage_value(random: &mut Random, card: &[u32], word: usize) -> u32 {
    let values = damage_values(random, card, word);
    random.pick(&values)
}

fn damage_values(random: &mut Random, card: &[u32], word: usize) -> Vec<u32> {
    let value = card[word];
    let mut values = vec![
        0,
        1,
        2,
        3,
        value.wrapping_add(1),
        value.wrapping_sub(1),
        value.wrapping_add(2),
        value.wrapping_sub(2),
        TOP,
        TOP - 1,
        TOP - 2,
        1 << 31,
        random.word(),
        random.below(12) as u32,
    ];
    for &neighbour in &card[word.saturating_sub(2)..(word + 3).min(card.len())] {
        values.push(neighbour);
        values.push(neighbour.wrapping_add(1));
        values.push(neighbour.wrapping_sub(1));
    }
    values.sort_unstable();
    values.dedup();
    values
}

#[test]
fn judge_of_small_cards_damaged_word_by_word() {
    let mut random = Random::new(8);
    let mut tally = Tally::new();
    let mut seen = Shapes::default();
    for round in 0..1200 {
        let b = random.pick(&[8, 8, 8, 9, 10, 11, 12]);
        let n = random.within(2, 6);
        let mut card = if round % 2 == 0 {
            cards::stepped(&mut random, b, n)
        } else {
            cards::loose(&mut random, b, n)
        };
        assert_eq!(second::judge(&card), 0);
        seen.note(&card);
        for word in 0..card.len() {
            let kept = card[word];
            for value in damage_values(&mut random, &card, word) {
                card[word] = value;
                let about = || format!("word {word} was {kept}, now {value}");
                compare::judge(&mut tally, &card, &about);
            }
            card[word] = kept;
        }
    }
    tally.report("judge_of_small_cards_damaged_word_by_word");
    println!("judge_of_small_cards_damaged_word_by_word: the cards {seen:?}");
    tally.expect(&[0, 4], 100_000);
    tally.expect(&[2, 3], 10_000);
    tally.expect(&[1], 5_000);
    seen.expect(40);
}

#[test]
fn judge_of_small_cards_damaged_in_two_words() {
    let mut random = Random::new(9);
    let mut tally = Tally::new();
    for round in 0..2500 {
        let b = random.pick(&[8, 8, 9, 10, 11]);
        let n = random.within(2, 5);
        let mut card = if round % 2 == 0 {
            cards::stepped(&mut random, b, n)
        } else {
            cards::loose(&mut random, b, n)
        };
        for _ in 0..200 {
            let one = random.below(card.len());
            let near = (one + 1 + random.below(3)) % card.len();
            let far = random.below(card.len());
            let other = random.pick(&[near, far]);
            let kept = (card[one], card[other]);
            card[one] = damage_value(&mut random, &card, one);
            card[other] = damage_value(&mut random, &card, other);
            compare::judge(&mut tally, &card, &|| format!("words {one}, {other}"));
            card[other] = kept.1;
            card[one] = kept.0;
        }
    }
    tally.report("judge_of_small_cards_damaged_in_two_words");
    tally.expect(&[0, 1, 2, 3, 4], 5_000);
}

/// The values worth putting in a configuration word.
fn configuration_values(random: &mut Random, card: &[u32], word: usize) -> Vec<u32> {
    let n = card[2];
    let mut values = vec![
        0,
        1,
        2,
        3,
        7,
        8,
        9,
        1023,
        1024,
        1025,
        n - 1,
        n,
        n + 1,
        65_536,
        65_537,
        65_536 + 8,
        1 << 31,
        (1 << 31) + 1,
        TOP - n,
        TOP - n + 1,
        TOP - 1,
        TOP,
        card[word],
        card[word].wrapping_add(1),
        card[word].wrapping_sub(1),
        random.word(),
    ];
    values.sort_unstable();
    values.dedup();
    values
}

#[test]
fn judge_of_damaged_configurations() {
    let mut random = Random::new(10);
    let mut tally = Tally::new();
    for round in 0..28 {
        let b = random.pick(&[8, 9, 10, 16]);
        let n = random.within(2, 6);
        let mut card = if round % 2 == 0 {
            cards::stepped(&mut random, b, n)
        } else {
            cards::loose(&mut random, b, n)
        };
        let sound: Vec<u32> = card[..8].to_vec();
        for one in 0..8 {
            for other in one..8 {
                for value in configuration_values(&mut random, &sound, one) {
                    for other_value in configuration_values(&mut random, &sound, other) {
                        card[one] = value;
                        card[other] = other_value;
                        let about = || format!("was {sound:?}");
                        compare::judge(&mut tally, &card, &about);
                        card[..8].copy_from_slice(&sound);
                    }
                }
            }
        }
    }
    tally.report("judge_of_damaged_configurations");
    tally.expect(&[0, 1, 2, 3, 4], 300);
    tally.expect(&[2, 3, 4], 10_000);
}

/// Lengths whose sum is small only when it is cut to 32 bits.
#[test]
fn judge_of_lengths_that_overflow() {
    let mut random = Random::new(11);
    let mut tally = Tally::new();
    for _ in 0..4000 {
        let n = random.within(2, 9);
        let mut card = cards::loose(&mut random, 8, n);
        let small = random.below(n as usize + 2) as u32;
        let half = random.word();
        for (old, new) in [
            (half, small.wrapping_sub(half)),
            (TOP, small + 1),
            (small + 1, TOP),
            (1 << 31, 1 << 31),
            (TOP, TOP),
            (65_536, 0),
            (65_536 + small, 65_536),
        ] {
            card[4] = old;
            card[5] = new;
            if random.chance(1, 2) {
                card[6] = 0;
                card[7] = 0;
            }
            compare::judge(&mut tally, &card, &|| format!("lengths {old}, {new}"));
        }
    }
    tally.report("judge_of_lengths_that_overflow");
    tally.expect(&[3], 20_000);
}

/// Every block of B words over a small alphabet, as the only live block, in either segment.
#[test]
fn judge_of_every_block_over_a_small_alphabet() {
    let mut tally = Tally::new();
    let alphabets: [(usize, &[u32], bool); 5] = [
        (8, &[0, 1, 2, 3, 4], false),
        (8, &[0, 1, 2, TOP - 1, TOP], true),
        (9, &[0, 1, 2, 3], true),
        (10, &[0, 1, 2, 3], false),
        (11, &[0, 1, 2], false),
    ];
    for (b, alphabet, as_new) in alphabets {
        let n = 2;
        let mut card = vec![5; cards::right_length(b as u32, n)];
        let mut configuration = Configuration {
            format: 1,
            b: b as u32,
            n,
            old_start: 1,
            old_length: u32::from(!as_new),
            new_length: u32::from(as_new),
            boundary_term: 0,
            boundary_position: 0,
        };
        let mut figures = vec![0; b];
        loop {
            let words: Vec<u32> = figures.iter().map(|&figure| alphabet[figure]).collect();
            cards::put_words(&mut card, &configuration, 1, &words);
            if as_new {
                let last = block::pairs(&words).and_then(|pairs| pairs.last().copied());
                let boundary = last.unwrap_or((words[0].max(1), words[2].max(1)));
                configuration.boundary_term = boundary.0;
                configuration.boundary_position = boundary.1;
            }
            card[..8].copy_from_slice(&configuration.words());
            compare::judge(&mut tally, &card, &|| "one block".to_string());
            if !count_up(&mut figures, alphabet.len()) {
                break;
            }
        }
    }
    tally.report("judge_of_every_block_over_a_small_alphabet");
    tally.expect(&[0], 1000);
    tally.expect(&[4], 1_000_000);
}

/// The next figures, last fastest; false after the last ones.
fn count_up(figures: &mut [usize], base: usize) -> bool {
    for figure in figures.iter_mut().rev() {
        *figure += 1;
        if *figure < base {
            return true;
        }
        *figure = 0;
    }
    false
}

/// Every set of pairs over three terms and three positions that fits in a block of 8.
fn small_blocks() -> Vec<Vec<Pair>> {
    let mut universe: Vec<Pair> = Vec::new();
    for term in [1, 2, TOP] {
        for position in [1, 2, TOP] {
            universe.push((term, position));
        }
    }
    let mut blocks = Vec::new();
    for chosen in 1..1usize << universe.len() {
        let pairs: Vec<Pair> = (0..universe.len())
            .filter(|&i| chosen >> i & 1 == 1)
            .map(|i| universe[i])
            .collect();
        if block::longest_beginning(pairs.iter().copied(), 8) == pairs {
            blocks.push(pairs);
        }
    }
    blocks
}

/// Two small blocks side by side, all of them: both old, both new, one in each segment.
#[test]
fn judge_of_every_two_small_blocks() {
    let mut tally = Tally::new();
    let blocks = small_blocks();
    let n = 3;
    for (i, one) in blocks.iter().enumerate() {
        for (k, other) in blocks.iter().enumerate() {
            let start = ((i + k) % 3) as u32;
            let memory = vec![3; cards::right_length(8, n)];
            let both = [one.clone(), other.clone()];
            let card = match (i ^ k) & 1 {
                0 => cards::laid_out(memory.clone(), 8, n, start, &both, &[]),
                _ => cards::laid_out(memory.clone(), 8, n, start, &[], &both),
            };
            compare::judge(&mut tally, &card, &|| "two in a segment".to_string());
            let card = cards::laid_out(memory, 8, n, start, &both[..1], &both[1..]);
            compare::judge(&mut tally, &card, &|| "one in each segment".to_string());
        }
    }
    println!("judge_of_every_two_small_blocks: {} blocks", blocks.len());
    tally.report("judge_of_every_two_small_blocks");
    tally.expect(&[0, 4], 2_000);
}

/// Segments of several small blocks drawn at random, most of them nearly in order.
#[test]
fn judge_of_segments_of_small_blocks() {
    let mut random = Random::new(12);
    let mut tally = Tally::new();
    let blocks = small_blocks();
    for _ in 0..150_000 {
        let n = random.within(3, 6);
        let live = random.below(n as usize);
        let mut drawn: Vec<Vec<Pair>> = (0..live)
            .map(|_| blocks[random.below(blocks.len())].clone())
            .collect();
        if random.chance(3, 4) {
            // Short blocks in order, so that many segments rise.
            for block in &mut drawn {
                block.truncate(1 + random.below(2));
            }
            drawn.sort();
        }
        let new_count = random.below(live + 1);
        let (new, old) = drawn.split_at(new_count);
        let start = random.below(n as usize) as u32;
        let memory = cards::memory(&mut random, 8, n);
        let mut card = cards::laid_out(memory, 8, n, start, old, new);
        if random.chance(1, 10) {
            card[6 + random.below(2)] = random.pick(&[0, 1, 2, TOP]);
        }
        compare::judge(&mut tally, &card, &|| "segments".to_string());
    }
    tally.report("judge_of_segments_of_small_blocks");
    tally.expect(&[0, 4], 10_000);
    tally.expect(&[3], 1_000);
}

/// Breaks one rule of a block's form, or tries to. The map entry keeps up where it can.
fn break_block(random: &mut Random, card: &mut [u32], place: usize) -> &'static str {
    let configuration = Configuration::read(card);
    let b = configuration.b as usize;
    let mut words = configuration.block(card, place).to_vec();
    let entries = block::entries(&words).expect("a live block");
    let entry = entries[random.below(entries.len())].clone();
    let last_entry = entries[entries.len() - 1].clone();
    let end = last_entry.positions.end;
    let (start, count) = (entry.positions.start, entry.positions.len());
    let (term_word, count_word) = (start - 2, start - 1);
    let position_word = start + random.below(count);
    let done = match random.below(14) {
        0 => {
            words[position_word] = 0;
            "a position 0"
        }
        1 => {
            words[position_word] = words[position_word - 1];
            "a position as the word before it"
        }
        2 if count > 1 => {
            let second_word = start + 1 + random.below(count - 1);
            words[second_word] = words[second_word - 1];
            "a position twice"
        }
        3 if count > 1 => {
            let second_word = start + 1 + random.below(count - 1);
            words.swap(second_word, second_word - 1);
            "two positions swapped"
        }
        4 => {
            words[count_word] = 0;
            "a count 0"
        }
        5 => {
            words[count_word] += 1;
            "a count one more"
        }
        6 => {
            words[count_word] -= 1;
            "a count one less"
        }
        7 => {
            let room = (b - start) as u32;
            words[count_word] = random.pick(&[room, room + 1, TOP, TOP - 1, TOP - 2, 1 << 31]);
            "a count at or beyond the room"
        }
        8 if entries.len() > 1 => {
            let later = 1 + random.below(entries.len() - 1);
            words[entries[later].positions.start - 2] = entries[later - 1].term;
            "a term twice"
        }
        9 if entries.len() > 1 => {
            let later = 1 + random.below(entries.len() - 1);
            words.swap(
                entries[later].positions.start - 2,
                entries[later - 1].positions.start - 2,
            );
            "two terms swapped"
        }
        10 if end < b => {
            words[b - 1] = random.pick(&[1, 2, TOP]);
            "a last word not 0"
        }
        11 if end < b => {
            let word = end + random.below(b - end);
            words[word] = random.pick(&[1, 2, last_entry.term, TOP]);
            "a word after the entries not 0"
        }
        12 => {
            words[term_word] = 0;
            "a term 0"
        }
        _ => {
            words.fill(0);
            "no entry"
        }
    };
    if random.chance(2, 3) {
        cards::put_words(card, &configuration, place, &words);
    } else {
        card[configuration.block_range(place)].copy_from_slice(&words);
    }
    done
}

/// Breaks one rule between blocks, or tries to, keeping each block well formed.
fn break_order(random: &mut Random, card: &mut [u32]) -> &'static str {
    let mut configuration = Configuration::read(card);
    let old = configuration.old_places();
    let new = configuration.new_places();
    let pairs_at = |card: &[u32], place| second::layout::block_pairs(&configuration, card, place);
    let places = if old.len() > new.len() { &old } else { &new };
    match random.below(6) {
        0 if places.len() > 1 => {
            let at = random.below(places.len() - 1);
            let (one, other) = (places[at], places[at + 1]);
            let (first, second) = (pairs_at(card, one), pairs_at(card, other));
            cards::put_block(card, &configuration, one, &second);
            cards::put_block(card, &configuration, other, &first);
            "two blocks swapped"
        }
        1 if places.len() > 1 => {
            let at = random.below(places.len() - 1);
            let (one, other) = (places[at], places[at + 1]);
            let last = *pairs_at(card, one).last().expect("a live block");
            let mut later = pairs_at(card, other);
            later[0] = last;
            let fits = block::longest_beginning(later.iter().copied(), configuration.b as usize);
            if fits.len() < later.len() || random.chance(1, 2) {
                later = vec![last];
            }
            cards::put_block(card, &configuration, other, &later);
            "a pair in two blocks"
        }
        2 if !new.is_empty() && !old.is_empty() => {
            let place = old[0];
            let boundary = configuration.boundary().expect("a pass is open");
            let mut below: Vec<Pair> = pairs_at(card, place);
            below.retain(|&pair| pair <= boundary);
            if below.is_empty() {
                below.push(boundary);
            }
            cards::put_block(card, &configuration, place, &below);
            "no old pair above the boundary"
        }
        3 if !new.is_empty() => {
            let place = *new.last().expect("not empty");
            let pair = random.pick(&pairs_at(card, place));
            configuration.boundary_term = pair.0;
            configuration.boundary_position = pair.1;
            card[..8].copy_from_slice(&configuration.words());
            "a boundary in the last new block"
        }
        4 if !old.is_empty() => {
            let pair = random.pick(&pairs_at(card, old[0]));
            let last = configuration.due_place();
            if configuration.new_length > 0 {
                let place = new[new.len() - 1];
                cards::put_block(card, &configuration, place, &[pair]);
            } else if configuration.free_places().len() > 1 {
                cards::put_block(card, &configuration, last, &[pair]);
                configuration.new_length = 1;
            } else {
                return "nothing";
            }
            configuration.boundary_term = pair.0;
            configuration.boundary_position = pair.1;
            card[..8].copy_from_slice(&configuration.words());
            "a boundary within the first old block"
        }
        _ => {
            let live: Vec<usize> = old.iter().chain(&new).copied().collect();
            let Some(&place) = live.first() else {
                return "nothing";
            };
            let word = configuration.map_range(place).start + random.below(2);
            card[word] = damage_value(random, card, word);
            "a map word"
        }
    }
}

#[test]
fn judge_of_broken_rules() {
    let mut random = Random::new(13);
    let mut tally = Tally::new();
    for round in 0..8000 {
        let b = random.pick(&[8, 8, 9, 10, 12, 15, 24, 40]);
        let n = random.pick(&[2, 3, 4, 5, 8]);
        let card = if round % 2 == 0 {
            cards::stepped(&mut random, b, n)
        } else {
            cards::loose(&mut random, b, n)
        };
        let configuration = Configuration::read(&card);
        let mut live = configuration.old_places();
        live.extend(configuration.new_places());
        for _ in 0..20 {
            let mut broken = card.clone();
            let what = if live.is_empty() || random.chance(1, 3) {
                break_order(&mut random, &mut broken)
            } else {
                let place = random.pick(&live);
                break_block(&mut random, &mut broken, place)
            };
            compare::judge(&mut tally, &broken, &|| what.to_string());
        }
    }
    tally.report("judge_of_broken_rules");
    tally.expect(&[0, 4], 10_000);
}

#[test]
fn judge_of_random_words() {
    let mut random = Random::new(14);
    let mut tally = Tally::new();
    for _ in 0..300_000 {
        let card = cards::random_words(&mut random);
        compare::judge(&mut tally, &card, &|| "random words".to_string());
    }
    tally.report("judge_of_random_words");
    tally.expect(&[0, 1, 2, 3, 4], 5_000);
}

#[derive(Clone, Copy, Debug)]
enum Filling {
    OneTerm,
    ThreeWordEntries,
    Mixed,
}

/// The blocks of a segment of the largest card, filled as far as they go.
fn large_segment(filling: Filling, count: usize, base: u32) -> Vec<Vec<Pair>> {
    let mut blocks = Vec::new();
    let mut next = base;
    for number in 0..count {
        let pairs: Vec<Pair> = match filling {
            Filling::OneTerm => (0..1022).map(|i| (9, next + i)).collect(),
            Filling::ThreeWordEntries => (0..341).map(|i| (next + i, TOP - i)).collect(),
            Filling::Mixed => {
                let per_entry = 1 + (number as u32 * 37) % 60;
                let mut used = 0;
                let mut pairs = Vec::new();
                for i in 0..1022 {
                    let pair = (next + i / per_entry, 1 + (i % per_entry) * 1000);
                    used += block::cost(pairs.last().copied(), pair);
                    if used > 1024 - (number % 4) {
                        break;
                    }
                    pairs.push(pair);
                }
                pairs
            }
        };
        next += 1022;
        blocks.push(pairs);
    }
    blocks
}

#[test]
fn judge_of_the_largest_card() {
    let mut random = Random::new(15);
    let mut tally = Tally::new();
    let (b, n) = (1024, 1024);
    let length = cards::right_length(b, n);
    assert_eq!(length, 1_050_632);
    for (filling, old_start, old_count, new_count) in [
        (Filling::OneTerm, 0, 1023, 0),
        (Filling::OneTerm, 700, 500, 523),
        (Filling::ThreeWordEntries, 1023, 600, 423),
        (Filling::Mixed, 1, 0, 1023),
        (Filling::Mixed, 513, 900, 60),
    ] {
        let new = large_segment(filling, new_count, 1000);
        let mut old = large_segment(filling, old_count, 1000 + 1022 * new_count as u32);
        if new_count > 0 && old_count > 0 {
            // The first old block begins at the boundary itself.
            let boundary = *new[new_count - 1].last().expect("a block");
            let least = old[0].len() - 3;
            old[0].truncate(least);
            old[0].insert(0, boundary);
        }
        let memory = random.words(length);
        let mut card = cards::laid_out(memory, b, n, old_start, &old, &new);
        assert_eq!(second::judge(&card), 0);
        compare::judge(&mut tally, &card, &|| format!("{filling:?}, sound"));
        let configuration = Configuration::read(&card);
        for word in large_words(&mut random, &configuration) {
            let kept = card[word];
            for _ in 0..2 {
                card[word] = damage_value(&mut random, &card, word);
                let about = || format!("{filling:?}, word {word} was {kept}");
                compare::judge(&mut tally, &card, &about);
            }
            card[word] = kept;
        }
        for cut in [1, 2, 1024] {
            let about = || format!("{filling:?}, {cut} words short");
            compare::judge(&mut tally, &card[..length - cut], &about);
        }
        card.push(0);
        compare::judge(&mut tally, &card, &|| format!("{filling:?}, one word more"));
    }
    tally.report("judge_of_the_largest_card");
    tally.expect(&[0, 1, 2, 3], 5);
    tally.expect(&[4], 200);
}

/// Words of the largest card worth damaging: at the seams of the circle and anywhere.
fn large_words(random: &mut Random, configuration: &Configuration) -> Vec<usize> {
    let mut words: Vec<usize> = (0..8).collect();
    let mut places = vec![0, 1, 1022, 1023, configuration.due_place()];
    let segments = [configuration.old_places(), configuration.new_places()];
    for segment in segments.iter().filter(|segment| !segment.is_empty()) {
        places.extend([
            segment[0],
            segment[segment.len() / 2],
            segment[segment.len() - 1],
        ]);
    }
    for place in places {
        let (map, block) = (
            configuration.map_range(place),
            configuration.block_range(place),
        );
        words.extend([map.start, map.end - 1]);
        words.extend([block.start, block.start + 1, block.start + 2]);
        words.extend([block.end - 1, block.end - 2, block.end - 3]);
        words.push(block.start + random.below(block.len()));
    }
    for _ in 0..20 {
        words.push(random.below(configuration.block_range(1023).end));
    }
    words
}
