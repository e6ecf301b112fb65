// Makers of questions for lookups and pages, and how their answers are spread over the cards.

use crate::batches::{self, Mixture, Universe};
use crate::cards;
use crate::compare::Question;
use crate::lists;
use crate::random::Random;
use crate::second::{self, Configuration, Pair};

const TOP: u32 = u32::MAX;

/// Every question over these terms and positions.
pub fn every(terms: &[u32], positions: &[u32]) -> Vec<Question> {
    let mut questions = Vec::new();
    for &term in terms {
        for &from in positions {
            for &to in positions {
                questions.push((term, from, to));
            }
        }
    }
    questions
}

/// A question at a pair of the card or next to it, or at none.
pub fn near(random: &mut Random, known: &[Pair]) -> Question {
    let beside = |random: &mut Random, word: u32| match random.below(6) {
        0 => word.saturating_add(1),
        1 => word.saturating_sub(1),
        2 => random.pick(&[0, 1, 2, TOP - 1, TOP]),
        3 => random.word(),
        _ => word,
    };
    let (mut term, one) = random.pick(known);
    if random.chance(1, 5) {
        term = beside(random, term);
    }
    let from = beside(random, one);
    // The other end is often another pair of the term.
    let same: Vec<u32> = known
        .iter()
        .filter(|pair| pair.0 == term)
        .map(|p| p.1)
        .collect();
    let other = if same.is_empty() {
        random.pick(known).1
    } else {
        random.pick(&same)
    };
    let to = beside(random, other);
    if random.chance(1, 12) {
        (term, from, to)
    } else {
        (term, from.min(to).max(1), from.max(to))
    }
}

/// All pairs of a sound card's live blocks, live or not, and a pair that is in none.
pub fn known_pairs(card: &[u32]) -> Vec<Pair> {
    let mut known: Vec<Pair> = vec![(3, 3)];
    known.extend(Configuration::read(card).boundary());
    known.extend(cards::block_pairs(card).concat());
    known
}

/// Hands out cards laid out by hand, one term or three over many blocks in both segments, gaps
/// between them, old blocks from below the boundary to above it; each with every question over its
/// terms and positions.
pub fn across_many_blocks(
    random: &mut Random,
    rounds: usize,
    mut ask: impl FnMut(&mut Random, &[u32], &[Question]),
) {
    for round in 0..rounds {
        let terms: u32 = if round % 2 == 0 { 1 } else { 3 };
        let most = 45 / terms;
        let card = cards::over_many_blocks(random, terms, most);
        assert_eq!(second::judge(&card), 0);
        let terms: Vec<u32> = (1..=2 * terms + 1).collect();
        let positions: Vec<u32> = (0..=most + 1).collect();
        ask(random, &card, &every(&terms, &positions));
    }
}

/// Hands out cards over small universes, at every moment of their passes, each with every question
/// over its universe.
pub fn on_small_cards(
    random: &mut Random,
    rounds: usize,
    mut ask: impl FnMut(&mut Random, &[u32], &[Question]),
) {
    let worlds = small_worlds();
    for round in 0..rounds {
        let (universe, questions) = &worlds[round % worlds.len()];
        let b = random.pick(&[8, 8, 8, 9, 10]);
        let n = random.within(3, 6);
        let mut card = cards::fresh(random, b, n);
        for _ in 0..3 {
            let mixture = random.pick(&[Mixture::Additions, Mixture::Both]);
            let batch = batches::good(random, universe, mixture, 20);
            for _ in 0..12 {
                let answer = second::step(&mut card, &batch);
                // Only write 3 changes what is found, but free places may hold anything.
                if answer.number == 0 && (answer.write == 3 || random.chance(1, 8)) {
                    ask(random, &card, questions);
                }
                if answer.number != 0 || answer.finished {
                    break;
                }
            }
        }
    }
}

fn small_worlds() -> [(Universe, Vec<Question>); 3] {
    [
        (
            Universe {
                terms: vec![1, 2, 3],
                positions: (1..=7).collect(),
            },
            every(&[0, 1, 2, 3, 4, TOP], &[0, 1, 2, 3, 4, 5, 6, 7, 8, TOP]),
        ),
        (
            Universe {
                terms: vec![5],
                positions: (1..=16).collect(),
            },
            every(
                &[0, 4, 5, 6],
                &[0, 1, 2, 3, 5, 6, 7, 8, 9, 11, 12, 13, 14, 16, 17, TOP],
            ),
        ),
        (
            Universe {
                terms: vec![1, TOP - 1, TOP],
                positions: vec![1, 2, TOP - 3, TOP - 2, TOP - 1, TOP],
            },
            every(
                &[0, 1, 2, TOP - 2, TOP - 1, TOP],
                &[0, 1, 2, 3, TOP - 4, TOP - 3, TOP - 2, TOP - 1, TOP],
            ),
        ),
    ]
}

/// Where the pairs in range stood, over the questions noted.
#[derive(Debug, Default)]
pub struct Spread {
    pub questions: u64,
    pub in_mid_pass: u64,
    pub from_both_segments: u64,
    pub old_pairs_hidden: u64,
    pub several_blocks: u64,
}

impl Spread {
    /// Notes a question that was not refused. Gives the blocks that hold a live posting in range.
    pub fn note(&mut self, card: &[u32], (term, from, to): Question) -> u32 {
        let configuration = Configuration::read(card);
        let in_range = |place: usize, live: bool| {
            second::layout::block_pairs(&configuration, card, place)
                .into_iter()
                .filter(|&pair| pair.0 == term && from <= pair.1 && pair.1 <= to)
                .any(|pair| configuration.is_above_boundary(pair) == live)
        };
        let old = configuration.old_places();
        let from_old = old.iter().any(|&place| in_range(place, true));
        let hidden = old.iter().any(|&place| in_range(place, false));
        let mut new = configuration.new_places().into_iter();
        let from_new = new.any(|place| in_range(place, true) || in_range(place, false));
        let holders = lists::holders(card, term, from, to);
        self.questions += 1;
        self.in_mid_pass += u64::from(configuration.new_length > 0);
        self.from_both_segments += u64::from(from_old && from_new);
        self.old_pairs_hidden += u64::from(hidden);
        self.several_blocks += u64::from(holders > 1);
        holders
    }

    /// Fails unless every shape came at least `least` times.
    pub fn expect(&self, least: u64) {
        for count in [
            self.in_mid_pass,
            self.from_both_segments,
            self.old_pairs_hidden,
            self.several_blocks,
        ] {
            assert!(count >= least, "too few: {self:?}");
        }
    }
}
