// Card layout: pairs, the configuration words, the map, the places in a circle, the formatter.

use std::collections::BTreeSet;
use std::ops::Range;

use super::block;
use super::number;

/// A term and a position; tuples order by term, then position.
pub type Pair = (u32, u32);

pub const LOWEST: Pair = (1, 1);
pub const HIGHEST: Pair = (4_294_967_295, 4_294_967_295);

pub const FORMAT: u32 = 1;
pub const LEAST_B: u32 = 8;
pub const MOST_B: u32 = 1024;
pub const LEAST_N: u32 = 2;
pub const MOST_N: u32 = 1024;

pub const CONFIGURATION_WORDS: usize = 8;
pub const MAP_ENTRY_WORDS: usize = 2;

pub fn limits_hold(b: u32, n: u32) -> bool {
    (LEAST_B..=MOST_B).contains(&b) && (LEAST_N..=MOST_N).contains(&n)
}

/// The formula for a card's length, for any words B and N.
pub fn card_words(b: u32, n: u32) -> u128 {
    let (b, n) = (u128::from(b), u128::from(n));
    CONFIGURATION_WORDS as u128 + MAP_ENTRY_WORDS as u128 * n + n * b
}

/// The eight configuration words by name.
#[derive(Clone, Copy, Debug, PartialEq, Eq)]
pub struct Configuration {
    pub format: u32,
    pub b: u32,
    pub n: u32,
    pub old_start: u32,
    pub old_length: u32,
    pub new_length: u32,
    pub boundary_term: u32,
    pub boundary_position: u32,
}

impl Configuration {
    /// Of a card that has at least the configuration words.
    pub fn read(card: &[u32]) -> Configuration {
        Configuration {
            format: card[0],
            b: card[1],
            n: card[2],
            old_start: card[3],
            old_length: card[4],
            new_length: card[5],
            boundary_term: card[6],
            boundary_position: card[7],
        }
    }

    pub fn words(&self) -> [u32; CONFIGURATION_WORDS] {
        [
            self.format,
            self.b,
            self.n,
            self.old_start,
            self.old_length,
            self.new_length,
            self.boundary_term,
            self.boundary_position,
        ]
    }

    /// The boundary, or none where no pass is open.
    pub fn boundary(&self) -> Option<Pair> {
        if self.new_length == 0 {
            None
        } else {
            Some((self.boundary_term, self.boundary_position))
        }
    }

    /// Without an open pass every pair is above the boundary.
    pub fn is_above_boundary(&self, pair: Pair) -> bool {
        match self.boundary() {
            None => true,
            Some(boundary) => pair > boundary,
        }
    }

    /// The place that stands `steps` places after old start, around the circle.
    fn place_after(&self, steps: u64) -> usize {
        ((u64::from(self.old_start) + steps) % u64::from(self.n)) as usize
    }

    pub fn old_places(&self) -> Vec<usize> {
        let length = u64::from(self.old_length);
        (0..length).map(|i| self.place_after(i)).collect()
    }

    pub fn new_places(&self) -> Vec<usize> {
        let (old, new) = (u64::from(self.old_length), u64::from(self.new_length));
        (old..old + new).map(|i| self.place_after(i)).collect()
    }

    /// The place after the new segment.
    pub fn due_place(&self) -> usize {
        self.place_after(u64::from(self.old_length) + u64::from(self.new_length))
    }

    pub fn free_places(&self) -> Vec<usize> {
        let live = u64::from(self.old_length) + u64::from(self.new_length);
        (live..u64::from(self.n))
            .map(|i| self.place_after(i))
            .collect()
    }

    /// The words of the card that hold a place's map entry.
    pub fn map_range(&self, place: usize) -> Range<usize> {
        let start = CONFIGURATION_WORDS + MAP_ENTRY_WORDS * place;
        start..start + MAP_ENTRY_WORDS
    }

    /// The words of the card that hold a place's block.
    pub fn block_range(&self, place: usize) -> Range<usize> {
        let b = self.b as usize;
        let start = CONFIGURATION_WORDS + MAP_ENTRY_WORDS * self.n as usize + b * place;
        start..start + b
    }

    pub fn map_pair(&self, card: &[u32], place: usize) -> Pair {
        let entry = &card[self.map_range(place)];
        (entry[0], entry[1])
    }

    pub fn block<'a>(&self, card: &'a [u32], place: usize) -> &'a [u32] {
        &card[self.block_range(place)]
    }
}

/// Writes the configuration words of an empty card and nothing else.
pub fn format(card: &mut [u32], b: u32, n: u32) -> u32 {
    if !limits_hold(b, n) {
        return number::FORMATTER_LIMITS;
    }
    if card.len() as u128 != card_words(b, n) {
        return number::CARD_LENGTH;
    }
    card[..CONFIGURATION_WORDS].copy_from_slice(&[FORMAT, b, n, 0, 0, 0, 0, 0]);
    number::DONE
}

/// The index of a sound card.
pub fn live_pairs(card: &[u32]) -> BTreeSet<Pair> {
    let configuration = Configuration::read(card);
    let mut pairs = Vec::new();
    for place in configuration.new_places() {
        pairs.extend(block_pairs(&configuration, card, place));
    }
    for place in configuration.old_places() {
        let block = block_pairs(&configuration, card, place);
        pairs.extend(
            block
                .into_iter()
                .filter(|&pair| configuration.is_above_boundary(pair)),
        );
    }
    pairs.into_iter().collect()
}

/// The pairs of a live block of a sound card.
pub fn block_pairs(configuration: &Configuration, card: &[u32], place: usize) -> Vec<Pair> {
    block::pairs(configuration.block(card, place)).expect("a live block of a sound card")
}
