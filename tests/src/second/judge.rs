// The judge of a card: numbers 1 to 4 in the paper's order, 0 for a sound card.

use super::block;
use super::layout::{self, Configuration, Pair};
use super::number;

pub fn judge(card: &[u32]) -> u32 {
    if card.len() < layout::CONFIGURATION_WORDS {
        return number::CARD_LENGTH;
    }
    let configuration = Configuration::read(card);
    if configuration.format != layout::FORMAT {
        return number::CARD_FORMAT;
    }
    if !layout::limits_hold(configuration.b, configuration.n) {
        return number::CARD_CONFIGURATION;
    }
    if card.len() as u128 != layout::card_words(configuration.b, configuration.n) {
        return number::CARD_LENGTH;
    }
    if !segments_fit(&configuration) || !boundary_words_agree(&configuration) {
        return number::CARD_CONFIGURATION;
    }
    if !blocks_are_sound(&configuration, card) {
        return number::CARD_BLOCKS;
    }
    number::DONE
}

fn segments_fit(configuration: &Configuration) -> bool {
    let live = u64::from(configuration.old_length) + u64::from(configuration.new_length);
    configuration.old_start < configuration.n && live <= u64::from(configuration.n) - 1
}

fn boundary_words_agree(configuration: &Configuration) -> bool {
    let (term, position) = (configuration.boundary_term, configuration.boundary_position);
    if configuration.new_length == 0 {
        term == 0 && position == 0
    } else {
        term != 0 && position != 0
    }
}

fn blocks_are_sound(configuration: &Configuration, card: &[u32]) -> bool {
    let old = segment_blocks(configuration, card, &configuration.old_places());
    let new = segment_blocks(configuration, card, &configuration.new_places());
    let (Some(old), Some(new)) = (old, new) else {
        return false;
    };
    if !rises_from_block_to_block(&old) || !rises_from_block_to_block(&new) {
        return false;
    }
    if let Some(last_new) = new.last() {
        if last_new.last().copied() != configuration.boundary() {
            return false;
        }
    }
    if let Some(first_old) = old.first() {
        let mut pairs = first_old.iter();
        if !pairs.any(|&pair| configuration.is_above_boundary(pair)) {
            return false;
        }
    }
    true
}

/// The pairs of each block of a segment, or none if a block is ill formed, has no entry, or does
/// not begin with its map entry.
fn segment_blocks(
    configuration: &Configuration,
    card: &[u32],
    places: &[usize],
) -> Option<Vec<Vec<Pair>>> {
    let mut blocks = Vec::new();
    for &place in places {
        let pairs = block::pairs(configuration.block(card, place))?;
        if *pairs.first()? != configuration.map_pair(card, place) {
            return None;
        }
        blocks.push(pairs);
    }
    Some(blocks)
}

fn rises_from_block_to_block(blocks: &[Vec<Pair>]) -> bool {
    blocks.windows(2).all(|two| two[0].last() < two[1].first())
}
