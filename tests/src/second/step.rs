// One step of a pass: what remains, the due block, the one write, the step limit.

use std::collections::BTreeSet;
use std::ops::Bound;
use std::ops::Range;

use super::batch;
use super::block;
use super::judge;
use super::layout::{self, Configuration, Pair};
use super::number;

#[derive(Clone, Copy, Debug, PartialEq, Eq)]
pub struct StepAnswer {
    pub number: u32,
    pub write: u32,
    pub freed: u32,
    pub finished: bool,
}

/// The write of a step that is not refused: which, where on the card, the words, and the answer.
struct Write {
    which: u32,
    range: Range<usize>,
    words: Vec<u32>,
    freed: u32,
    finished: bool,
}

/// Refused: write 0, freed 0, not finished, card unchanged.
pub fn step(card: &mut [u32], batch: &[u32]) -> StepAnswer {
    match planned_write(card, batch) {
        Err(number) => StepAnswer {
            number,
            write: 0,
            freed: 0,
            finished: false,
        },
        Ok(write) => {
            card[write.range].copy_from_slice(&write.words);
            StepAnswer {
                number: number::DONE,
                write: write.which,
                freed: write.freed,
                finished: write.finished,
            }
        }
    }
}

/// Which write the step would make and the words of the card it would write; none if refused.
pub fn due_write(card: &[u32], batch: &[u32]) -> Option<(u32, Range<usize>)> {
    let write = planned_write(card, batch).ok()?;
    Some((write.which, write.range))
}

/// The words that the step would write there; none if refused.
pub fn due_words(card: &[u32], batch: &[u32]) -> Option<Vec<u32>> {
    Some(planned_write(card, batch).ok()?.words)
}

/// The batch applied to the live pairs, cut down to pairs above the boundary.
pub fn what_remains(card: &[u32], batch: &[u32]) -> BTreeSet<Pair> {
    let configuration = Configuration::read(card);
    let applied = batch::applied(batch, &layout::live_pairs(card));
    above(&applied, configuration.boundary())
}

/// The pairs above a boundary, all of them without one.
pub fn above(set: &BTreeSet<Pair>, boundary: Option<Pair>) -> BTreeSet<Pair> {
    let low = match boundary {
        None => Bound::Unbounded,
        Some(boundary) => Bound::Excluded(boundary),
    };
    set.range((low, Bound::Unbounded)).copied().collect()
}

/// G: the blocks that what remains fills, for a sound card and a batch judged 0.
pub fn blocks_filled(card: &[u32], batch: &[u32]) -> u32 {
    let b = Configuration::read(card).b as usize;
    let remains: Vec<Pair> = what_remains(card, batch).into_iter().collect();
    let mut rest = &remains[..];
    let mut blocks = 0;
    while !rest.is_empty() {
        let due = block::longest_beginning(rest.iter().copied(), b);
        rest = &rest[due.len()..];
        blocks += 1;
    }
    blocks
}

/// The most steps a pass takes where what remains fills `g` blocks.
pub fn step_limit(g: u32) -> u32 {
    if g == 0 {
        1
    } else {
        3 * g
    }
}

fn planned_write(card: &[u32], batch: &[u32]) -> Result<Write, u32> {
    let judged = judge::judge(card);
    if judged != number::DONE {
        return Err(judged);
    }
    let judged = batch::judge_batch(batch);
    if judged != number::DONE {
        return Err(judged);
    }
    let configuration = Configuration::read(card);
    let remains = what_remains(card, batch);
    let due = block::longest_beginning(remains.iter().copied(), configuration.b as usize);
    let Some(&first) = due.first() else {
        return Ok(finishing(&configuration, configuration.new_length));
    };
    let configuration_write = if due.len() < remains.len() {
        going_on(&configuration, card, due[due.len() - 1])
    } else {
        finishing(&configuration, configuration.new_length + 1)
    };
    if !leaves_a_place_free(&configuration_write.words) {
        return Err(number::NO_PLACE_LEFT);
    }
    let place = configuration.due_place();
    let block_words = block::block_words(&due, configuration.b as usize);
    if configuration.block(card, place) != &block_words[..] {
        return Ok(Write {
            which: 1,
            range: configuration.block_range(place),
            words: block_words,
            freed: 0,
            finished: false,
        });
    }
    if configuration.map_pair(card, place) != first {
        return Ok(Write {
            which: 2,
            range: configuration.map_range(place),
            words: vec![first.0, first.1],
            freed: 0,
            finished: false,
        });
    }
    Ok(configuration_write)
}

/// Write 3 where pairs stand beyond the due block, whose last pair becomes the boundary.
fn going_on(configuration: &Configuration, card: &[u32], boundary: Pair) -> Write {
    let has_pair_above = |place: &usize| {
        let pairs = layout::block_pairs(configuration, card, *place);
        pairs.iter().any(|&pair| pair > boundary)
    };
    let places = configuration.old_places();
    let freed = places
        .iter()
        .take_while(|place| !has_pair_above(place))
        .count() as u32;
    let after = Configuration {
        old_start: (configuration.old_start + freed) % configuration.n,
        old_length: configuration.old_length - freed,
        new_length: configuration.new_length + 1,
        boundary_term: boundary.0,
        boundary_position: boundary.1,
        ..*configuration
    };
    Write {
        which: 3,
        range: 0..layout::CONFIGURATION_WORDS,
        words: after.words().to_vec(),
        freed,
        finished: false,
    }
}

/// Write 3 where the pass finishes with a new segment of `length` blocks, which becomes the old.
fn finishing(configuration: &Configuration, length: u32) -> Write {
    let after = Configuration {
        old_start: (configuration.old_start + configuration.old_length) % configuration.n,
        old_length: length,
        new_length: 0,
        boundary_term: 0,
        boundary_position: 0,
        ..*configuration
    };
    Write {
        which: 3,
        range: 0..layout::CONFIGURATION_WORDS,
        words: after.words().to_vec(),
        freed: configuration.old_length,
        finished: true,
    }
}

fn leaves_a_place_free(configuration_words: &[u32]) -> bool {
    let configuration = Configuration::read(configuration_words);
    configuration.old_length + configuration.new_length <= configuration.n - 1
}
