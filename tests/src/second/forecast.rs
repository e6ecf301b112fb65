// The forecast (document 02, slip 6): how a pass with this batch will go from this card on, worked
// out on paper.

use super::batch;
use super::block;
use super::judge;
use super::layout::{self, Configuration, Pair};
use super::number;
use super::step;

#[derive(Clone, Copy, Debug, PartialEq, Eq)]
pub struct ForecastAnswer {
    pub number: u32,
    pub blocks: u32,
    pub limit: u32,
    pub finishes: bool,
    pub writes: u32,
}

/// G, the step limit, and either that the pass will finish or the configuration writes before 8,
/// which is no refusal here. Refused: all figures 0, not finishing.
pub fn forecast(card: &[u32], batch: &[u32]) -> ForecastAnswer {
    let refused = |number| ForecastAnswer {
        number,
        blocks: 0,
        limit: 0,
        finishes: false,
        writes: 0,
    };
    let judged = judge::judge(card);
    if judged != number::DONE {
        return refused(judged);
    }
    let judged = batch::judge_batch(batch);
    if judged != number::DONE {
        return refused(judged);
    }
    let due = due_blocks(card, batch);
    let blocks = due.len() as u32;
    let stops = writes_before_8(card, &due);
    ForecastAnswer {
        number: number::DONE,
        blocks,
        limit: step::step_limit(blocks),
        finishes: stops.is_none(),
        writes: stops.unwrap_or(0),
    }
}

/// The pass's due blocks: the longest beginning of what remains that fits, then that of the rest,
/// and so on.
fn due_blocks(card: &[u32], batch: &[u32]) -> Vec<Vec<Pair>> {
    let b = Configuration::read(card).b as usize;
    let remains: Vec<Pair> = step::what_remains(card, batch).into_iter().collect();
    let mut rest = &remains[..];
    let mut blocks = Vec::new();
    while !rest.is_empty() {
        let due = block::longest_beginning(rest.iter().copied(), b);
        rest = &rest[due.len()..];
        blocks.push(due);
    }
    blocks
}

/// The configuration writes before the first that would leave no place free, or none where each one
/// leaves a place.
fn writes_before_8(card: &[u32], due: &[Vec<Pair>]) -> Option<u32> {
    let configuration = Configuration::read(card);
    // The old blocks as they stand, also with pairs that the batch removes.
    let mut old: Vec<Vec<Pair>> = Vec::new();
    for place in configuration.old_places() {
        old.push(layout::block_pairs(&configuration, card, place));
    }
    let mut new_length = configuration.new_length as usize;
    for (made, block) in due.iter().enumerate() {
        new_length += 1;
        if made + 1 == due.len() {
            // The pass finishes: no old block is left.
            old.clear();
        } else {
            let boundary = block[block.len() - 1];
            while !old.is_empty() && !old[0].iter().any(|&pair| pair > boundary) {
                old.remove(0);
            }
        }
        if old.len() + new_length > configuration.n as usize - 1 {
            return Some(made as u32);
        }
    }
    None
}
