// The history: a set of pairs and a mark, told only B, batches, and which write 3 took effect.

use std::collections::BTreeSet;

use super::batch;
use super::block;
use super::layout::Pair;
use super::step;

#[derive(Clone, Debug, PartialEq, Eq)]
pub struct History {
    b: u32,
    pairs: BTreeSet<Pair>,
    mark: Option<Pair>,
}

impl History {
    pub fn new(b: u32) -> History {
        History {
            b,
            pairs: BTreeSet::new(),
            mark: None,
        }
    }

    pub fn pairs(&self) -> &BTreeSet<Pair> {
        &self.pairs
    }

    pub fn mark(&self) -> Option<Pair> {
        self.mark
    }

    /// What the card's boundary words must be.
    pub fn boundary_words(&self) -> Pair {
        self.mark.unwrap_or((0, 0))
    }

    /// What a lookup must find now.
    pub fn positions(&self, term: u32, from: u32, to: u32) -> Vec<u32> {
        if from > to {
            return Vec::new();
        }
        let stretch = self.pairs.range((term, from)..=(term, to));
        stretch.map(|pair| pair.1).collect()
    }

    /// A step that was not refused. If it made write 3: whether it must have answered finished.
    pub fn step(&mut self, batch: &[u32], made_write_3: bool) -> Option<bool> {
        if made_write_3 {
            Some(self.configuration_write(batch))
        } else {
            None
        }
    }

    /// A cut step. Only a write 3 that landed changes the history.
    pub fn cut_step(&mut self, batch: &[u32], write_3_landed: bool) {
        if write_3_landed {
            self.configuration_write(batch);
        }
    }

    /// Gives whether R did not go on after D.
    fn configuration_write(&mut self, batch: &[u32]) -> bool {
        let remains = step::above(&batch::applied(batch, &self.pairs), self.mark);
        let due = block::longest_beginning(remains.iter().copied(), self.b as usize);
        let moved = step::above(&self.pairs, self.mark);
        if due.len() < remains.len() {
            let last = due[due.len() - 1];
            for pair in moved.iter().filter(|&&pair| pair <= last) {
                self.pairs.remove(pair);
            }
            self.pairs.extend(due);
            self.mark = Some(last);
            false
        } else {
            for pair in &moved {
                self.pairs.remove(pair);
            }
            self.pairs.extend(remains);
            self.mark = None;
            true
        }
    }
}
