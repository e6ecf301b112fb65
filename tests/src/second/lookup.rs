// Looking up: the lookup with its count of blocks read, the run view, the posting reader.

use std::ops::Range;

use super::block;
use super::judge;
use super::layout::Configuration;
use super::number;

#[derive(Clone, Copy, Debug, PartialEq, Eq)]
pub struct LookupAnswer {
    pub number: u32,
    pub count: u32,
    pub blocks: u32,
}

pub fn lookup(card: &[u32], term: u32, from: u32, to: u32, answer: &mut [u32]) -> LookupAnswer {
    let refused = |number| LookupAnswer {
        number,
        count: 0,
        blocks: 0,
    };
    let judged = judge_question(card, term, from, to);
    if judged != number::DONE {
        return refused(judged);
    }
    let mut positions = Vec::new();
    for run in runs(card, term, from, to) {
        positions.extend_from_slice(&card[run]);
    }
    if answer.len() < positions.len() {
        return refused(number::ANSWER_WORDS);
    }
    answer[..positions.len()].copy_from_slice(&positions);
    LookupAnswer {
        number: number::DONE,
        count: positions.len() as u32,
        blocks: blocks_read(card, term, from, to),
    }
}

/// The refusal's number beside the words of the card that hold the first run, 0..0 if none.
pub fn run_view(card: &[u32], term: u32, from: u32, to: u32) -> (u32, Range<usize>) {
    let judged = judge_question(card, term, from, to);
    if judged != number::DONE {
        return (judged, 0..0);
    }
    let first = runs(card, term, from, to).into_iter().next();
    (number::DONE, first.unwrap_or(0..0))
}

/// The call beside the run view: the refusal's number alone.
pub fn run_view_number(card: &[u32], term: u32, from: u32, to: u32) -> u32 {
    judge_question(card, term, from, to)
}

/// Keeps the card beside a place in it: the runs still to be read and the next word of the first.
pub struct PostingReader<'a> {
    card: &'a [u32],
    number: u32,
    runs: Vec<Range<usize>>,
    run: usize,
    word: usize,
}

impl<'a> PostingReader<'a> {
    pub fn open(card: &'a [u32], term: u32, from: u32, to: u32) -> PostingReader<'a> {
        let number = judge_question(card, term, from, to);
        let runs = if number == number::DONE {
            runs(card, term, from, to)
        } else {
            Vec::new()
        };
        let word = runs.first().map_or(0, |run| run.start);
        PostingReader {
            card,
            number,
            runs,
            run: 0,
            word,
        }
    }

    /// The number of the refusal, 0 for none.
    pub fn number(&self) -> u32 {
        self.number
    }
}

impl Iterator for PostingReader<'_> {
    type Item = u32;

    fn next(&mut self) -> Option<u32> {
        let run = self.runs.get(self.run)?;
        let position = self.card[self.word];
        self.word += 1;
        if self.word == run.end {
            self.run += 1;
            if let Some(next) = self.runs.get(self.run) {
                self.word = next.start;
            }
        }
        Some(position)
    }
}

/// 1 to 4, then 9, or 0.
fn judge_question(card: &[u32], term: u32, from: u32, to: u32) -> u32 {
    let judged = judge::judge(card);
    if judged != number::DONE {
        return judged;
    }
    if term == 0 || from == 0 || from > to {
        return number::QUESTION;
    }
    number::DONE
}

/// For each block with live positions in range, new segment before old, the words that hold them.
fn runs(card: &[u32], term: u32, from: u32, to: u32) -> Vec<Range<usize>> {
    let configuration = Configuration::read(card);
    let mut runs = Vec::new();
    for place in configuration.new_places() {
        let in_range = |position: u32| from <= position && position <= to;
        runs.extend(block_run(&configuration, card, place, term, in_range));
    }
    for place in configuration.old_places() {
        let in_range = |position: u32| {
            from <= position && position <= to && configuration.is_above_boundary((term, position))
        };
        runs.extend(block_run(&configuration, card, place, term, in_range));
    }
    runs
}

/// The words of a block that hold the term's wanted positions, or none. The wanted positions of an
/// entry stand side by side, since they are a stretch of rising positions.
fn block_run(
    configuration: &Configuration,
    card: &[u32],
    place: usize,
    term: u32,
    wanted: impl Fn(u32) -> bool,
) -> Option<Range<usize>> {
    let block_start = configuration.block_range(place).start;
    let block = configuration.block(card, place);
    let entries = block::entries(block)?;
    let entry = entries.into_iter().find(|entry| entry.term == term)?;
    let positions = &block[entry.positions.clone()];
    let first = positions.iter().position(|&position| wanted(position))?;
    let last = positions.iter().rposition(|&position| wanted(position))?;
    let start = block_start + entry.positions.start;
    Some(start + first..start + last + 1)
}

/// The defined count of blocks read, from the map alone.
fn blocks_read(card: &[u32], term: u32, from: u32, to: u32) -> u32 {
    let configuration = Configuration::read(card);
    let mut blocks = 0;
    for places in [configuration.new_places(), configuration.old_places()] {
        let last_at_most = |pair| {
            places
                .iter()
                .rposition(|&place| configuration.map_pair(card, place) <= pair)
        };
        if let Some(end) = last_at_most((term, to)) {
            let start = last_at_most((term, from)).unwrap_or(0);
            blocks += (end - start + 1) as u32;
        }
    }
    blocks
}
