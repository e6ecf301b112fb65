// Lists of calls on one card (steps, lookups, cuts, restarts, refused calls) against the history.

use crate::batches::{self, Mixture, Universe};
use crate::cards;
use crate::random::Random;
use crate::second::{self, History, LookupAnswer, StepAnswer};

/// A program that can be put to a list: the second program here, the library under test in ffi.rs.
pub trait Program {
    fn format(&self, card: &mut [u32], b: u32, n: u32) -> u32;
    fn judge(&self, card: &[u32]) -> u32;
    fn step(&self, card: &mut [u32], batch: &[u32]) -> StepAnswer;
    fn lookup(
        &self,
        card: &[u32],
        term: u32,
        from: u32,
        to: u32,
        answer: &mut [u32],
    ) -> LookupAnswer;
}

/// The second program itself.
pub struct Second;

impl Program for Second {
    fn format(&self, card: &mut [u32], b: u32, n: u32) -> u32 {
        second::format(card, b, n)
    }

    fn judge(&self, card: &[u32]) -> u32 {
        second::judge(card)
    }

    fn step(&self, card: &mut [u32], batch: &[u32]) -> StepAnswer {
        second::step(card, batch)
    }

    fn lookup(
        &self,
        card: &[u32],
        term: u32,
        from: u32,
        to: u32,
        answer: &mut [u32],
    ) -> LookupAnswer {
        second::lookup(card, term, from, to, answer)
    }
}

/// How often each thing happened in the lists.
#[derive(Clone, Debug, Default)]
pub struct Figures {
    pub calls: u64,
    pub writes: [u64; 4],
    pub finished: u64,
    pub stopped_by_8: u64,
    pub refused: u64,
    pub lookups: u64,
    pub postings: u64,
    pub cuts: [u64; 4],
    pub landed: u64,
    pub restarts: u64,
    pub wrapped: u64,
    pub annulling: [u64; 4],
    pub with_empty_ranges: [u64; 4],
}

/// One list in play: the card, the history beside it, and the batch being worked in.
pub struct List<'a, P: Program> {
    program: &'a P,
    b: u32,
    n: u32,
    card: Vec<u32>,
    history: History,
    universe: Universe,
    batch: Vec<u32>,
}

impl<'a, P: Program> List<'a, P> {
    /// A list on a card the formatter has just accepted.
    pub fn start(program: &'a P, random: &mut Random, b: u32, n: u32) -> List<'a, P> {
        let mut card = cards::memory(random, b, n);
        assert_eq!(program.format(&mut card, b, n), 0);
        List {
            program,
            b,
            n,
            card,
            history: History::new(b),
            universe: Universe::random(random),
            batch: Vec::new(),
        }
    }

    pub fn card(&self) -> &[u32] {
        &self.card
    }

    /// The batch being worked in.
    pub fn batch(&self) -> &[u32] {
        &self.batch
    }

    /// Makes one call chosen at random and checks everything the paper says of it.
    pub fn call(&mut self, random: &mut Random, figures: &mut Figures) {
        figures.calls += 1;
        match random.below(20) {
            0..=10 => self.step(random, figures),
            11..=13 => self.lookup(random, figures),
            14..=16 => self.cut_step(random, figures),
            17 => figures.restarts += 1,
            18 => self.refused_format(random, figures),
            _ => self.refused_step(random, figures),
        }
        self.check_card();
    }

    /// After every call the card is sound, its index the history's pairs, its boundary the mark.
    fn check_card(&self) {
        assert_eq!(self.program.judge(&self.card), 0);
        assert_eq!(second::judge(&self.card), 0);
        assert_eq!(&second::live_pairs(&self.card), self.history.pairs());
        let boundary = (self.card[6], self.card[7]);
        assert_eq!(boundary, self.history.boundary_words());
    }

    fn choose_batch(&mut self, random: &mut Random) {
        if random.chance(1, 8) {
            let mixture = Mixture::random(random);
            let most = random.pick(&[2, 8, 24, 80]);
            self.batch = batches::good(random, &self.universe, mixture, most);
        }
    }

    fn step(&mut self, random: &mut Random, figures: &mut Figures) {
        self.choose_batch(random);
        let before = self.card.clone();
        let due = second::due_write(&before, &self.batch);
        let mut expected_card = before.clone();
        let expected = second::step(&mut expected_card, &self.batch);
        let answer = self.program.step(&mut self.card, &self.batch);
        assert_eq!(answer, expected);
        assert!(self.card == expected_card);
        match due {
            None => {
                assert_eq!(answer.number, 8);
                assert_eq!((answer.write, answer.freed, answer.finished), (0, 0, false));
                assert!(self.card == before);
                figures.stopped_by_8 += 1;
                figures.refused += 1;
            }
            Some((which, range)) => {
                assert_eq!((answer.number, answer.write), (0, which));
                assert!(self.card[..range.start] == before[..range.start]);
                assert!(self.card[range.end..] == before[range.end..]);
                if which != 3 {
                    assert!(self.card[range.clone()] != before[range]);
                    assert_eq!((answer.freed, answer.finished), (0, false));
                }
                let finished = self.history.step(&self.batch, which == 3);
                assert_eq!(finished.unwrap_or(false), answer.finished);
                figures.writes[which as usize] += 1;
                figures.annulling[which as usize] += u64::from(batches::annuls(&self.batch));
                let empty = batches::has_empty_range(&self.batch);
                figures.with_empty_ranges[which as usize] += u64::from(empty);
                figures.finished += u64::from(answer.finished);
                let live = self.card[3] + self.card[4] + self.card[5];
                figures.wrapped += u64::from(live > self.n);
            }
        }
    }

    /// Makes the step's write come to nothing, to any words, or (write 3) to all or nothing.
    fn cut_step(&mut self, random: &mut Random, figures: &mut Figures) {
        self.choose_batch(random);
        let Some((which, range)) = second::due_write(&self.card, &self.batch) else {
            figures.cuts[0] += 1;
            return;
        };
        figures.cuts[which as usize] += 1;
        if which == 3 {
            let landed = random.chance(1, 2);
            if landed {
                let answer = self.program.step(&mut self.card, &self.batch);
                assert_eq!((answer.number, answer.write), (0, 3));
                figures.landed += 1;
            }
            self.history.cut_step(&self.batch, landed);
            return;
        }
        let wanted = second::step::due_words(&self.card, &self.batch).expect("not refused");
        let torn = random.below(range.len() + 1);
        let words = &mut self.card[range];
        match random.below(4) {
            0 => random.fill(words),
            1 => words[..torn].copy_from_slice(&wanted[..torn]),
            2 => words[torn..].copy_from_slice(&wanted[torn..]),
            _ => words.copy_from_slice(&wanted),
        }
        self.history.cut_step(&self.batch, false);
    }

    fn lookup(&mut self, random: &mut Random, figures: &mut Figures) {
        let term = match random.below(12) {
            0 => 0,
            1 => random.word(),
            _ => self.universe.term(random),
        };
        let (mut from, mut to) = self.universe.range(random);
        match random.below(12) {
            0 => from = 0,
            1 => std::mem::swap(&mut from, &mut to),
            2 => to = 0,
            3 => (from, to) = (random.word(), random.word()),
            _ => {}
        }
        let expected_positions = self.history.positions(term, from, to);
        let room = match random.below(6) {
            0 => expected_positions.len().saturating_sub(1),
            1 => expected_positions.len(),
            2 => 0,
            _ => expected_positions.len() + random.below(5),
        };
        let mut answer = random.words(room);
        let words_before = answer.clone();
        let card_before = self.card.clone();
        let reply = self.program.lookup(&self.card, term, from, to, &mut answer);
        assert!(self.card == card_before);
        let mut second_answer = words_before.clone();
        let second_reply = second::lookup(&self.card, term, from, to, &mut second_answer);
        assert_eq!(reply, second_reply);
        assert_eq!(answer, second_answer);
        check_lookup_beside(&self.card, term, from, to, &expected_positions);

        let number = if term == 0 || from == 0 || from > to {
            9
        } else if room < expected_positions.len() {
            10
        } else {
            0
        };
        assert_eq!(reply.number, number);
        figures.lookups += 1;
        if number != 0 {
            figures.refused += 1;
            assert_eq!((reply.count, reply.blocks), (0, 0));
            assert_eq!(answer, words_before);
            return;
        }
        let found = expected_positions.len();
        figures.postings += found as u64;
        assert_eq!(reply.count as usize, found);
        assert_eq!(answer[..found], expected_positions[..]);
        assert_eq!(answer[found..], words_before[found..]);
        let holders = holders(&self.card, term, from, to);
        assert!(reply.blocks >= holders && reply.blocks <= holders + 2);
    }

    fn refused_format(&mut self, random: &mut Random, figures: &mut Figures) {
        let (b, n) = match random.below(4) {
            0 => (random.pick(&[0, 7, 1025]), self.n),
            1 => (self.b, random.pick(&[0, 1, 1025])),
            2 => (self.b + 1, self.n),
            _ => (self.b, self.n + 1),
        };
        let before = self.card.clone();
        let number = self.program.format(&mut self.card, b, n);
        assert!(number == 5 || number == 1);
        assert!(self.card == before);
        figures.refused += 1;
    }

    fn refused_step(&mut self, random: &mut Random, figures: &mut Figures) {
        let batch = batches::bad(random, &self.universe);
        let before = self.card.clone();
        let answer = self.program.step(&mut self.card, &batch);
        assert!([6, 7, 14].contains(&answer.number));
        assert_eq!((answer.write, answer.freed, answer.finished), (0, 0, false));
        assert!(self.card == before);
        assert_eq!(second::due_write(&self.card, &batch), None);
        figures.refused += 1;
    }
}

/// The live blocks that hold a live posting in range.
pub fn holders(card: &[u32], term: u32, from: u32, to: u32) -> u32 {
    let configuration = second::Configuration::read(card);
    let wanted = |pair: &second::Pair| pair.0 == term && from <= pair.1 && pair.1 <= to;
    let mut holders = 0;
    for place in configuration.new_places() {
        let pairs = second::layout::block_pairs(&configuration, card, place);
        holders += u32::from(pairs.iter().any(wanted));
    }
    for place in configuration.old_places() {
        let pairs = second::layout::block_pairs(&configuration, card, place);
        let live = |pair: &second::Pair| wanted(pair) && configuration.is_above_boundary(*pair);
        holders += u32::from(pairs.iter().any(live));
    }
    holders
}

/// The second program's run view and posting reader against the positions that must be found.
pub fn check_lookup_beside(card: &[u32], term: u32, from: u32, to: u32, expected: &[u32]) {
    let (number, run) = second::run_view(card, term, from, to);
    assert_eq!(number, second::run_view_number(card, term, from, to));
    let reader = second::PostingReader::open(card, term, from, to);
    assert_eq!(reader.number(), number);
    let read: Vec<u32> = reader.collect();
    if number != 0 {
        assert_eq!(run, 0..0);
        assert!(read.is_empty());
        return;
    }
    assert_eq!(read, expected);
    assert!(expected.starts_with(&card[run.clone()]));
    assert_eq!(run.is_empty(), expected.is_empty());
    if !run.is_empty() && holders(card, term, from, to) == 1 {
        assert_eq!(run.len(), expected.len());
    }
}
