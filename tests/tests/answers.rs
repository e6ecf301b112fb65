// Answers where moving them in wide pieces could go wrong, and where finding their bounds could: of
// every length, from every offset, with card and answer words lent at every alignment; ranges at,
// beside and between the positions of an entry, wherever it stands in its block, its segment and
// the circle.

use std::ops::Range;

use gameindex_tests::cards;
use gameindex_tests::compare::{self, Question, Tally};
use gameindex_tests::ffi;
use gameindex_tests::random::Random;
use gameindex_tests::second::block;
use gameindex_tests::second::{self, Configuration, LookupAnswer, Pair, PostingReader};

const TOP: u32 = u32::MAX;

/// The term that is asked for; others stand beside it.
const TERM: u32 = 1000;

/// Slices are lent at each of so many words, counted from a multiple of 32 bytes.
const ALIGNMENTS: usize = 8;

/// Guard words on either side of what is lent, more than a wide move takes at a time.
const GUARD: usize = 64;

/// Memory of guard words, all different, in which slices are lent.
struct Memory {
    words: Vec<u32>,
    guards: Vec<u32>,
    first: usize,
}

impl Memory {
    /// With room for so many words at every alignment.
    fn new(most: usize) -> Memory {
        let length = 2 * GUARD + 2 * ALIGNMENTS + most;
        let guards: Vec<u32> = (0..length).map(|i| 0x5EED_0000 + i as u32).collect();
        let words = guards.clone();
        let address = words.as_ptr() as usize / size_of::<u32>();
        let first = (address + GUARD).next_multiple_of(ALIGNMENTS) - address;
        Memory {
            words,
            guards,
            first,
        }
    }

    /// The place of so many words at an alignment.
    fn place(&self, alignment: usize, length: usize) -> Range<usize> {
        let start = self.first + alignment;
        assert!(start + length + GUARD <= self.words.len());
        start..start + length
    }

    fn put(&mut self, alignment: usize, words: &[u32]) -> Range<usize> {
        let place = self.place(alignment, words.len());
        self.words[place.clone()].copy_from_slice(words);
        place
    }

    /// Whether these words stand from there on, and guards everywhere else.
    fn holds(&self, start: usize, words: &[u32]) -> bool {
        let end = start + words.len();
        let before = self.words[..start] == self.guards[..start];
        let after = self.words[end..] == self.guards[end..];
        before && after && self.words[start..end] == *words
    }

    fn restore(&mut self, place: Range<usize>) {
        self.words[place.clone()].copy_from_slice(&self.guards[place]);
    }
}

/// A question, and what the second program says of it.
struct Asked {
    question: Question,
    positions: Vec<u32>,
    replies: Vec<(usize, LookupAnswer)>,
    view: (u32, Range<usize>),
}

impl Asked {
    /// With just as many answer words as positions, one less, now and then still fewer, and so many
    /// more.
    fn new(random: &mut Random, card: &[u32], question: Question, more: &[usize]) -> Asked {
        let (term, from, to) = question;
        let positions: Vec<u32> = PostingReader::open(card, term, from, to).collect();
        let found = positions.len();
        let mut rooms = vec![found];
        rooms.extend(found.checked_sub(1));
        if found > 1 && random.chance(1, 4) {
            rooms.push(random.below(found - 1));
        }
        rooms.extend(more.iter().map(|more| found + more));
        let reply = |room: usize| {
            let mut words = vec![0; room];
            let reply = second::lookup(card, term, from, to, &mut words);
            let (first, others) = words.split_at(reply.count as usize);
            assert!(*first == positions[..first.len()] && others.iter().all(|&word| word == 0));
            (room, reply)
        };
        let replies = rooms.into_iter().map(reply).collect();
        Asked {
            question,
            replies,
            view: second::run_view(card, term, from, to),
            positions,
        }
    }
}

/// Lends cards and answer words at chosen alignments, compares, and counts.
struct Desk {
    card: Memory,
    answer: Memory,
    random: Random,
    lookups: Tally,
    whole: Tally,
    pages: Tally,
    aligned: [[u64; ALIGNMENTS]; ALIGNMENTS],
}

impl Desk {
    fn new(seed: u64, card_words: usize, answer_words: usize) -> Desk {
        Desk {
            card: Memory::new(card_words),
            answer: Memory::new(answer_words),
            random: Random::new(seed),
            lookups: Tally::new(),
            whole: Tally::new(),
            pages: Tally::new(),
            aligned: Default::default(),
        }
    }

    /// The library gives the second program's replies: the lookup, the one of all positions where
    /// these are asked for, the reading, which is never refused for want of words, and the run
    /// view. Every word is looked at: those found, those behind them, and the guards around both
    /// slices.
    fn ask(&mut self, card: &[u32], asked: &Asked, card_at: usize, answer_at: usize) {
        let (term, from, to) = asked.question;
        let card_place = self.card.put(card_at, card);
        for &(room, reply) in &asked.replies {
            let place = self.answer.place(answer_at, room);
            let message = |what: &str| {
                format!(
                    "{what}: term {term} from {from} to {to}, {} positions, {room} answer words, \
                     alignments {card_at} and {answer_at}, card {card:?}",
                    asked.positions.len()
                )
            };
            let found = &asked.positions[..reply.count as usize];
            let lent = &self.card.words[card_place.clone()];
            let given = ffi::lookup(lent, term, from, to, &mut self.answer.words[place.clone()]);
            assert_eq!(given, reply, "{}", message("lookup"));
            let as_wanted = self.answer.holds(place.start, found);
            assert!(as_wanted, "{}", message("the lookup's words"));
            self.answer.restore(place.clone());
            self.lookups.note(given.number);

            if (from, to) == (1, TOP) {
                let given = ffi::lookup_all(lent, term, &mut self.answer.words[place.clone()]);
                assert_eq!(given, reply, "{}", message("lookup of all"));
                let as_wanted = self.answer.holds(place.start, found);
                assert!(as_wanted, "{}", message("the words of the lookup of all"));
                self.answer.restore(place.clone());
                self.whole.note(given.number);
            }

            let read = &asked.positions[..asked.positions.len().min(room)];
            let given = ffi::read(lent, term, from, to, &mut self.answer.words[place.clone()]);
            assert_eq!(given, (0, read.len()), "{}", message("reading"));
            let as_wanted = self.answer.holds(place.start, read);
            assert!(as_wanted, "{}", message("the reading's words"));
            self.answer.restore(place);

            let kept = self.card.holds(card_place.start, card);
            assert!(kept, "{}", message("card and guards around it"));
        }
        let lent = &self.card.words[card_place.clone()];
        let view = ffi::run_view(lent, term, from, to);
        assert_eq!(view, asked.view, "run view of {:?}", asked.question);
        self.card.restore(card_place);
        self.aligned[card_at][answer_at] += 1;
    }

    /// Asks with other alignments each time, with one word more or several; now and then for the
    /// page too.
    fn ask_anywhere(&mut self, card: &[u32], question: Question) -> Asked {
        let more = [self.random.pick(&[1, 2, 5, 9, 33])];
        let asked = Asked::new(&mut self.random, card, question, &more);
        let alignments = self.random.below(ALIGNMENTS * ALIGNMENTS);
        let (card_at, answer_at) = (alignments / ALIGNMENTS, alignments % ALIGNMENTS);
        self.ask(card, &asked, card_at, answer_at);
        self.page_now_and_then(card, question);
        asked
    }

    fn page_now_and_then(&mut self, card: &[u32], question: Question) {
        if self.random.chance(1, 50) {
            let (pages, random) = (&mut self.pages, &mut self.random);
            compare::pages(pages, random, card, question, &String::new);
        }
    }

    /// Prints the test's lines; fails unless every two alignments came, and 0 and 10, often enough.
    fn finish(&self, test: &str, least: u64) {
        self.lookups.report(test);
        self.whole.report(&format!("{test}, all of a term"));
        self.pages.report(&format!("{test}, pages"));
        self.lookups.expect(&[0, 10], least);
        let rarest = self.aligned.iter().flatten().min();
        assert!(rarest >= Some(&(least / 100)), "{:?}", self.aligned);
    }
}

/// So many rising positions, each at least 2 above the one before, so that ranges fit between them.
fn apart(random: &mut Random, count: usize) -> Vec<u32> {
    let mut positions = Vec::new();
    let mut last = random.within(0, 9);
    for _ in 0..count {
        last += random.within(2, 60);
        positions.push(last);
    }
    positions
}

/// A term's pairs.
fn of_term(term: u32, positions: &[u32]) -> impl Iterator<Item = Pair> + '_ {
    positions.iter().map(move |&position| (term, position))
}

/// The words that these pairs take in a block.
fn words_of(pairs: &[Pair]) -> usize {
    let previous = |i: usize| i.checked_sub(1).map(|before| pairs[before]);
    let costs = pairs.iter().enumerate();
    costs.map(|(i, &pair)| block::cost(previous(i), pair)).sum()
}

/// A sound card of two places with one live block, in the first place or, at the card's end, in the
/// last.
fn one_block(random: &mut Random, pairs: Vec<Pair>, b: usize) -> Vec<u32> {
    let b = b as u32;
    let memory = cards::memory(random, b, 2);
    let start = random.below(2) as u32;
    let card = cards::laid_out(memory, b, 2, start, &[pairs], &[]);
    assert_eq!(second::judge(&card), 0);
    card
}

/// Where an answer of one block begins: the word within its entry, the word within its block.
fn offsets(card: &[u32], view: &Range<usize>) -> (usize, usize) {
    let configuration = Configuration::read(card);
    let place = configuration.old_places()[0];
    let in_block = view.start - configuration.block_range(place).start;
    let entries = block::entries(configuration.block(card, place)).expect("a sound block");
    let entry = entries.iter().find(|entry| entry.term == TERM);
    (in_block - entry.unwrap().positions.start, in_block)
}

/// How answers stood in their entries, and the entries in their blocks.
#[derive(Debug, Default)]
struct Parts {
    whole: u64,
    head: u64,
    tail: u64,
    middle: u64,
    at_the_blocks_end: u64,
    at_the_cards_end: u64,
    before_zeros: u64,
    before_an_entry: u64,
}

impl Parts {
    fn note(&mut self, card: &[u32], view: &Range<usize>, before: usize, behind: usize) {
        match (before, behind) {
            (0, 0) => self.whole += 1,
            (0, _) => self.head += 1,
            (_, 0) => self.tail += 1,
            _ => self.middle += 1,
        }
        let configuration = Configuration::read(card);
        let block = configuration.block_range(configuration.old_places()[0]);
        if view.end == card.len() {
            self.at_the_cards_end += 1;
        }
        if view.end == block.end {
            self.at_the_blocks_end += 1;
        } else if behind == 0 && card[view.end] == 0 {
            self.before_zeros += 1;
        } else if behind == 0 {
            self.before_an_entry += 1;
        }
    }

    fn expect(&self, least: u64) {
        for count in [
            self.whole,
            self.head,
            self.tail,
            self.middle,
            self.at_the_blocks_end,
            self.at_the_cards_end,
            self.before_zeros,
            self.before_an_entry,
        ] {
            assert!(count >= least, "too few: {self:?}");
        }
    }
}

/// A card and a question whose answer has so many positions and begins, modulo 16, at these words
/// of its entry and of its block, or is its whole entry; with it how many positions the entry has
/// before and behind the answer. None where no block is so long.
fn answer_at(
    random: &mut Random,
    length: usize,
    in_entry: usize,
    in_block: usize,
    whole: bool,
) -> Option<(Vec<u32>, Question, usize, usize)> {
    let long = length > 100;
    let mut before = in_entry + if long { 0 } else { 16 * random.below(3) };
    let mut behind = random.pick(&[0, 0, 1, 2, 3, 8, 20]);
    if whole {
        (before, behind) = (0, 0);
    } else if in_entry == 0 && random.chance(1, 2) {
        before = 0;
    }
    let mut start = (in_block + 32 - 2 - in_entry) % 16;
    if start == 1 || start == 2 || (start == 0 && !long && random.chance(1, 2)) {
        start += 16;
    }
    if start + 2 + before + length + behind > 1024 {
        behind = 0;
    }
    if start + 2 + before + length > 1024 {
        return None;
    }
    if length == 0 && before + behind == 0 {
        (before, behind) = if in_entry == 0 { (0, 1) } else { (1, 0) };
    }
    let positions = apart(random, before + length + behind);
    let mut pairs: Vec<Pair> = Vec::new();
    if start > 0 {
        pairs.extend(of_term(TERM - 1, &apart(random, start - 2)));
    }
    pairs.extend(of_term(TERM, &positions));
    let used = words_of(&pairs);
    let mut b = used + random.pick(&[0, 1, 2, 3, 7]);
    if random.chance(1, 3) {
        let count = 1 + random.below(4);
        let more = apart(random, count);
        pairs.extend(of_term(random.pick(&[TERM + 1, TOP]), &more));
        b = words_of(&pairs) + random.below(4);
    }
    if b > 1024 {
        pairs.retain(|pair| pair.0 <= TERM);
        b = 1024;
    }
    let card = one_block(random, pairs, b.max(8));

    // From the first position or from above the one before, to the last or to below the next.
    let below = if before == 0 {
        0
    } else {
        positions[before - 1]
    };
    let above = positions.get(before + length).copied();
    let lowest = below + 1;
    let highest = above.map_or(TOP, |next| next - 1);
    let wanted = &positions[before..before + length];
    let first = wanted.first().copied().unwrap_or(lowest);
    let last = wanted.last().copied().unwrap_or(highest);
    let from = random.pick(&[first, lowest]);
    let to = random.pick(&[last, highest]);
    let question = if whole && length > 0 && random.chance(1, 2) {
        (TERM, 1, TOP)
    } else {
        (TERM, from, to)
    };
    Some((card, question, before, behind))
}

/// Answers of 0 to 72 positions and of some longer lengths, from every word of the entry and of the
/// block modulo 16, with card and answer words at every alignment modulo 8 words; just as many
/// answer words as positions, one more, several more, and one less, which is refused.
#[test]
fn answers_of_every_length_from_every_offset_at_every_alignment() {
    let mut random = Random::new(81);
    let mut small = Desk::new(82, 400, 180);
    let mut large = Desk::new(83, cards::right_length(1024, 2), 1100);
    let mut parts = Parts::default();
    let longer = [
        126, 127, 128, 129, 130, 255, 256, 257, 511, 1019, 1020, 1021, 1022,
    ];
    let mut full_blocks = 0;
    for length in (0..=72).chain(longer) {
        let desk = if length <= 72 { &mut small } else { &mut large };
        // By the word of the entry modulo 16, the last for whole entries; then by the word of the
        // block, and by the alignments.
        let mut from_offsets = [[0u64; 16]; 17];
        let mut aligned = [[[0u64; ALIGNMENTS]; ALIGNMENTS]; 17];
        // By the alignments of the first position on the card and of its answer word.
        let mut moved = [[0u64; ALIGNMENTS]; ALIGNMENTS];
        for (row, in_block) in (0..17 * 16).map(|both| (both / 16, both % 16)) {
            let (in_entry, whole) = (row % 16, row == 16);
            let Some((card, question, before, behind)) =
                answer_at(&mut random, length, in_entry, in_block, whole)
            else {
                continue;
            };
            let more = [1, random.pick(&[2, 3, 4, 7, 8, 9, 16, 31, 40])];
            let asked = Asked::new(&mut random, &card, question, &more);
            assert_eq!(asked.positions.len(), length);
            if length > 0 {
                let (entry_word, block_word) = offsets(&card, &asked.view.1);
                assert_eq!((entry_word % 16, block_word % 16), (in_entry, in_block));
                assert!(!whole || before + behind == 0);
                parts.note(&card, &asked.view.1, before, behind);
                full_blocks += u64::from(length == 1022);
            }
            desk.page_now_and_then(&card, question);
            from_offsets[row][in_block] += 1;
            for card_at in 0..ALIGNMENTS {
                for turn in 0..ALIGNMENTS {
                    // The longest answers have few offsets: there each meets all alignments.
                    if length < 1000 && turn > 0 {
                        break;
                    }
                    let answer_at = (card_at + in_block + turn) % ALIGNMENTS;
                    desk.ask(&card, &asked, card_at, answer_at);
                    aligned[row][card_at][answer_at] += 1;
                    moved[(card_at + asked.view.1.start) % ALIGNMENTS][answer_at] += 1;
                }
            }
        }
        for row in 0..17 {
            let fits = row % 16 + length <= 1022;
            let every = aligned[row].iter().flatten().all(|&count| count > 0);
            assert!(every == fits, "length {length}, row {row}: {aligned:?}");
            let every = from_offsets[row].iter().all(|&count| count > 0);
            assert!(every || length > 900, "length {length}, row {row}");
        }
        let every = moved.iter().flatten().all(|&count| count > 0);
        assert!(every || length == 0, "length {length}: {moved:?}");
    }
    let test = "answers_of_every_length_from_every_offset_at_every_alignment";
    small.finish(test, 100_000);
    large.finish(&format!("{test}, long"), 10_000);
    println!("{test}: {parts:?}");
    parts.expect(500);
    assert!(full_blocks > 0);
}

/// At, just below and just above each of these positions, the lowest and the highest.
fn beside(positions: &[u32]) -> Vec<u32> {
    let mut bounds = vec![1, TOP];
    for &position in positions {
        bounds.extend([position, (position - 1).max(1), position.saturating_add(1)]);
    }
    bounds.sort_unstable();
    bounds.dedup();
    bounds
}

/// Every range between two of these bounds, or of one alone.
fn ranges(bounds: &[u32]) -> impl Iterator<Item = (u32, u32)> + '_ {
    let from_each = move |i: usize| bounds[i..].iter().map(move |&to| (bounds[i], to));
    (0..bounds.len()).flat_map(from_each)
}

/// Where a bound stands to an entry's positions.
fn class(positions: &[u32], bound: u32) -> usize {
    match positions.binary_search(&bound) {
        Ok(0) => AT_FIRST,
        Ok(at) if at + 1 == positions.len() => AT_LAST,
        Ok(_) => AT_ANOTHER,
        Err(0) => BELOW,
        Err(at) if at == positions.len() => ABOVE,
        Err(_) => BETWEEN,
    }
}

const BELOW: usize = 0;
const AT_FIRST: usize = 1;
const AT_ANOTHER: usize = 2;
const BETWEEN: usize = 3;
const AT_LAST: usize = 4;
const ABOVE: usize = 5;
const CLASSES: usize = 6;

/// Fails unless every class of from came with every class of to that can go with it.
fn expect_classes(counts: &[[u64; CLASSES]; CLASSES], least: u64) {
    for from in 0..CLASSES {
        for to in 0..CLASSES {
            let possible = from <= to || (from, to) == (BETWEEN, AT_ANOTHER);
            let count = counts[from][to];
            assert!(!possible || count >= least, "{from} to {to}: {counts:?}");
        }
    }
}

/// So many rising positions in one of five ways: from the lowest on and up to the highest, without
/// gaps; with one word between any two; with gaps by chance; from the lowest to the highest.
fn spread(random: &mut Random, way: usize, count: usize) -> Vec<u32> {
    let many = count as u32;
    match way {
        0 => (1..=many).collect(),
        1 => (TOP - many + 1..=TOP).collect(),
        2 => (1..=many).map(|i| 2 * i + 1).collect(),
        _ => {
            let mut positions = Vec::new();
            let mut last = random.pick(&[0, 1, 40, 5_000_000]);
            for _ in 0..count {
                last += random.pick(&[1, 1, 2, 3, 50, 100_000]);
                positions.push(last);
            }
            if way == 4 {
                positions[count - 1] = TOP;
                positions[0] = if count > 1 { 1 } else { TOP };
            }
            positions
        }
    }
}
const WAYS: usize = 5;

/// What follows an entry in its block.
#[derive(Clone, Copy, PartialEq, Eq)]
enum Behind {
    Entry,
    Zeros,
    End,
}

/// Where an entry stands: whether another is before it, and what follows.
const STANDS: [(bool, Behind); 6] = [
    (false, Behind::Entry),
    (false, Behind::Zeros),
    (false, Behind::End),
    (true, Behind::Entry),
    (true, Behind::Zeros),
    (true, Behind::End),
];

/// The pairs of a block with an entry of these positions that stands so, and its B. Beside it are
/// the same positions, as far as they go, under other terms. None where B would be below 8.
fn standing(
    random: &mut Random,
    positions: &[u32],
    (after_another, behind): (bool, Behind),
) -> Option<(Vec<Pair>, usize)> {
    let some = &positions[..positions.len().min(1 + random.below(4))];
    let mut pairs: Vec<Pair> = Vec::new();
    if after_another {
        pairs.extend(of_term(TERM - 1, some));
    }
    pairs.extend(of_term(TERM, positions));
    if behind == Behind::Entry {
        let next = positions[positions.len() - 1].saturating_add(1);
        let next = random.pick(&[TERM + 1, next.max(TERM + 1), TOP]);
        pairs.extend(of_term(next, some));
    }
    let rest = match behind {
        Behind::Entry => random.pick(&[0, 1, 2, 5]),
        Behind::Zeros => random.pick(&[1, 2, 3, 4, 9]),
        Behind::End => 0,
    };
    let b = words_of(&pairs) + rest;
    if behind == Behind::End && b < 8 {
        return None;
    }
    Some((pairs, b.max(8)))
}

/// Entries of every length to 40 and of some beyond, first, in the middle and last in their blocks,
/// followed by an entry, by zeros and by the block's end; every range at, just below and just above
/// their positions.
#[test]
fn ranges_at_and_beside_every_position_of_an_entry() {
    let mut random = Random::new(84);
    let mut desk = Desk::new(85, 300, 100);
    let mut large = Desk::new(86, cards::right_length(1024, 2), 1100);
    let mut classes = [[[0u64; CLASSES]; CLASSES]; STANDS.len()];
    let (mut from_is_to, mut lowest_found, mut highest_found) = (0u64, 0u64, 0u64);
    // By the entry's length: ranges that begin between two positions.
    let mut from_between = [0u64; 41];
    let longer = [41, 63, 64, 65, 66, 127, 128, 129, 300, 1000, 1022];
    for length in (1..=40).chain(longer) {
        for (at, &stands) in STANDS.iter().enumerate() {
            for way in 0..WAYS {
                // Longer entries take turns.
                let turn = (length + at + way) % (STANDS.len() - 1) == 0;
                if length > 12 && way > 1 && !(turn && at % 2 == length % 2) {
                    continue;
                }
                let positions = spread(&mut random, way, length);
                let Some((pairs, b)) = standing(&mut random, &positions, stands) else {
                    continue;
                };
                if b > 1024 {
                    continue;
                }
                let card = one_block(&mut random, pairs, b);
                let mut bounds = beside(&positions);
                if length > 40 {
                    // At the ends, where halving begins, and by chance.
                    let mut some = vec![0, 1, length / 2 - 1, length / 2, length - 2, length - 1];
                    some.extend((0..3).map(|_| random.below(length)));
                    let some: Vec<u32> = some.into_iter().map(|i| positions[i]).collect();
                    bounds = beside(&some);
                }
                let desk = if length > 40 { &mut large } else { &mut desk };
                for (from, to) in ranges(&bounds) {
                    let asked = desk.ask_anywhere(&card, (TERM, from, to));
                    classes[at][class(&positions, from)][class(&positions, to)] += 1;
                    if class(&positions, from) == BETWEEN && length <= 40 {
                        from_between[length] += 1;
                    }
                    from_is_to += u64::from(from == to);
                    lowest_found += u64::from(asked.positions.first() == Some(&1));
                    highest_found += u64::from(asked.positions.last() == Some(&TOP));
                }
            }
        }
    }
    let test = "ranges_at_and_beside_every_position_of_an_entry";
    desk.finish(test, 100_000);
    large.finish(&format!("{test}, long"), 5_000);
    println!("{test}: from is to {from_is_to}, 1 {lowest_found}, highest {highest_found}");
    println!("{test}: {classes:?}");
    for counts in &classes {
        expect_classes(counts, 40);
    }
    let every_length = from_between[2..].iter().all(|&count| count > 0);
    assert!(every_length, "{from_between:?}");
    assert!(from_is_to > 5_000 && lowest_found > 5_000 && highest_found > 5_000);
    desk.whole.expect(&[0, 10], 200);
    desk.pages.expect(&[0, 11], 2_000);
}

/// Positions of the term by block, each with the block's place.
type Runs = Vec<(usize, Vec<u32>)>;

/// The live positions of the term in each live block that has any, new segment before old.
fn live_runs(card: &[u32]) -> (Runs, Runs) {
    let configuration = Configuration::read(card);
    let runs = |places: Vec<usize>, old: bool| -> Runs {
        let run = |place: usize| {
            let pairs = second::layout::block_pairs(&configuration, card, place).into_iter();
            let live = pairs.filter(|&pair| !old || configuration.is_above_boundary(pair));
            let positions: Vec<u32> = live.filter(|pair| pair.0 == TERM).map(|p| p.1).collect();
            (place, positions)
        };
        let all = places.into_iter().map(run);
        all.filter(|(_, positions)| !positions.is_empty()).collect()
    };
    let new = runs(configuration.new_places(), false);
    (new, runs(configuration.old_places(), true))
}

/// The term over several blocks that follow one another, the first of them new where a pass is
/// open. The first old block may begin with pairs up to the boundary, which are live in the new
/// segment.
fn over_blocks(random: &mut Random, b: u32, n: u32, new_count: usize, live: usize) -> Vec<u32> {
    let most = b as usize - 2;
    let mut last = random.pick(&[0, 3, 70_000, TOP - 2_000]);
    let mut blocks: Vec<Vec<Pair>> = Vec::new();
    for i in 0..live {
        // The first old block of an open pass and the ends leave room for other pairs.
        let spare = if i == 0 || i == new_count || i + 1 == live {
            3
        } else {
            0
        };
        let count = if random.chance(1, 2) {
            most - spare
        } else {
            1 + random.below(most - spare)
        };
        let mut positions: Vec<u32> = Vec::new();
        for _ in 0..count {
            last += random.pick(&[1, 1, 2, 5]);
            positions.push(last);
        }
        blocks.push(of_term(TERM, &positions).collect());
    }
    let mut old = blocks.split_off(new_count);
    if let (Some(new), Some(first)) = (blocks.last(), old.first_mut()) {
        let hidden = new.len().min(random.below(4));
        first.splice(0..0, new[new.len() - hidden..].iter().copied());
    }
    // Other terms before the first block and behind the last.
    if new_count != 1 && random.chance(1, 2) {
        let first = if new_count > 0 { &mut blocks } else { &mut old };
        first[0].insert(0, (TERM - 1, 7));
    }
    let (end, fits) = match old.last_mut() {
        Some(end) => (end, live > new_count + 1),
        None => (blocks.last_mut().unwrap(), false),
    };
    if fits && random.chance(1, 2) {
        end.push((TERM + 1, last));
    }
    let start = random.below(n as usize) as u32;
    let memory = cards::memory(random, b, n);
    let card = cards::laid_out(memory, b, n, start, &old, &blocks);
    assert_eq!(second::judge(&card), 0);
    card
}

/// Terms over several blocks, around the circle too, in one segment and in both; ranges at, just
/// below and just above the first and the last position of each block, and one between.
#[test]
fn ranges_over_several_blocks() {
    let mut random = Random::new(87);
    let mut desk = Desk::new(88, 400, 400);
    let (mut several, mut around, mut both_segments, mut to_the_end) = (0u64, 0u64, 0u64, 0u64);
    // By whether from is the first position of a block, the last, or neither; then the same of to.
    let mut ends = [[0u64; 3]; 3];
    for round in 0..150 {
        let b = random.pick(&[8, 9, 10, 12, 17, 18, 19, 26, 34, 35, 42]);
        let n = random.within(3, 8);
        let live = n as usize - 1 - usize::from(n > 3 && random.chance(1, 3));
        let new_count = if round % 3 == 0 {
            0
        } else {
            random.below(live)
        };
        let card = over_blocks(&mut random, b, n, new_count, live);
        let (new, old) = live_runs(&card);
        let all: Runs = new.iter().chain(&old).cloned().collect();
        let mut some = Vec::new();
        for (_, positions) in &all {
            some.extend([positions[0], positions[positions.len() - 1]]);
        }
        let inside = random.below(all.len());
        some.push(random.pick(&all[inside].1));
        let bounds = beside(&some);
        for (from, to) in ranges(&bounds) {
            let asked = desk.ask_anywhere(&card, (TERM, from, to));
            let wanted = |positions: &[u32]| positions.iter().any(|&p| from <= p && p <= to);
            let holders = |runs: &Runs| -> Vec<usize> {
                let holding = runs.iter().filter(|(_, positions)| wanted(positions));
                holding.map(|&(place, _)| place).collect()
            };
            let places = [holders(&new), holders(&old)];
            let joined = places.concat();
            several += u64::from(joined.len() > 1);
            around += u64::from(places.iter().any(|places| !places.is_sorted()));
            both_segments += u64::from(places.iter().all(|places| !places.is_empty()));
            to_the_end += u64::from(asked.view.1.end == card.len());
            let end = |bound: u32| {
                let first = all.iter().any(|(_, positions)| positions[0] == bound);
                let last = all
                    .iter()
                    .any(|(_, positions)| positions.last() == Some(&bound));
                if first {
                    0
                } else if last {
                    1
                } else {
                    2
                }
            };
            ends[end(from)][end(to)] += u64::from(joined.len() > 1);
        }
    }
    let test = "ranges_over_several_blocks";
    desk.finish(test, 30_000);
    println!(
        "{test}: several {several}, around the circle {around}, both segments {both_segments}, \
         to the card's end {to_the_end}, {ends:?}"
    );
    assert!(several > 10_000 && around > 2_000 && both_segments > 5_000 && to_the_end > 1_000);
    assert!(ends.iter().flatten().all(|&count| count > 500));
    desk.whole.expect(&[0, 10], 50);
    desk.pages.expect(&[0, 11], 500);
}

/// A new block that ends with the boundary: under its term some positions below it.
fn new_block(random: &mut Random, boundary: Pair, b: usize) -> Vec<Pair> {
    let (term, mut position) = boundary;
    let mut pairs = vec![boundary];
    let most = 1 + random.below((b - 2).min(11));
    while pairs.len() < most {
        let step = random.pick(&[1, 1, 2, 9]);
        if position <= step {
            break;
        }
        position -= step;
        pairs.push((term, position));
    }
    pairs.reverse();
    if term > TERM && pairs.len() + 5 <= b {
        pairs.insert(0, (TERM, random.pick(&[1, 2, 50, TOP])));
    }
    pairs
}

const LOWER_TERM: usize = CLASSES;
const HIGHER_TERM: usize = CLASSES + 1;

/// Open passes whose boundary stands at, just below and just above each position of an entry of the
/// first old block, or under the terms beside it; ranges at, just below and just above positions
/// and boundary.
#[test]
fn ranges_at_and_beside_the_boundary() {
    let mut random = Random::new(89);
    let mut desk = Desk::new(90, 700, 260);
    // By where the boundary stands, then by where from does.
    let mut classes = [[0u64; CLASSES]; CLASSES + 2];
    let (mut hidden_asked, mut from_both, mut below_first) = (0u64, 0u64, 0u64);
    for length in (1..=40).chain([64, 65]) {
        for way in 0..WAYS {
            if length > 6 && way != length % 2 && way != 2 + length % 3 {
                continue;
            }
            for behind_too in [false, true] {
                let positions = spread(&mut random, way, length);
                let last = positions[length - 1];
                let stands = if behind_too {
                    STANDS[random.pick(&[0, 3])]
                } else {
                    STANDS[random.pick(&[1, 4, 5])]
                };
                let Some((mut pairs, b)) = standing(&mut random, &positions, stands) else {
                    continue;
                };
                // What is behind goes on far enough for a boundary under its term.
                if behind_too && words_of(&pairs) < b {
                    let end = pairs[pairs.len() - 1];
                    pairs.extend((end.1 < TOP).then_some((end.0, TOP)));
                }
                let mut old = vec![pairs];
                if !behind_too && last < TOP - 100 && random.chance(1, 2) {
                    let count = 1 + random.below(b - 2);
                    let more: Vec<u32> = (1..=count as u32).map(|i| last + i).collect();
                    old.push(of_term(TERM, &more).collect());
                }
                let mut boundaries: Vec<Pair> = of_term(TERM, &beside(&positions)).collect();
                boundaries.extend([1, last, TOP].map(|position| (TERM - 1, position)));
                boundaries.extend([1, last, TOP - 1].map(|position| (TERM + 1, position)));
                for boundary in boundaries {
                    let first_old_end = old[0][old[0].len() - 1];
                    if first_old_end <= boundary {
                        continue;
                    }
                    let new = [new_block(&mut random, boundary, b)];
                    let n = random.within(4, 5);
                    let memory = cards::memory(&mut random, b as u32, n);
                    let start = random.below(n as usize) as u32;
                    let card = cards::laid_out(memory, b as u32, n, start, &old, &new);
                    assert_eq!(second::judge(&card), 0);
                    let (stand, mut some) = match boundary {
                        (TERM, at) => (class(&positions, at), vec![at]),
                        (term, _) if term < TERM => (LOWER_TERM, vec![]),
                        _ => (HIGHER_TERM, vec![]),
                    };
                    if length <= 6 {
                        some.extend(&positions);
                    } else {
                        // Of longer entries the ends, those beside the boundary, and one by chance.
                        let above = positions.partition_point(|&position| position <= boundary.1);
                        let wanted = [0, above.max(1) - 1, above, length - 1, random.below(length)];
                        some.extend(wanted.iter().filter_map(|&i| positions.get(i)));
                    }
                    for (from, to) in ranges(&beside(&some)) {
                        // Boundaries within the entry are many: of their ranges some will do.
                        let within = stand == AT_ANOTHER || stand == BETWEEN;
                        if length > 6 && within && random.chance(4, 5) {
                            continue;
                        }
                        let asked = desk.ask_anywhere(&card, (TERM, from, to));
                        classes[stand][class(&positions, from)] += 1;
                        let hidden = |&p: &u32| from <= p && p <= to && (TERM, p) <= boundary;
                        hidden_asked += u64::from(positions.iter().any(hidden));
                        let above = asked.positions.iter().filter(|&&p| (TERM, p) > boundary);
                        let from_old = above.count();
                        from_both += u64::from(from_old > 0 && from_old < asked.positions.len());
                        below_first += u64::from(from < positions[0] && hidden(&positions[0]));
                    }
                }
            }
        }
    }
    let test = "ranges_at_and_beside_the_boundary";
    desk.finish(test, 50_000);
    println!(
        "{test}: hidden pairs in range {hidden_asked}, both segments {from_both}, \
         from below a hidden first position {below_first}"
    );
    println!("{test}: {classes:?}");
    assert!(classes.iter().flatten().all(|&count| count > 100));
    assert!(hidden_asked > 20_000 && from_both > 20_000 && below_first > 5_000);
    desk.whole.expect(&[0, 10], 200);
    desk.pages.expect(&[0, 11], 1_000);
}
