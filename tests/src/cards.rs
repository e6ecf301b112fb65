// Makers of sound cards: by running the second program's steps, or laid out block by block.

use crate::batches::{self, Mixture, Universe};
use crate::random::Random;
use crate::second::batch::MOST_RECORDS;
use crate::second::block;
use crate::second::layout::MAP_ENTRY_WORDS;
use crate::second::{self, Configuration, Pair, HIGHEST};

const TOP: u32 = u32::MAX;

/// The right length of a card, for B and N within their limits.
pub fn right_length(b: u32, n: u32) -> usize {
    second::card_words(b, n) as usize
}

/// Words of the right length with leftovers of one of three kinds.
pub fn memory(random: &mut Random, b: u32, n: u32) -> Vec<u32> {
    let length = right_length(b, n);
    match random.below(3) {
        0 => vec![0; length],
        1 => random.words(length),
        _ => (0..length).map(|_| random.below(6) as u32).collect(),
    }
}

/// A card just formatted, its other words leftovers.
pub fn fresh(random: &mut Random, b: u32, n: u32) -> Vec<u32> {
    let mut card = memory(random, b, n);
    assert_eq!(second::format(&mut card, b, n), 0);
    card
}

/// Runs steps of one batch until the pass finishes, a refusal, or `most` steps. Gives the number.
pub fn run(card: &mut [u32], batch: &[u32], most: usize) -> u32 {
    for _ in 0..most {
        let answer = second::step(card, batch);
        if answer.number != 0 || answer.finished {
            return answer.number;
        }
    }
    0
}

/// A card made by steps: a few whole passes and then part of one.
pub fn stepped(random: &mut Random, b: u32, n: u32) -> Vec<u32> {
    let mut card = fresh(random, b, n);
    let room = b as usize * n as usize;
    let universe = if room > 600 {
        Universe::wide(room)
    } else {
        Universe::random(random)
    };
    let most = (room / 2).clamp(4, MOST_RECORDS);
    for _ in 0..1 + random.below(4) {
        let mixture = Mixture::random(random);
        let batch = batches::good(random, &universe, mixture, most);
        run(&mut card, &batch, 6 * n as usize);
    }
    let mixture = Mixture::random(random);
    let batch = batches::good(random, &universe, mixture, most);
    let steps = random.below(3 * n as usize + 1);
    run(&mut card, &batch, steps);
    card
}

/// Lays out a card from the pairs of its blocks, leftovers from `memory` elsewhere.
pub fn laid_out(
    mut memory: Vec<u32>,
    b: u32,
    n: u32,
    old_start: u32,
    old: &[Vec<Pair>],
    new: &[Vec<Pair>],
) -> Vec<u32> {
    assert_eq!(memory.len(), right_length(b, n));
    let boundary = new.last().map_or((0, 0), |block| block[block.len() - 1]);
    let configuration = Configuration {
        format: 1,
        b,
        n,
        old_start,
        old_length: old.len() as u32,
        new_length: new.len() as u32,
        boundary_term: boundary.0,
        boundary_position: boundary.1,
    };
    memory[..8].copy_from_slice(&configuration.words());
    let places = configuration
        .old_places()
        .into_iter()
        .chain(configuration.new_places());
    for (place, pairs) in places.zip(old.iter().chain(new)) {
        put_block(&mut memory, &configuration, place, pairs);
    }
    memory
}

/// The blocks of rising pairs, each as full as it can be.
pub fn packed(pairs: impl IntoIterator<Item = Pair>, b: u32) -> Vec<Vec<Pair>> {
    let mut rest: Vec<Pair> = pairs.into_iter().collect();
    let mut blocks = Vec::new();
    while !rest.is_empty() {
        let due = block::longest_beginning(rest.iter().copied(), b as usize);
        rest = rest.split_off(due.len());
        blocks.push(due);
    }
    blocks
}

/// Puts a block and its map entry in a place.
pub fn put_block(card: &mut [u32], configuration: &Configuration, place: usize, pairs: &[Pair]) {
    let words = block::block_words(pairs, configuration.b as usize);
    put_words(card, configuration, place, &words);
}

/// Puts the words of a block in a place, and in its map entry what stands where a first pair does.
pub fn put_words(card: &mut [u32], configuration: &Configuration, place: usize, words: &[u32]) {
    card[configuration.block_range(place)].copy_from_slice(words);
    let first: [u32; MAP_ENTRY_WORDS] = [words[0], words[2]];
    card[configuration.map_range(place)].copy_from_slice(&first);
}

/// The pairs of all live blocks of a sound card, live or not, old segment before new.
pub fn block_pairs(card: &[u32]) -> Vec<Vec<Pair>> {
    let configuration = Configuration::read(card);
    let places = configuration
        .old_places()
        .into_iter()
        .chain(configuration.new_places());
    places
        .map(|place| second::layout::block_pairs(&configuration, card, place))
        .collect()
}

/// A sound card that steps need not reach: its blocks are seldom filled as far as they could be.
pub fn loose(random: &mut Random, b: u32, n: u32) -> Vec<u32> {
    let live = if random.chance(1, 2) {
        n as usize - 1
    } else {
        random.below(n as usize)
    };
    let new_wanted = if live == 0 || random.chance(1, 4) {
        0
    } else {
        1 + random.below(live)
    };
    let close = random.chance(1, 2);
    let mut cursor = match random.below(3) {
        0 => (0, 0),
        1 => (u32::MAX - 2, u32::MAX - 40),
        _ => (random.word(), random.word()),
    };
    let new = segment(random, b, new_wanted, &mut cursor, close);
    let boundary = new.last().map(|block| block[block.len() - 1]);
    let mut old = Vec::new();
    for _ in 0..4 {
        let mut start = cursor;
        if let Some((term, position)) = boundary {
            if random.chance(1, 2) {
                start = (term, position.saturating_sub(1 + random.below(6) as u32));
            } else if random.chance(1, 2) {
                start = (term.saturating_sub(1), random.below(5) as u32);
            }
        }
        old = segment(random, b, live - new_wanted, &mut start, close);
        let first_last = old.first().map(|block| block[block.len() - 1]);
        if first_last.is_none() || first_last > boundary {
            break;
        }
        old.clear();
    }
    let old_start = random.below(n as usize) as u32;
    let card = laid_out(memory(random, b, n), b, n, old_start, &old, &new);
    assert_eq!(second::judge(&card), 0);
    card
}

/// A sound card of one of three kinds.
pub fn any(random: &mut Random, b: u32, n: u32) -> Vec<u32> {
    match random.below(5) {
        0 => fresh(random, b, n),
        1 | 2 => stepped(random, b, n),
        _ => loose(random, b, n),
    }
}

/// A card with blocks of 8 words over even terms, each with positions 1 to `most`: a term's pairs
/// over many blocks in both segments, gaps between them, old blocks from below the boundary to above.
pub fn over_many_blocks(random: &mut Random, terms: u32, most: u32) -> Vec<u32> {
    let n = random.within(4, 12);
    let live = n as usize - 1 - random.below(2);
    let new_count = random.below(live + 1);
    // All pairs in order; each block takes the next few, now and then leaving some out.
    let all: Vec<Pair> = (1..=terms)
        .flat_map(|term| (1..=most).map(move |position| (term * 2, position)))
        .collect();
    let fill = |random: &mut Random, mut at: usize, count: usize| {
        let mut blocks: Vec<Vec<Pair>> = Vec::new();
        while blocks.len() < count && at < all.len() {
            let wanted = 1 + random.below(4);
            let pairs = all[at..].iter().copied().take(wanted);
            let pairs = block::longest_beginning(pairs, 8);
            at += pairs.len() + random.below(2);
            blocks.push(pairs);
        }
        blocks
    };
    let new = fill(random, 0, new_count);
    let boundary = new.last().map(|block| block[block.len() - 1]);
    let above = all
        .iter()
        .position(|&pair| Some(pair) > boundary)
        .unwrap_or(all.len());
    // The first old block reaches above the boundary and may begin below it.
    let back = random.below(4).min(above);
    let mut old = fill(random, above - back, live - new.len());
    while old
        .first()
        .is_some_and(|first| first.last().copied() <= boundary)
    {
        old.remove(0);
    }
    let start = random.below(n as usize) as u32;
    laid_out(memory(random, 8, n), 8, n, start, &old, &new)
}

/// A sound card of these blocks, all its other words 2.
pub fn of_blocks(b: u32, n: u32, start: u32, old: &[Vec<Pair>], new: &[Vec<Pair>]) -> Vec<u32> {
    let card = laid_out(vec![2; right_length(b, n)], b, n, start, old, new);
    assert_eq!(second::judge(&card), 0);
    card
}

/// Cards that the judge gives each number, some wrong in other ways as well, and sound ones: fresh,
/// with 8 at once, with 8 to come, in mid-pass. The judge's number stands beside each.
pub fn of_every_number() -> Vec<(u32, Vec<u32>)> {
    let old: Vec<Vec<Pair>> = (5..8)
        .map(|term| (1..=6).map(|position| (term * 3, position * 5)).collect())
        .collect();
    let new: Vec<Vec<Pair>> = vec![(1..=6).map(|position| (3, position)).collect()];
    let sound = of_blocks(8, 5, 3, &old, &new);
    let with = |changes: &[(usize, u32)]| {
        let mut card = sound.clone();
        for &(word, value) in changes {
            card[word] = value;
        }
        card
    };
    let map = |place: usize| 8 + 2 * place;
    let block = |place: usize| 18 + 8 * place;
    vec![
        (0, sound.clone()),
        (0, of_blocks(8, 5, 3, &old, &[])),
        (0, of_blocks(8, 4, 0, &old, &[])),
        (0, of_blocks(8, 2, 1, &[], &[])),
        (1, vec![]),
        (1, sound[..7].to_vec()),
        (1, vec![0; 7]),
        (1, sound[..57].to_vec()),
        (1, [&sound[..], &[0]].concat()),
        (1, with(&[(1, 9), (3, 9), (4, 9)])),
        (2, with(&[(0, 0)])),
        (2, with(&[(0, 2), (1, 7)])),
        (2, vec![0; 8]),
        (2, with(&[(0, TOP), (map(3), 9)])[..40].to_vec()),
        (3, with(&[(1, 7)])),
        (3, with(&[(2, 1025), (block(3), 0)])),
        (3, with(&[(1, 0)])[..20].to_vec()),
        (3, with(&[(3, 5)])),
        (3, with(&[(4, 4)])),
        (3, with(&[(5, 2)])),
        (3, with(&[(6, 0)])),
        (3, with(&[(7, 0), (map(3), 9)])),
        (3, with(&[(5, 0)])),
        (4, with(&[(map(3), 9)])),
        (4, with(&[(map(1) + 1, 9)])),
        (4, with(&[(block(3), 0)])),
        (4, with(&[(block(4) + 1, 9)])),
        (4, with(&[(block(0) + 7, 1)])),
        (4, with(&[(6, 4)])),
        (4, with(&[(7, 5)])),
    ]
}

/// Every set of pairs over three terms and three positions, as packed blocks of 8 words.
pub fn every_small_index() -> Vec<Vec<Vec<Pair>>> {
    let numbers = [1, 2, TOP];
    let pairs = numbers.map(|term| numbers.map(|position| (term, position)));
    let pairs = pairs.concat();
    let chosen = |chosen: usize| {
        let set = pairs.iter().enumerate();
        set.filter(move |(i, _)| chosen >> i & 1 == 1)
            .map(|(_, &pair)| pair)
    };
    (0..1usize << pairs.len())
        .map(|which| packed(chosen(which), 8))
        .collect()
}

/// B and N from the smallest to the largest, but not both.
pub const MANY_SHAPES: [(u32, u32); 15] = [
    (8, 2),
    (8, 3),
    (9, 2),
    (10, 3),
    (8, 100),
    (8, 1024),
    (9, 1023),
    (1024, 2),
    (1024, 3),
    (1023, 4),
    (1024, 9),
    (64, 64),
    (257, 20),
    (16, 300),
    (500, 12),
];

/// A card that is fresh where it is small, else well filled already, from any place on.
pub fn well_filled(random: &mut Random, b: u32, n: u32) -> Vec<u32> {
    let card = fresh(random, b, n);
    if b * n <= 2_000 {
        return card;
    }
    let live = match random.below(3) {
        0 => n as usize - 1,
        _ => n as usize - 1 - random.below(n as usize / 2),
    };
    let mut cursor = (0, 0);
    let old = segment(random, b, live, &mut cursor, false);
    let start = n - 1 - random.below(n as usize / 2) as u32;
    let card = laid_out(card, b, n, start, &old, &[]);
    assert_eq!(second::judge(&card), 0);
    card
}

/// A block of the largest card: 341 entries of one position each, or fewer entries of several.
pub fn large_block(number: u32) -> Vec<Pair> {
    let several = 1 + number % 4;
    let entries = 1024 / (2 + several);
    (0..entries * several)
        .map(|i| (number * 400 + i / several, TOP - 9 + i % several))
        .collect()
}

/// Small cards in every state: fresh, after passes, in mid-pass, full, full in mid-pass.
pub fn small() -> Vec<Vec<u32>> {
    let few = vec![(1, 1), (1, 2), (2, TOP)];
    let full = vec![(1, 2), (1, TOP), (2, 1), (2, 2)];
    let high = vec![(TOP, 1), (TOP, 2), (TOP, TOP)];
    let low = vec![(1, 1), (1, 2)];
    let across = vec![(2, 1), (TOP, TOP)];
    vec![
        of_blocks(8, 3, 0, &[], &[]),
        of_blocks(8, 2, 1, &[full.clone()], &[]),
        of_blocks(8, 3, 2, &[few.clone(), high.clone()], &[]),
        of_blocks(8, 4, 3, &[full.clone()], &[low]),
        of_blocks(8, 3, 1, &[high.clone()], &[full]),
        of_blocks(8, 2, 0, &[], &[few.clone()]),
        of_blocks(8, 4, 2, &[across], &[few, vec![(3, 3)]]),
        of_blocks(8, 3, 2, &[], &[high]),
    ]
}

/// A card in mid-pass whose boundary is the highest pair, or the last position of a term.
pub fn bounded_at_the_top(random: &mut Random, b: u32, n: u32) -> Vec<u32> {
    let last = random.pick(&[HIGHEST, (TOP, TOP - 1), (7, TOP), (TOP - 1, TOP)]);
    let old: Vec<Vec<Pair>> = match last {
        (TOP, TOP) => vec![],
        (TOP, _) => vec![vec![HIGHEST]],
        (term, _) => vec![vec![(term, 9), (term, TOP), (term + 1, 1)]],
    };
    let n = n.max(3);
    let card = laid_out(memory(random, b, n), b, n, 1, &old, &[vec![(5, 5), last]]);
    assert_eq!(second::judge(&card), 0);
    card
}

/// The new and the old blocks of a card that holds one term, nearly full: `live` blocks in all, the
/// first of them new. The boundary stands in the old segment as well.
pub fn blocks_of_one_term(
    term: u32,
    b: u32,
    new_count: usize,
    live: usize,
) -> (Vec<Vec<Pair>>, Vec<Vec<Pair>>) {
    let size = b - 2;
    let block = |i: usize| -> Vec<Pair> {
        let first = 1 + i as u32 * (size - 1);
        (first..first + size - 1).map(|i| (term, i * 3)).collect()
    };
    let new: Vec<Vec<Pair>> = (0..new_count).map(block).collect();
    let mut old: Vec<Vec<Pair>> = (new_count..live).map(block).collect();
    if let (Some(last), Some(first)) = (new.last(), old.first_mut()) {
        first.insert(0, last[last.len() - 1]);
    }
    (new, old)
}

/// Words at random, often of a card's length and with a configuration and a map that could be.
pub fn random_words(random: &mut Random) -> Vec<u32> {
    let b = random.pick(&[8, 8, 9, 10]);
    let n = random.within(2, 4);
    let length = right_length(b, n);
    let mut card: Vec<u32> = match random.below(3) {
        0 => random.words(length),
        1 => (0..length).map(|_| random.below(4) as u32).collect(),
        _ => (0..length)
            .map(|_| random.pick(&[0, 0, 0, 1, 1, 2, 3, u32::MAX]))
            .collect(),
    };
    card[0] = u32::from(!random.chance(1, 12));
    card[1] = if random.chance(1, 12) {
        random.within(6, 11)
    } else {
        b
    };
    card[2] = if random.chance(1, 12) {
        random.within(0, 6)
    } else {
        n
    };
    if random.chance(4, 5) {
        card[3] = random.below(n as usize) as u32;
        card[4] = random.below(n as usize) as u32;
        card[5] = random.below((n - card[4]) as usize) as u32;
        if card[5] == 0 {
            card[6] = 0;
            card[7] = 0;
        }
    }
    if random.chance(1, 2) {
        // The map says what stands where the blocks' first pairs would be.
        for place in 0..n as usize {
            let block = 8 + 2 * n as usize + place * b as usize;
            card[8 + 2 * place] = card[block];
            card[9 + 2 * place] = card[block + 2];
        }
    }
    card
}

/// The kinds of words that a cut may leave.
pub const CUT_KINDS: usize = 8;

/// What a cut may leave of the words being written.
pub fn cut_words(
    random: &mut Random,
    kind: usize,
    words: &mut [u32],
    wanted: &[u32],
    live: &[u32],
) {
    let torn = random.below(words.len() + 1);
    match kind {
        0 => {}
        1 => random.fill(words),
        2 => words[..torn].copy_from_slice(&wanted[..torn]),
        3 => words[torn..].copy_from_slice(&wanted[torn..]),
        4 => words.fill(0),
        5 => words.fill(u32::MAX),
        6 => words.copy_from_slice(&live[..words.len()]),
        _ => {
            words.copy_from_slice(wanted);
            let word = random.below(words.len());
            words[word] ^= 1 << random.below(32);
        }
    }
}

/// At most `count` blocks of pairs that rise after the cursor, which moves on to the last.
pub fn segment(
    random: &mut Random,
    b: u32,
    count: usize,
    cursor: &mut Pair,
    close: bool,
) -> Vec<Vec<Pair>> {
    let mut blocks = Vec::new();
    for _ in 0..count {
        let full = random.chance(1, 3);
        let wanted = if full {
            b as usize
        } else {
            1 + random.below(b as usize - 2)
        };
        let mut pairs: Vec<Pair> = Vec::new();
        let mut used = 0;
        while pairs.len() < wanted {
            let Some(next) = next_pair(random, *cursor, close) else {
                break;
            };
            used += block::cost(pairs.last().copied(), next);
            if used > b as usize {
                break;
            }
            pairs.push(next);
            *cursor = next;
        }
        if pairs.is_empty() {
            break;
        }
        blocks.push(pairs);
    }
    blocks
}

/// A pair above another, close by or further on; none above the highest.
fn next_pair(random: &mut Random, (term, position): Pair, close: bool) -> Option<Pair> {
    if (term, position) == HIGHEST {
        return None;
    }
    let stride = if close { 1 } else { 1000 };
    let same_term = term != 0 && position != u32::MAX && random.chance(2, 3);
    if same_term || term == u32::MAX {
        let next = position.saturating_add(1 + random.below(stride) as u32);
        Some((term.max(1), next))
    } else {
        let next = term.saturating_add(1 + random.below(stride) as u32);
        let position = random.pick(&[1, 2, 3, 100, u32::MAX - 1, u32::MAX]);
        Some((next, position))
    }
}
