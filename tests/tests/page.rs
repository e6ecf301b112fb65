// The exported page: pages written out by hand, and comparisons with the second program's.

use gameindex_tests::cards;
use gameindex_tests::compare::{self, Question, Tally};
use gameindex_tests::ffi;
use gameindex_tests::questions::{self, Spread};
use gameindex_tests::random::Random;
use gameindex_tests::second::block;
use gameindex_tests::second::page::{page_bytes, LINE_BYTES, LINE_POSITIONS};
use gameindex_tests::second::{self, PageAnswer, Pair, PostingReader};

const TOP: u32 = u32::MAX;

/// A page in a memory of `room` bytes gives this number and these lines, and leaves all other bytes
/// in the memory and around it.
fn ask(
    tally: &mut Tally,
    card: &[u32],
    question: Question,
    room: usize,
    number: u32,
    lines: &[&str],
) {
    let (term, from, to) = question;
    let about = || format!("{question:?}, {room} bytes");
    let around = "#".repeat(LINE_BYTES);
    let mut memory = vec![b'#'; room + 2 * around.len()];
    let inside = &mut memory[around.len()..around.len() + room];
    let reply = ffi::page(card, term, from, to, inside);
    let expected = PageAnswer {
        number,
        lines: lines.len() as u32,
    };
    assert_eq!(reply, expected, "{}", about());
    let page = lines.concat();
    let unused = "#".repeat(room - page.len());
    let expected = [&around, &page, &unused, &around]
        .map(String::as_str)
        .concat();
    assert_eq!(String::from_utf8_lossy(&memory), expected, "{}", about());
    tally.note(number);
}

/// These lines come with just enough memory and with more, and 11 with every smaller one.
fn printed(tally: &mut Tally, card: &[u32], question: Question, lines: &[&str]) {
    let need = lines.concat().len();
    for room in 0..need {
        ask(tally, card, question, room, 11, &[]);
    }
    for more in [0, 1, 65, 66, 67, 500] {
        ask(tally, card, question, need + more, 0, lines);
    }
}

/// P1's card, its other words leftovers of one value.
fn p1(leftovers: u32) -> Vec<u32> {
    let mut card = vec![leftovers; 48];
    assert_eq!(ffi::format(&mut card, 8, 4), 0);
    let batch = [1, 5, 2, 2, 1, 1, 5, 9, 9, 2, 1, 7, 4, 4, 3];
    while !ffi::step(&mut card, &batch).finished {}
    card
}

/// The questions of P7 and P8, and others of their card.
#[test]
fn page_on_the_papers_cases() {
    let mut tally = Tally::new();
    let both = "         5          2          9                                 \n";
    let first = "         5          2                                            \n";
    let last = "         5          9                                            \n";
    let seven = "         7          4                                            \n";
    for leftovers in [0, 5, TOP] {
        let card = p1(leftovers);
        printed(&mut tally, &card, (5, 1, 9), &[both]);
        printed(&mut tally, &card, (5, 3, 8), &[]);
        printed(&mut tally, &card, (4, 1, 9), &[]);
        printed(&mut tally, &card, (6, 1, 9), &[]);
        printed(&mut tally, &card, (5, 1, TOP), &[both]);
        printed(&mut tally, &card, (5, 2, 2), &[first]);
        printed(&mut tally, &card, (5, 1, 8), &[first]);
        printed(&mut tally, &card, (5, 9, 9), &[last]);
        printed(&mut tally, &card, (5, 3, TOP), &[last]);
        printed(&mut tally, &card, (7, 1, 9), &[seven]);
        printed(&mut tally, &card, (5, 1, 1), &[]);
        printed(&mut tally, &card, (TOP, 1, TOP), &[]);
        let mut empty = card.clone();
        assert_eq!(ffi::format(&mut empty, 8, 4), 0);
        printed(&mut tally, &empty, (5, 1, 9), &[]);
    }
    tally.report("page_on_the_papers_cases");
    tally.expect(&[0], 200);
    tally.expect(&[11], 1_000);
}

/// A card with these pairs, cut into blocks at random, the first of them new. Old blocks may begin
/// with the boundary.
fn card_of(random: &mut Random, b: u32, pairs: &[Pair]) -> Vec<u32> {
    let mut blocks: Vec<Vec<Pair>> = Vec::new();
    let mut rest = pairs;
    while !rest.is_empty() {
        let wanted = 1 + random.below(b as usize);
        let pairs = rest.iter().copied().take(wanted);
        blocks.push(block::longest_beginning(pairs, b as usize));
        rest = &rest[blocks[blocks.len() - 1].len()..];
    }
    let new_count = random.below(blocks.len() + 1);
    let (new, old) = blocks.split_at_mut(new_count);
    if let (Some(last), Some(first)) = (new.last(), old.first_mut()) {
        let repeated = [&last[last.len() - 1..], first].concat();
        let fitting = block::longest_beginning(repeated.iter().copied(), b as usize);
        if fitting == repeated && random.chance(1, 2) {
            *first = repeated;
        }
    }
    let n = 2 + pairs.len() as u32;
    let start = random.below(n as usize) as u32;
    let card = cards::laid_out(cards::memory(random, b, n), b, n, start, old, new);
    assert_eq!(second::judge(&card), 0);
    card
}

/// Answers of all small numbers of positions, of all of a term and of its first ones, on cards cut
/// into blocks in many ways; every memory up to a line more than enough.
#[test]
fn page_of_every_number_of_positions() {
    let mut random = Random::new(71);
    let mut tally = Tally::new();
    let one = "        42          1                                            \n";
    let four = "        42          1          2          3          4           \n";
    let five = "        42          1          2          3          4          5\n";
    let six = "                    6                                            \n";
    let to_nine = "                    6          7          8          9           \n";
    let to_ten = "                    6          7          8          9         10\n";
    let eleven = "                   11                                            \n";
    let by_count: [(u32, &[&str]); 8] = [
        (0, &[]),
        (1, &[one]),
        (4, &[four]),
        (5, &[five]),
        (6, &[five, six]),
        (9, &[five, to_nine]),
        (10, &[five, to_ten]),
        (11, &[five, to_ten, eleven]),
    ];
    for (count, lines) in by_count {
        for more in [0, 7] {
            for _ in 0..4 {
                let mut pairs: Vec<Pair> = vec![(41, 3)];
                pairs.extend((1..=count + more).map(|position| (42, position)));
                pairs.push((43, 1));
                let card = card_of(&mut random, 8, &pairs);
                let (from, to) = if count == 0 { (100, TOP) } else { (1, count) };
                printed(&mut tally, &card, (42, from, to), lines);
            }
        }
    }
    let by_hand = tally.total();
    for count in 0..=31 {
        let pairs: Vec<Pair> = (1..=count).map(|i| (7, i * 137_000_000)).collect();
        let card = card_of(&mut random, 10, &pairs);
        for size in 0..=page_bytes(count as usize) + LINE_BYTES + 1 {
            let memory = random.bytes(size);
            compare::page(&mut tally, &card, (7, 1, TOP), &memory, &String::new);
        }
    }
    tally.report("page_of_every_number_of_positions");
    println!("page_of_every_number_of_positions: {by_hand} by hand");
    tally.expect(&[0], 2_000);
    tally.expect(&[11], 10_000);
}

/// Numbers of 1 to 10 digits, each right-aligned in 10 columns.
const COLUMNS: [(u32, &str); 24] = [
    (1, "         1"),
    (9, "         9"),
    (10, "        10"),
    (99, "        99"),
    (100, "       100"),
    (999, "       999"),
    (1_000, "      1000"),
    (9_999, "      9999"),
    (10_000, "     10000"),
    (99_999, "     99999"),
    (100_000, "    100000"),
    (999_999, "    999999"),
    (1_000_000, "   1000000"),
    (9_999_999, "   9999999"),
    (10_000_000, "  10000000"),
    (99_999_999, "  99999999"),
    (100_000_000, " 100000000"),
    (999_999_999, " 999999999"),
    (1_000_000_000, "1000000000"),
    (1_234_567_890, "1234567890"),
    (2_147_483_647, "2147483647"),
    (2_147_483_648, "2147483648"),
    (4_294_967_294, "4294967294"),
    (4_294_967_295, "4294967295"),
];

/// The lines of a page from columns written out by hand.
fn lines_of(term: &str, positions: &[(u32, &str)]) -> Vec<String> {
    let blank = "          ";
    let mut lines = Vec::new();
    for five in positions.chunks(5) {
        let head = if lines.is_empty() { term } else { blank };
        let field = |i: usize| five.get(i).map_or(blank, |column| column.1);
        lines.push(format!(
            "{head} {} {} {} {} {}\n",
            field(0),
            field(1),
            field(2),
            field(3),
            field(4)
        ));
    }
    lines
}

/// Terms and positions of every number of digits, at both ends of it and at random.
#[test]
fn page_of_every_number_of_digits() {
    let mut random = Random::new(72);
    let mut tally = Tally::new();
    for (term, term_column) in COLUMNS {
        let pairs: Vec<Pair> = COLUMNS.iter().map(|column| (term, column.0)).collect();
        let card = card_of(&mut random, 9, &pairs);
        for first in 0..COLUMNS.len() {
            for last in first..COLUMNS.len() {
                let columns = &COLUMNS[first..=last];
                let question = (term, columns[0].0, COLUMNS[last].0);
                let lines = lines_of(term_column, columns);
                let lines: Vec<&str> = lines.iter().map(String::as_str).collect();
                let need = page_bytes(columns.len());
                ask(&mut tally, &card, question, need, 0, &lines);
                ask(&mut tally, &card, question, need - 1, 11, &[]);
            }
        }
    }
    let by_hand = tally.total();
    let number_of = |random: &mut Random, digits: u32| {
        let least = 10u32.pow(digits - 1);
        let most = least.checked_mul(10).map_or(TOP, |above| above - 1);
        random.within(least, most)
    };
    for round in 0..3_000 {
        let term = number_of(&mut random, 1 + round % 10);
        let mut positions: Vec<u32> = (0..random.below(40))
            .map(|i| number_of(&mut random, 1 + i as u32 % 10))
            .collect();
        positions.sort_unstable();
        positions.dedup();
        let pairs: Vec<Pair> = positions.iter().map(|&position| (term, position)).collect();
        let card = card_of(&mut random, 12, &pairs);
        let question = (term, 1, TOP);
        compare::pages(&mut tally, &mut random, &card, question, &String::new);
    }
    tally.report("page_of_every_number_of_digits");
    println!("page_of_every_number_of_digits: {by_hand} by hand");
    tally.expect(&[0, 11], 10_000);
}

/// How the pages were spread.
#[derive(Debug, Default)]
struct Seen {
    spread: Spread,
    most_lines: u32,
    /// By the number of positions on the last line, 0 where there is no line.
    on_the_last_line: [u64; LINE_POSITIONS + 1],
}

impl Seen {
    fn note(&mut self, card: &[u32], question: Question, reply: &PageAnswer) {
        if reply.number != 0 {
            return;
        }
        self.spread.note(card, question);
        self.most_lines = self.most_lines.max(reply.lines);
        let (term, from, to) = question;
        let found = PostingReader::open(card, term, from, to).count();
        let before = (reply.lines as usize).saturating_sub(1) * LINE_POSITIONS;
        self.on_the_last_line[found - before] += 1;
    }

    fn expect(&self, most_lines: u32, least: u64) {
        self.spread.expect(least);
        assert!(self.most_lines >= most_lines, "too few lines: {self:?}");
        for count in self.on_the_last_line {
            assert!(count >= least, "too few: {self:?}");
        }
    }
}

/// Every question on cards over a small universe, at every moment of their passes; for some of them
/// every memory up to a line more than enough.
#[test]
fn page_of_every_question_on_small_cards() {
    let mut random = Random::new(73);
    let mut tally = Tally::new();
    let mut seen = Seen::default();
    let mut cards_asked = 0;
    questions::on_small_cards(&mut random, 24, |random, card, questions| {
        cards_asked += 1;
        for &question in questions {
            let reply = compare::pages(&mut tally, random, card, question, &String::new);
            seen.note(card, question, &reply);
            if reply.lines > 0 && random.chance(1, 40) {
                for size in 0..=(reply.lines as usize + 1) * LINE_BYTES {
                    let memory = random.bytes(size);
                    compare::page(&mut tally, card, question, &memory, &String::new);
                }
            }
        }
    });
    tally.report("page_of_every_question_on_small_cards");
    println!("page_of_every_question_on_small_cards: {cards_asked} cards, {seen:?}");
    tally.expect(&[0, 9, 11], 10_000);
    seen.expect(3, 50);
}

/// Terms over many blocks, in open passes with pairs on both sides of the boundary.
#[test]
fn page_across_many_blocks() {
    let mut random = Random::new(74);
    let mut tally = Tally::new();
    let mut seen = Seen::default();
    questions::across_many_blocks(&mut random, 80, |random, card, questions| {
        for &question in questions {
            // An eighth of them will do.
            if random.chance(7, 8) {
                continue;
            }
            let reply = compare::pages(&mut tally, random, card, question, &String::new);
            seen.note(card, question, &reply);
        }
    });
    tally.report("page_across_many_blocks");
    println!("page_across_many_blocks: {seen:?}");
    tally.expect(&[0, 11], 10_000);
    tally.expect(&[9], 1_000);
    seen.expect(6, 300);
}

/// Random cards of all shapes, reached by steps or not, with questions at their pairs.
#[test]
fn page_on_cards_of_many_shapes() {
    let mut random = Random::new(75);
    let mut tally = Tally::new();
    let mut seen = Seen::default();
    for _ in 0..1_000 {
        let b = random.pick(&[8, 8, 9, 11, 16, 40, 100]);
        let n = random.within(2, 16);
        let card = cards::any(&mut random, b, n);
        let known = questions::known_pairs(&card);
        for _ in 0..12 {
            let question = questions::near(&mut random, &known);
            let about = || format!("B {b}, N {n}");
            let reply = compare::pages(&mut tally, &mut random, &card, question, &about);
            seen.note(&card, question, &reply);
        }
    }
    tally.report("page_on_cards_of_many_shapes");
    println!("page_on_cards_of_many_shapes: {seen:?}");
    tally.expect(&[0, 11], 5_000);
    tally.expect(&[9], 500);
    seen.expect(20, 50);
}

/// A question for 9, or one at the card's pairs.
fn any_question(random: &mut Random, known: &[Pair]) -> Question {
    if random.chance(1, 3) {
        random.pick(&[(0, 1, 1), (1, 0, 1), (1, 2, 1), (0, 0, 0), (TOP, 0, TOP)])
    } else {
        questions::near(random, known)
    }
}

/// Sound cards with one word or the length damaged: 1 to 4 before 9 and 11; sound ones answer.
#[test]
fn page_on_damaged_cards() {
    let mut random = Random::new(76);
    let mut tally = Tally::new();
    for _ in 0..600 {
        let b = random.pick(&[8, 8, 9, 10]);
        let n = random.within(2, 5);
        let whole = cards::any(&mut random, b, n);
        let known = questions::known_pairs(&whole);
        for _ in 0..100 {
            let mut card = whole.clone();
            let word = random.below(card.len());
            let kept = card[word];
            let beside = card[(word + 1) % card.len()];
            let (less, more) = (kept.wrapping_sub(1), kept.wrapping_add(1));
            card[word] = random.pick(&[0, 1, 2, less, more, n, beside, TOP]);
            if random.chance(1, 20) {
                card.resize(random.below(2 * whole.len()), kept);
            }
            let question = any_question(&mut random, &known);
            let size = random.pick(&[0, 0, 1, 65, 66, 131, 132, 500]);
            let memory = random.bytes(size);
            let about = || format!("word {word} was {kept}");
            compare::page(&mut tally, &card, question, &memory, &about);
        }
    }
    tally.report("page_on_damaged_cards");
    tally.expect(&[0, 4, 9], 5_000);
    tally.expect(&[1, 2, 3, 11], 500);
}

/// Cards of random words, most of them no cards.
#[test]
fn page_on_cards_of_random_words() {
    let mut random = Random::new(77);
    let mut tally = Tally::new();
    for _ in 0..60_000 {
        let card = cards::random_words(&mut random);
        let question = any_question(&mut random, &[(1, 1), (1, 2), (2, 1), (2, 3), (3, 2)]);
        let size = random.pick(&[0, 65, 66, 200]);
        let memory = random.bytes(size);
        compare::page(&mut tally, &card, question, &memory, &String::new);
    }
    tally.report("page_on_cards_of_random_words");
    tally.expect(&[1, 2, 3, 4], 2_000);
    tally.expect(&[0, 9], 500);
}

/// The numbers in their order, by hand: of the card, then 9, then 11. Every ground of 9 on a sound
/// card and on cards that each have another number.
#[test]
fn page_refused_in_the_order_of_the_numbers() {
    let mut tally = Tally::new();
    let card = p1(TOP);
    let with = |changes: &[(usize, u32)]| {
        let mut card = card.clone();
        for &(word, value) in changes {
            card[word] = value;
        }
        card
    };
    let cards_by_number = [
        (1, card[..0].to_vec()),
        (1, card[..7].to_vec()),
        (1, card[..47].to_vec()),
        (1, [&card[..], &[0]].concat()),
        (1, with(&[(1, 9)])),
        (2, with(&[(0, 0)])),
        (2, with(&[(0, 2), (1, 0), (16, 0)])),
        (3, with(&[(1, 7)])),
        (3, with(&[(2, 1025)])),
        (3, with(&[(3, 4)])),
        (3, with(&[(4, 4)])),
        (3, with(&[(6, 5)])),
        (3, with(&[(5, 1), (16, 0)])),
        (4, with(&[(8, 4)])),
        (4, with(&[(9, 1)])),
        (4, with(&[(16, 0)])),
        (4, with(&[(23, 1)])),
        (4, with(&[(5, 1), (6, 7), (7, 4)])),
    ];
    let grounds_of_9 = [
        (0, 1, 9),
        (0, 1, TOP),
        (5, 0, 9),
        (5, 0, 0),
        (5, 1, 0),
        (5, 9, 2),
        (5, 3, 2),
        (5, TOP, TOP - 1),
        (5, TOP, 1),
        (0, 0, 9),
        (0, 9, 2),
        (0, 0, 0),
        (TOP, 0, TOP),
    ];
    for room in [0, 1, 65, 66, 67, 132, 1000] {
        for question in grounds_of_9 {
            ask(&mut tally, &card, question, room, 9, &[]);
        }
        // What would otherwise be answered, or refused with 11, and what would be with 9.
        for question in [(5, 1, 9), (4, 1, 9)].iter().chain(&grounds_of_9) {
            for (number, wrong) in &cards_by_number {
                ask(&mut tally, wrong, *question, room, *number, &[]);
            }
        }
    }
    for room in 0..66 {
        ask(&mut tally, &card, (5, 1, 9), room, 11, &[]);
    }
    tally.report("page_refused_in_the_order_of_the_numbers");
    tally.expect(&[1, 2, 3, 4, 9, 11], 60);
}

/// Large cards with one frequent term, the largest among them, in both segments.
#[test]
fn page_of_a_frequent_term_on_large_cards() {
    let mut random = Random::new(78);
    let mut tally = Tally::new();
    let mut most_lines = 0;
    for (b, n, questions) in [
        (8, 1024, 6),
        (1024, 2, 20),
        (1023, 3, 20),
        (64, 64, 20),
        (300, 20, 20),
        (1024, 1024, 1),
    ] {
        let live = n as usize - 1;
        let new_count = random.below(live + 1);
        let (new, old) = cards::blocks_of_one_term(9, b, new_count, live);
        let start = random.below(n as usize) as u32;
        let memory = random.words(cards::right_length(b, n));
        let card = cards::laid_out(memory, b, n, start, &old, &new);
        assert_eq!(second::judge(&card), 0);
        let about = || format!("B {b}, N {n}");
        let known = second::live_pairs(&card).into_iter().collect::<Vec<Pair>>();
        for _ in 0..questions {
            let (one, other) = (random.pick(&known).1, random.pick(&known).1);
            let question = (9, one.min(other), one.max(other));
            compare::pages(&mut tally, &mut random, &card, question, &about);
        }
        let reply = compare::pages(&mut tally, &mut random, &card, (9, 1, TOP), &about);
        assert_eq!(reply.lines as usize, known.len().div_ceil(LINE_POSITIONS));
        most_lines = most_lines.max(reply.lines);
        compare::pages(&mut tally, &mut random, &card, (8, 1, TOP), &about);
        compare::pages(&mut tally, &mut random, &card, (9, 9, 3), &about);
    }
    tally.report("page_of_a_frequent_term_on_large_cards");
    println!("page_of_a_frequent_term_on_large_cards: up to {most_lines} lines");
    tally.expect(&[0, 11], 150);
    tally.expect(&[9], 6);
    assert!(most_lines > 200_000);
}
