// The exported reading of a scorekeepers' file: files written out by hand, and comparisons with the
// second program's.

use gameindex_tests::batches::{addition, removal, Mixture, Universe};
use gameindex_tests::cards;
use gameindex_tests::compare::{self, Tally};
use gameindex_tests::ffi;
use gameindex_tests::files;
use gameindex_tests::random::Random;
use gameindex_tests::second::batch::{Record, MOST_RECORDS, RECORD_WORDS};
use gameindex_tests::second::scores::{self, LONGEST_LINE, SETTLING_BYTES};
use gameindex_tests::second::{Outcome, ScoresAnswer};

const TOP: u32 = u32::MAX;
const MOST_WORDS: usize = RECORD_WORDS * MOST_RECORDS;

/// A file with so many words lent for its batch gives this number, line and batch, and leaves all
/// other words lent and around them.
fn ask(tally: &mut Tally, bytes: &[u8], room: usize, number: u32, line: usize, batch: &[u32]) {
    let about = || format!("\"{}\", {room} words", bytes.escape_ascii());
    let around = [0xDEAD_BEEF; 9];
    let mut memory = vec![around[0]; room + 2 * around.len()];
    let inside = &mut memory[around.len()..around.len() + room];
    let reply = ffi::scores(bytes, inside);
    let expected = ScoresAnswer {
        number,
        words: batch.len(),
        line,
    };
    assert_eq!(reply, expected, "{}", about());
    let unused = vec![around[0]; room - batch.len()];
    let expected = [&around, batch, &unused, &around].concat();
    assert_eq!(memory, expected, "{}", about());
    tally.note(number);
}

/// This batch comes with just enough words and with more, and 10 with every smaller number.
fn read(tally: &mut Tally, bytes: &[u8], batch: &[u32]) {
    for room in 0..batch.len() {
        ask(tally, bytes, room, 10, 0, &[]);
    }
    for more in [0, 1, 3, 4, 5, 6, MOST_WORDS] {
        ask(tally, bytes, batch.len() + more, 0, 0, batch);
    }
}

/// This number comes of this line, whatever is lent.
fn refused(tally: &mut Tally, bytes: &[u8], number: u32, line: usize) {
    for room in [0, 1, 4, 5, 8, 10, 100, MOST_WORDS] {
        ask(tally, bytes, room, number, line, &[]);
    }
}

#[test]
fn scores_written_out() {
    let mut tally = Tally::new();
    let t = &mut tally;
    read(t, b"", &[]);
    for end in ["", "\n"] {
        let read = |t: &mut Tally, text: &str, batch: &[u32]| {
            read(t, [text, end].concat().as_bytes(), batch);
        };
        read(t, "A\t5\t2", &[1, 5, 2, 2, 1]);
        read(t, "R\t5\t2\t9", &[2, 5, 2, 9, 1]);
        // Zeros are for the judge of the batch.
        read(t, "A\t0\t0", &[1, 0, 0, 0, 1]);
        read(t, "R\t0\t0\t0", &[2, 0, 0, 0, 1]);
        // No line says a removal under every term: this is one of term 0.
        read(t, "R\t0\t1\t9", &[2, 0, 1, 9, 1]);
        read(t, "A\t5\t2\nR\t0\t1\t9", &[2, 0, 1, 9, 2, 1, 5, 2, 2, 1]);
        read(t, "R\t1\t9\t2", &[2, 1, 9, 2, 1]);
        read(t, "R\t5\t9\t0", &[2, 5, 9, 0, 1]);
        let top = "4294967295";
        let longest = format!("R\t{top}\t{top}\t{top}");
        assert_eq!(longest.len(), 34);
        read(t, &longest, &[2, TOP, TOP, TOP, 1]);
        read(t, &format!("A\t{top}\t1"), &[1, TOP, 1, 1, 1]);
        // By term, then from, as numbers and not as text; the arrival number is the line's.
        read(t, "A\t10\t1\nA\t9\t1", &[1, 9, 1, 1, 2, 1, 10, 1, 1, 1]);
        read(t, "A\t5\t10\nA\t5\t9", &[1, 5, 9, 9, 2, 1, 5, 10, 10, 1]);
        read(t, "A\t5\t9\nA\t6\t1", &[1, 5, 9, 9, 1, 1, 6, 1, 1, 2]);
        read(t, "A\t6\t1\nA\t5\t9", &[1, 5, 9, 9, 2, 1, 6, 1, 1, 1]);
        read(t, "A\t0\t9\nR\t0\t1\t1", &[2, 0, 1, 1, 2, 1, 0, 9, 9, 1]);
        // By from also where to is below it.
        read(t, "R\t5\t9\t3\nA\t5\t4", &[1, 5, 4, 4, 2, 2, 5, 9, 3, 1]);
        read(t, "A\t5\t4\nR\t5\t9\t3", &[1, 5, 4, 4, 1, 2, 5, 9, 3, 2]);
        read(t, "R\t5\t9\t3\nR\t5\t8\t7", &[2, 5, 8, 7, 2, 2, 5, 9, 3, 1]);
        read(t, "R\t5\t9\t3\nA\t5\t9", &[2, 5, 9, 3, 1, 1, 5, 9, 9, 2]);
        read(t, "A\t5\t9\nR\t5\t9\t3", &[1, 5, 9, 9, 1, 2, 5, 9, 3, 2]);
        read(t, &format!("R\t5\t{top}\t1"), &[2, 5, TOP, 1, 1]);
        read(
            t,
            &format!("R\t5\t{top}\t1\nR\t5\t9\t{top}"),
            &[2, 5, 9, TOP, 2, 2, 5, TOP, 1, 1],
        );
        // Equal in both: in the order of their lines, whatever kind and to are.
        read(t, "A\t5\t2\nR\t5\t2\t9", &[1, 5, 2, 2, 1, 2, 5, 2, 9, 2]);
        read(t, "R\t5\t2\t9\nA\t5\t2", &[2, 5, 2, 9, 1, 1, 5, 2, 2, 2]);
        read(t, "R\t5\t2\t9\nR\t5\t2\t3", &[2, 5, 2, 9, 1, 2, 5, 2, 3, 2]);
        read(
            t,
            "R\t7\t4\t9\nA\t5\t9\nA\t7\t4\nA\t5\t2\nA\t7\t4",
            &[
                [1, 5, 2, 2, 4],
                [1, 5, 9, 9, 2],
                [2, 7, 4, 9, 1],
                [1, 7, 4, 4, 3],
                [1, 7, 4, 4, 5],
            ]
            .concat(),
        );
    }
    refused(t, b"\n", 12, 1);
    refused(t, b"\n\n", 12, 1);
    refused(t, b"A\t5\t2\n\n", 12, 2);
    refused(t, b"A\t5\t2\n\nA\t5\t2\n", 12, 2);
    refused(t, b"\nA\t5\t2\n", 12, 1);
    refused(t, b"A\t5\t2\r\n", 12, 1);
    refused(t, b"A\t5\t2\nA\t5\t2\r\n", 12, 2);
    refused(t, b"A\t5\t2\nA\t5\t4294967296\nx", 12, 2);
    refused(t, b"A\t5\t2\0", 12, 1);
    let most = b"A\t5\t2\n".repeat(4096);
    let batch: Vec<u32> = (1..=4096).flat_map(|line| [1, 5, 2, 2, line]).collect();
    for bytes in [&most, &most[..most.len() - 1]] {
        ask(t, bytes, MOST_WORDS, 0, 0, &batch);
        ask(t, bytes, MOST_WORDS + 5, 0, 0, &batch);
        ask(t, bytes, MOST_WORDS - 1, 10, 0, &[]);
        ask(t, bytes, 0, 10, 0, &[]);
    }
    for (end, number) in [
        ("A\t5\t2\n", 13),
        ("A\t5\t2", 13),
        ("A\t5\t2\nx", 13),
        ("R\t0\t0\t0", 13),
        ("\n", 12),
        ("x", 12),
        ("A\t5\t2\r\n", 12),
    ] {
        refused(t, &[&most, end.as_bytes()].concat(), number, 4097);
    }
    tally.report("scores_written_out");
    tally.expect(&[0, 10], 200);
    tally.expect(&[12], 60);
    tally.expect(&[13], 20);
}

/// Every input of up to seven bytes over an alphabet that has all of both forms.
#[test]
fn scores_of_every_short_input() {
    let mut tally = Tally::new();
    let alphabet = b"AR\t\n019";
    let pattern: Vec<u32> = (0..11).map(|i| 0xC0DE_0000 + i).collect();
    let mut bytes = Vec::new();
    for length in 0..=7 {
        for counted in 0..alphabet.len().pow(length) {
            bytes.clear();
            let mut rest = counted;
            for _ in 0..length {
                bytes.push(alphabet[rest % alphabet.len()]);
                rest /= alphabet.len();
            }
            let reply = compare::scores(&mut tally, &bytes, &pattern, &String::new);
            if reply.words > 0 {
                let exact = &pattern[..reply.words];
                compare::scores(&mut tally, &bytes, exact, &String::new);
                let few = &pattern[..reply.words - 1];
                compare::scores(&mut tally, &bytes, few, &String::new);
            }
        }
    }
    tally.report("scores_of_every_short_input");
    tally.expect(&[12], 900_000);
    // The files with a record, by the digits of their figures: A with 1 and 1 (9), with 1 and 2 (36),
    // each with and without a line feed, with 1 and 3 (108), with 2 and 2 (36), and R with 1 each (27).
    assert_eq!(tally.of(10), 2 * 9 + 2 * 36 + 108 + 36 + 27);
}

/// Files of records of every small size and of some larger ones, up to the most, with and without
/// the last line feed.
#[test]
fn scores_of_files_of_every_size() {
    let mut random = Random::new(101);
    let mut tally = Tally::new();
    let mut sizes: Vec<usize> = (0..=130).flat_map(|size| [size; 6]).collect();
    sizes.extend([255, 256, 257, 511, 512, 513, 1000, 1023, 1024, 1025]);
    sizes.extend([2047, 2048, 2049, 3000, 4094, 4095, 4096]);
    for size in sizes {
        let lines = files::any_lines(&mut random, size);
        for last_feed in [true, false] {
            let bytes = files::file(&lines, last_feed);
            let about = || format!("{size} lines");
            let reply = compare::scores_by_room(&mut tally, &mut random, &bytes, &about);
            assert_eq!((reply.number, reply.words), (0, RECORD_WORDS * size));
        }
    }
    tally.report("scores_of_files_of_every_size");
    tally.expect(&[0, 10], 3_000);
}

/// Each line of another form as the first, the last and some line between, and two of them.
#[test]
fn scores_of_lines_of_another_form() {
    let mut random = Random::new(102);
    let mut tally = Tally::new();
    let bad = files::bad_lines();
    for line in &bad {
        assert_eq!(scores::record(line, 1), None, "{}", line.escape_ascii());
        let about = || format!("with the line \"{}\"", line.escape_ascii());
        for size in [1, 2, 3, 9, 40] {
            let good = files::any_lines(&mut random, size);
            for at in [0, random.below(size), size / 2, size - 1] {
                let mut lines = good.clone();
                lines[at] = line.clone();
                let bytes = files::file(&lines, true);
                let reply = compare::scores_by_room(&mut tally, &mut random, &bytes, &about);
                assert_eq!((reply.number, reply.line), (12, at + 1), "{}", about());
                // Without the last line feed an empty last line is none.
                let bytes = files::file(&lines, false);
                compare::scores_by_room(&mut tally, &mut random, &bytes, &about);
                // The earlier of two.
                let other = random.below(size);
                lines[other] = bad[random.below(bad.len())].clone();
                let bytes = files::file(&lines, true);
                let reply = compare::scores_by_room(&mut tally, &mut random, &bytes, &about);
                let earlier = at.min(other) + 1;
                assert_eq!((reply.number, reply.line), (12, earlier), "{}", about());
            }
        }
    }
    tally.report("scores_of_lines_of_another_form");
    println!("scores_of_lines_of_another_form: {} lines", bad.len());
    tally.expect(&[12], 40_000);
    assert!(bad.len() > 300);
}

/// Files of 4,095 to 4,098 lines, short ones, the longest and any, with lines of another form
/// around the 4,096th, with and without the last line feed.
#[test]
fn scores_at_the_most_lines() {
    let mut random = Random::new(103);
    let mut tally = Tally::new();
    let longest = LONGEST_LINE.trim_end().as_bytes().to_vec();
    for round in 0..3 {
        for size in 4095..=4098 {
            let good = match round {
                0 => vec![b"A\t5\t2".to_vec(); size],
                1 => vec![longest.clone(); size],
                _ => files::any_lines(&mut random, size),
            };
            let mut cases = vec![good.clone()];
            for at in [1, 2048, 4095, 4096, 4097, 4098] {
                for bad in [&b""[..], b"x", b"A\t5\t2\r", b"R\t5\t2\t4294967296"] {
                    if at <= size {
                        let mut lines = good.clone();
                        lines[at - 1] = bad.to_vec();
                        cases.push(lines);
                    }
                }
            }
            for lines in cases {
                for last_feed in [true, false] {
                    let mut bytes = files::file(&lines, last_feed);
                    let about = || format!("round {round}, {size} lines, {last_feed}");
                    let about: &dyn Fn() -> String = &about;
                    compare::scores_by_room(&mut tally, &mut random, &bytes, about);
                    bytes.push(b'\n');
                    let lent = random.words(MOST_WORDS);
                    compare::scores(&mut tally, &bytes, &lent, about);
                }
            }
        }
    }
    tally.report("scores_at_the_most_lines");
    tally.expect(&[0, 10], 25);
    tally.expect(&[12], 600);
    tally.expect(&[13], 100);
}

/// Each figure in each place, with what it stands for, and figures of very many digits.
#[test]
fn scores_of_figures() {
    let mut random = Random::new(104);
    let mut tally = Tally::new();
    for (figure, value) in files::FIGURES {
        let lines = files::lines_with_figure(figure.as_bytes());
        let batches = [
            [1, value, 2, 2, 1],
            [1, 5, value, value, 1],
            [2, value, 2, 9, 1],
            [2, 5, value, 9, 1],
            [2, 5, 2, value, 1],
        ];
        for (line, batch) in lines.iter().zip(&batches) {
            read(&mut tally, line, batch);
            read(&mut tally, &[line, &b"\n"[..]].concat(), batch);
            // No digit may be left out, doubled or followed by another without notice.
            for at in 0..line.len() {
                let mut longer = line.clone();
                longer.insert(at, line[at]);
                let mut shorter = line.clone();
                shorter.remove(at);
                for bytes in [longer, shorter] {
                    compare::scores_by_room(&mut tally, &mut random, &bytes, &String::new);
                }
            }
        }
    }
    let by_hand = tally.of(0) + tally.of(10);
    for digits in [10, 11, 12, 19, 20, 21, 38, 39, 40, 64, 100, 1_000, 100_000] {
        for figure in files::long_figures(digits) {
            for line in files::lines_with_figure(&figure) {
                for end in [&b""[..], b"\n", b"\nA\t5\t2\n"] {
                    let bytes = [&b"A\t5\t2\n"[..], &line, end].concat();
                    let about = || format!("{digits} digits");
                    let reply = compare::scores_by_room(&mut tally, &mut random, &bytes, &about);
                    // Of ten digits 1,000,000,000 alone is no fault.
                    if digits > 10 {
                        assert_eq!((reply.number, reply.line), (12, 2), "{digits} digits");
                    }
                }
            }
        }
    }
    // Around the highest figure, each of ten digits.
    for figure in 4_294_967_200..4_294_967_400u64 {
        let figure = figure.to_string();
        for line in files::lines_with_figure(figure.as_bytes()) {
            let number = u32::from(figure.as_str() > "4294967295") * 12;
            let reply = compare::scores_by_room(&mut tally, &mut random, &line, &String::new);
            assert_eq!(reply.number, number, "{figure}");
        }
    }
    tally.report("scores_of_figures");
    println!("scores_of_figures: {by_hand} of figures at the ends of each number of digits");
    tally.expect(&[0, 10, 12], 2_000);
}

/// Files with one byte changed, put in or left out: short ones in every way there is, longer ones
/// at random.
#[test]
fn scores_after_changes_of_one_byte() {
    let mut random = Random::new(105);
    let mut tally = Tally::new();
    let mut try_one = |bytes: &[u8]| {
        let lent = [7; 10];
        compare::scores(&mut tally, bytes, &lent, &String::new);
    };
    for whole in [
        &b"A\t5\t2\n"[..],
        b"R\t5\t2\t9",
        b"A\t10\t4294967295\nR\t10\t4294967295\t20\n",
        LONGEST_LINE.as_bytes(),
    ] {
        for at in 0..=whole.len() {
            if at < whole.len() {
                try_one(&[&whole[..at], &whole[at + 1..]].concat());
            }
            for byte in 0..=255 {
                try_one(&[&whole[..at], &[byte], &whole[at..]].concat());
                if at < whole.len() {
                    try_one(&[&whole[..at], &[byte], &whole[at + 1..]].concat());
                }
            }
        }
    }
    for _ in 0..8_000 {
        let size = random.below(30);
        let lines = files::any_lines(&mut random, size);
        let whole = files::file(&lines, random.chance(1, 2));
        let bytes = files::mutated(&mut random, &whole);
        let about = || format!("was \"{}\"", whole.escape_ascii());
        compare::scores_by_room(&mut tally, &mut random, &bytes, &about);
    }
    tally.report("scores_after_changes_of_one_byte");
    tally.expect(&[0], 3_000);
    tally.expect(&[10], 2_000);
    tally.expect(&[12], 40_000);
}

#[test]
fn scores_of_random_bytes() {
    let mut random = Random::new(106);
    let mut tally = Tally::new();
    let mut later_lines = 0;
    for _ in 0..150_000 {
        let most = random.pick(&[6, 9, 16, 40]);
        let bytes = files::random_bytes(&mut random, most);
        let reply = compare::scores_by_room(&mut tally, &mut random, &bytes, &String::new);
        later_lines += u32::from(reply.line > 1);
    }
    tally.report("scores_of_random_bytes");
    println!("scores_of_random_bytes: {later_lines} faults behind the first line");
    tally.expect(&[0], 10_000);
    tally.expect(&[10], 3_000);
    tally.expect(&[12], 100_000);
    assert!(later_lines > 10_000);
}

/// Every beginning of files, lent where it stands: the bytes behind it are those of the file.
#[test]
fn scores_of_every_beginning() {
    let mut random = Random::new(107);
    let mut tally = Tally::new();
    for _ in 0..250 {
        let size = 1 + random.below(12);
        let lines = files::any_lines(&mut random, size);
        let whole = files::file(&lines, random.chance(1, 2));
        for end in 0..=whole.len() {
            let about = || format!("the first {end} bytes of a file");
            let lent = random.words(RECORD_WORDS * size);
            compare::scores(&mut tally, &whole[..end], &lent, &about);
        }
    }
    tally.report("scores_of_every_beginning");
    tally.expect(&[0, 12], 5_000);
}

/// All orders of a list.
fn orders<T: Copy>(items: &[T]) -> Vec<Vec<T>> {
    if items.is_empty() {
        return vec![Vec::new()];
    }
    let mut all = Vec::new();
    for first in 0..items.len() {
        let rest = [&items[..first], &items[first + 1..]].concat();
        for mut order in orders(&rest) {
            order.insert(0, items[first]);
            all.push(order);
        }
    }
    all
}

/// Records equal in term and from stay in the order of their lines: few in every order, many with
/// few terms and froms, whose to tells them apart.
#[test]
fn scores_keep_the_order_of_equal_records() {
    let mut random = Random::new(108);
    let mut tally = Tally::new();
    let sets: [Vec<Record>; 4] = [
        vec![
            addition(5, 2),
            removal(5, 2, 9),
            removal(5, 2, 3),
            removal(5, 2, 2),
            removal(5, 2, TOP),
            addition(5, 2),
        ],
        vec![
            addition(5, 2),
            removal(5, 2, 1),
            addition(5, 3),
            removal(5, 3, 1),
            removal(4, 9, 9),
            addition(6, 1),
        ],
        vec![
            removal(1, TOP, 1),
            addition(2, 1),
            removal(2, 1, TOP),
            addition(1, TOP),
            removal(1, 1, 2),
            removal(1, 1, 1),
        ],
        vec![
            removal(0, 0, 4),
            removal(0, 0, 3),
            removal(0, TOP, 2),
            removal(TOP, 0, 1),
            addition(0, 0),
            addition(TOP, 0),
        ],
    ];
    for set in sets {
        for order in orders(&set) {
            let bytes = files::file(&files::lines(&order), random.chance(1, 2));
            compare::scores_by_room(&mut tally, &mut random, &bytes, &String::new);
        }
    }
    let in_every_order = tally.total();
    for round in 0..400 {
        let size = match round % 8 {
            0 => 4096 - random.below(3),
            1 => random.below(1000),
            _ => 2 + random.below(60),
        };
        let terms = 1 + random.below(4);
        let froms = 1 + random.below(3);
        let mut records = Vec::new();
        for to in 1..=size as u32 {
            let term = 1 + random.below(terms) as u32;
            let from = 1 + random.below(froms) as u32;
            if random.chance(1, 5) {
                records.push(addition(term, from));
            } else {
                records.push(removal(term, from, to));
            }
        }
        let bytes = files::file(&files::lines(&records), random.chance(1, 2));
        let about = || format!("{size} records, {terms} terms, {froms} froms");
        compare::scores_by_room(&mut tally, &mut random, &bytes, &about);
    }
    tally.report("scores_keep_the_order_of_equal_records");
    println!("scores_keep_the_order_of_equal_records: {in_every_order} in every order");
    tally.expect(&[0, 10], 6_000);
}

/// Files that are in order already, in the opposite one, rising then falling, nearly in order, and
/// at random, up to the most records.
#[test]
fn scores_of_files_in_many_orders() {
    let mut random = Random::new(109);
    let mut tally = Tally::new();
    for size in [2, 3, 5, 17, 100, 1000, 4095, 4096] {
        for spread in [1, 7, size] {
            let mut sorted: Vec<Record> = (0..size)
                .map(|i| {
                    let by_spread = (i / spread) as u32;
                    removal(1 + by_spread, 1 + (i % spread) as u32, i as u32)
                })
                .collect();
            sorted.sort_by_key(|record| (record.term, record.from));
            let reversed: Vec<Record> = sorted.iter().rev().copied().collect();
            let evens = sorted.iter().copied().step_by(2);
            let odds = sorted.iter().copied().skip(1).step_by(2);
            let up_and_down: Vec<Record> = evens.clone().chain(odds.clone().rev()).collect();
            let dealt: Vec<Record> = odds.chain(evens).collect();
            let mut rotated = sorted.clone();
            rotated.rotate_left(1);
            let mut one_late = sorted.clone();
            one_late.rotate_right(1);
            let mut swapped = sorted.clone();
            let at = random.below(size - 1);
            swapped.swap(at, at + 1);
            let mut shuffled = sorted.clone();
            random.shuffle(&mut shuffled);
            let about = || format!("{size} records, {spread} to a term");
            for records in [
                sorted,
                reversed,
                up_and_down,
                dealt,
                rotated,
                one_late,
                swapped,
                shuffled,
            ] {
                let bytes = files::file(&files::lines(&records), random.chance(1, 2));
                compare::scores_by_room(&mut tally, &mut random, &bytes, &about);
            }
        }
    }
    // Keys that differ in their highest or lowest bits alone, and keys at random.
    for _ in 0..40 {
        let size = random.pick(&[50, 300, 2000, 4096]);
        let mut records = Vec::new();
        for to in 1..=size {
            let mut key = || match random.below(4) {
                0 => random.word() & 0x8000_0001,
                1 => random.word() & 0x0101_0101,
                2 => TOP - random.below(3) as u32,
                _ => random.word(),
            };
            records.push(removal(key(), key(), to));
        }
        let bytes = files::file(&files::lines(&records), true);
        compare::scores_by_room(&mut tally, &mut random, &bytes, &String::new);
    }
    tally.report("scores_of_files_in_many_orders");
    tally.expect(&[0, 10], 400);
}

/// Files of megabytes: one huge line, very many lines, and a first fault early or late in them.
#[test]
fn scores_of_megabytes() {
    let mut random = Random::new(110);
    let mut tally = Tally::new();
    let size = 3_000_000;
    let most = b"A\t5\t2\n".repeat(4096);
    let mut cases: Vec<(Vec<u8>, u32, usize)> = vec![
        (b"A\t5\t2\n".repeat(500_000), 13, 4097),
        (LONGEST_LINE.as_bytes().repeat(100_000), 13, 4097),
        (b"\n".repeat(size), 12, 1),
        (vec![0; size], 12, 1),
        (vec![0xFF; size], 12, 1),
        (vec![b'\t'; size], 12, 1),
        (vec![b'A'; size], 12, 1),
        (vec![b'0'; size], 12, 1),
        ([b"A\t", &vec![b'9'; size][..], b"\t2\n"].concat(), 12, 1),
        ([b"A\t5\t", &vec![b'1'; size][..]].concat(), 12, 1),
        ([b"R\t5\t2\t", &vec![b'0'; size][..]].concat(), 12, 1),
        ([&most, &vec![b'7'; size][..]].concat(), 12, 4097),
        ([&most, &vec![b'\n'; size][..]].concat(), 12, 4097),
        (
            [&most, &b"A\t5\t2\n"[..], &vec![b'x'; size]].concat(),
            13,
            4097,
        ),
        (
            [&most[6..], &b"A\t5\t2"[..], &vec![b'0'; size]].concat(),
            12,
            4096,
        ),
    ];
    for line in [1, 2, 1000, 4095, 4096] {
        let mut bytes = b"A\t5\t2\n".repeat(300_000);
        bytes[6 * (line - 1)] = b'a';
        cases.push((bytes, 12, line));
    }
    for (bytes, number, line) in &cases {
        let about = || format!("number {number} at line {line}");
        for lent in [0, 4, 5, MOST_WORDS] {
            let reply = compare::scores(&mut tally, bytes, &random.words(lent), &about);
            assert_eq!((reply.number, reply.line), (*number, *line));
        }
    }
    tally.report("scores_of_megabytes");
    tally.expect(&[12], 40);
    tally.expect(&[13], 8);
}

/// Files longer than the bytes that settle the answer, whose first fault stands near their end.
fn files_around_the_settling_bytes(random: &mut Random) -> Vec<Vec<u8>> {
    let longest = LONGEST_LINE.as_bytes();
    let mut all = Vec::new();
    // So many of the longest lines, then a line of so many bytes, then others.
    for lines in 4094..=4098 {
        let beginning = longest.repeat(lines);
        for behind in [
            &b"R\t4294967295\t4294967295\t429496729"[..],
            b"R\t4294967295\t4294967295\t4294967295",
            b"R\t4294967295\t4294967295\t42949672950",
            b"R\t4294967295\t4294967295\t4294967295\t",
            b"R\t4294967295\t4294967295\t4294967295\r",
            b"R\t4294967295\t4294967295\t4294967296",
            b"A\t5\t2",
            b"",
        ] {
            for end in [&b""[..], b"\n", b"\n\n", b"\nA\t5\t2\n", b"x\n"] {
                all.push([&beginning, behind, end].concat());
            }
        }
    }
    // One line shorter by a few bytes, so that the last ones stand before that place.
    for digits in 1..=9 {
        let mut bytes = longest.repeat(4097);
        let at = 35 * random.below(4096);
        bytes.drain(at + 34 - digits..at + 34);
        for behind in [&b""[..], b"A\t5\t2", b"\n", b"9"] {
            all.push([&bytes, behind].concat());
            all.push([&bytes[..bytes.len() - 1], behind].concat());
        }
    }
    // Lines of any length, very many, and one that is longer than all there may be.
    for lines in [4096, 4097, 20_000] {
        let lines = files::any_lines(random, lines);
        all.push(files::file(&lines, true));
        let mut bytes = files::file(&lines[..100], true);
        bytes.extend(vec![b'1'; SETTLING_BYTES]);
        all.push(bytes);
    }
    all
}

/// The first 143,395 bytes settle what a file gives, in the second program by itself and in the
/// library.
#[test]
fn scores_settled_by_the_first_bytes() {
    let mut random = Random::new(111);
    let mut tally = Tally::new();
    let mut longer = 0;
    assert_eq!((LONGEST_LINE.len(), SETTLING_BYTES), (35, 143_395));
    for bytes in files_around_the_settling_bytes(&mut random) {
        let settling = &bytes[..bytes.len().min(SETTLING_BYTES)];
        assert_eq!(scores::fault(&bytes), scores::fault(settling));
        assert_eq!(scores::outcome(&bytes), scores::outcome(settling));
        longer += u32::from(settling.len() < bytes.len());
        let about = || format!("{} bytes", bytes.len());
        let lent = random.words(MOST_WORDS);
        let whole = compare::scores(&mut tally, &bytes, &lent, &about);
        let cut = compare::scores(&mut tally, settling, &lent, &about);
        assert_eq!(whole, cut, "{}", about());
    }
    // One byte less would not: the 4,097th line would have a record's form.
    let bytes = [
        &LONGEST_LINE.as_bytes().repeat(4096),
        &LONGEST_LINE.as_bytes()[..34],
        b"0",
    ]
    .concat();
    assert_eq!(bytes.len(), SETTLING_BYTES);
    assert_eq!(scores::fault(&bytes), Some((12, 4097)));
    assert_eq!(scores::fault(&bytes[..143_394]), Some((13, 4097)));
    tally.report("scores_settled_by_the_first_bytes");
    tally.expect(&[0], 20);
    tally.expect(&[12], 100);
    tally.expect(&[13], 50);
    assert!(longer > 100);
}

/// A pass of the library with its own batch of a file.
fn library_outcome(bytes: &[u8]) -> Outcome {
    let mut batch = vec![0xDEAD_BEEF; MOST_WORDS];
    let reply = ffi::scores(bytes, &mut batch);
    if reply.number != 0 {
        return Outcome::Number(reply.number);
    }
    let mut card = vec![0; cards::right_length(8, 6)];
    assert_eq!(ffi::format(&mut card, 8, 6), 0);
    for steps in 1..=100 {
        let answer = ffi::step(&mut card, &batch[..reply.words]);
        if answer.number != 0 {
            return Outcome::Number(answer.number);
        }
        if answer.finished {
            return Outcome::Steps(steps);
        }
    }
    panic!("a pass without an end");
}

/// The batch of a file goes to the step: passes end as the second program's do.
#[test]
fn passes_with_the_batch_of_a_file() {
    let mut random = Random::new(112);
    let mut tally = Tally::new();
    for (bytes, outcome) in [
        ("R\t0\t1\t9", Outcome::Number(6)),
        ("R\t0\t1\t4294967295\n", Outcome::Number(6)),
        ("A\t0\t5\n", Outcome::Number(6)),
        ("A\t5\t2\nR\t0\t1\t9\n", Outcome::Number(6)),
        // Added, then taken back; and the other way round.
        ("A\t5\t2\nR\t5\t1\t9\n", Outcome::Steps(1)),
        ("R\t5\t1\t9\nA\t5\t2\n", Outcome::Steps(3)),
        ("A\t5\t2\nR\t5\t1\t9\nA\t5\t2\n", Outcome::Steps(3)),
        ("R\t5\t1\t9\nA\t5\t2\nR\t5\t2\t2\n", Outcome::Steps(1)),
        // Ranges with no game in them.
        ("R\t5\t9\t3", Outcome::Steps(1)),
        ("R\t5\t4294967295\t1\n", Outcome::Steps(1)),
        ("R\t5\t9\t3\nA\t5\t4\nA\t5\t9\n", Outcome::Steps(3)),
        ("R\t5\t9\t0", Outcome::Number(6)),
        ("R\t5\t1\t0\n", Outcome::Number(6)),
        ("R\t5\t0\t3\n", Outcome::Number(6)),
        ("R\t0\t9\t3\n", Outcome::Number(6)),
    ] {
        assert_eq!(library_outcome(bytes.as_bytes()), outcome, "{bytes}");
        assert_eq!(scores::outcome(bytes.as_bytes()), outcome, "{bytes}");
    }
    let mut by_steps = [0; 16];
    for round in 0..4_000 {
        let universe = Universe::random(&mut random);
        let lines = match round % 4 {
            0 => {
                let size = random.below(12);
                files::lines(&files::any_records(&mut random, &universe, size))
            }
            _ => {
                let mixture = Mixture::random(&mut random);
                let most = random.pick(&[3, 12, 40]);
                files::good_lines(&mut random, &universe, mixture, most)
            }
        };
        let mut bytes = files::file(&lines, random.chance(1, 2));
        if random.chance(1, 10) {
            bytes = files::mutated(&mut random, &bytes);
        }
        let outcome = library_outcome(&bytes);
        assert_eq!(outcome, scores::outcome(&bytes), "{}", bytes.escape_ascii());
        match outcome {
            Outcome::Number(number) => tally.note(number),
            Outcome::Steps(steps) => {
                tally.note(0);
                by_steps[steps as usize] += 1;
            }
        }
    }
    tally.report("passes_with_the_batch_of_a_file");
    println!("passes_with_the_batch_of_a_file: by steps {by_steps:?}");
    tally.expect(&[0, 6, 8, 12], 100);
    for steps in [1, 3, 6, 9, 12, 15] {
        assert!(
            by_steps[steps] >= 50,
            "{steps} steps too seldom: {by_steps:?}"
        );
    }
}

/// A line whose range has no game in it, put in at every line of a file: the batch is the file's with
/// that one record more, by its from, and the pass ends as it does without it.
#[test]
fn scores_with_an_empty_range_at_every_line() {
    let mut random = Random::new(113);
    let mut tally = Tally::new();
    let mut ends = Tally::new();
    for round in 0..300 {
        let universe = Universe::random(&mut random);
        let most = [4, 12, 40][round % 3];
        let lines = files::good_lines(&mut random, &universe, Mixture::Both, most);
        let whole = library_outcome(&files::file(&lines, true));
        for at in 0..=lines.len() {
            for line in files::EMPTY_LINES {
                let about = || format!("{line} as line {} of {}", at + 1, lines.len() + 1);
                let bytes = files::file(&files::with_line(&lines, at, line), random.chance(1, 2));
                compare::scores_by_room(&mut tally, &mut random, &bytes, &about);
                let outcome = library_outcome(&bytes);
                assert_eq!(outcome, whole, "{}", about());
                assert_eq!(outcome, scores::outcome(&bytes), "{}", about());
                ends.note(match outcome {
                    Outcome::Number(number) => number,
                    Outcome::Steps(_) => 0,
                });
            }
            let zero = files::file(&files::with_line(&lines, at, "R\t5\t9\t0"), true);
            assert_eq!(library_outcome(&zero), Outcome::Number(6));
            ends.note(6);
        }
    }
    tally.report("scores_with_an_empty_range_at_every_line");
    ends.report("scores_with_an_empty_range_at_every_line, passes");
    tally.expect(&[0, 10], 5_000);
    ends.expect(&[0, 6, 8], 500);
}
