// Makers of scorekeepers' files: lines of records, and lines of another form.

use crate::batches::{self, Mixture, Universe};
use crate::random::Random;
use crate::second::batch::{self, Record, ADD, ANNUL};

/// The line of a record, without a line feed; none says a removal under every term. Where the line
/// stands is the record's arrival number.
pub fn line(record: &Record) -> Vec<u8> {
    let Record {
        kind,
        term,
        from,
        to,
        ..
    } = record;
    assert_ne!(*kind, ANNUL, "no line says it");
    if *kind == ADD {
        format!("A\t{term}\t{from}").into_bytes()
    } else {
        format!("R\t{term}\t{from}\t{to}").into_bytes()
    }
}

pub fn lines(records: &[Record]) -> Vec<Vec<u8>> {
    records.iter().map(line).collect()
}

/// The lines with a line feed each, the last one with or without.
pub fn file(lines: &[Vec<u8>], last_feed: bool) -> Vec<u8> {
    let mut bytes = lines.join(&b'\n');
    if last_feed && !lines.is_empty() {
        bytes.push(b'\n');
    }
    bytes
}

/// Records in any order that lines can say, now and then with a zero; from is often above to.
pub fn any_records(random: &mut Random, universe: &Universe, count: usize) -> Vec<Record> {
    let figure = |random: &mut Random, figure: u32| {
        if random.chance(1, 30) {
            0
        } else {
            figure
        }
    };
    let mut records = Vec::new();
    for _ in 0..count {
        let (term, from, to) = (
            universe.term(random),
            universe.position(random),
            universe.position(random),
        );
        let term = figure(random, term);
        let from = figure(random, from);
        if random.chance(1, 2) {
            records.push(batches::addition(term, from));
        } else {
            records.push(batches::removal(term, from, figure(random, to)));
        }
    }
    records
}

/// The lines of a few such records.
pub fn any_lines(random: &mut Random, count: usize) -> Vec<Vec<u8>> {
    let universe = Universe::random(random);
    lines(&any_records(random, &universe, count))
}

/// The lines of a batch that is judged 0, in any order.
pub fn good_lines(
    random: &mut Random,
    universe: &Universe,
    mixture: Mixture,
    most: usize,
) -> Vec<Vec<u8>> {
    let batch = batches::good(random, universe, mixture, most);
    let mut records = batch::records(&batch);
    records.retain(|record| record.kind != ANNUL);
    random.shuffle(&mut records);
    lines(&records)
}

/// Lines that remove nothing, since from is above to.
pub const EMPTY_LINES: [&str; 5] = [
    "R\t5\t9\t3",
    "R\t5\t4\t3",
    "R\t1\t2\t1",
    "R\t5\t4294967295\t1",
    "R\t4294967295\t4294967295\t4294967294",
];

/// The lines with one more before the line `at`, counted from 0, or behind all.
pub fn with_line(lines: &[Vec<u8>], at: usize, line: &str) -> Vec<Vec<u8>> {
    let mut lines = lines.to_vec();
    lines.insert(at, line.as_bytes().to_vec());
    lines
}

/// Figures and the numbers they stand for, at both ends of each number of digits.
pub const FIGURES: [(&str, u32); 30] = [
    ("0", 0),
    ("1", 1),
    ("5", 5),
    ("9", 9),
    ("10", 10),
    ("99", 99),
    ("100", 100),
    ("909", 909),
    ("999", 999),
    ("1000", 1_000),
    ("9999", 9_999),
    ("10000", 10_000),
    ("65536", 65_536),
    ("99999", 99_999),
    ("100000", 100_000),
    ("999999", 999_999),
    ("1000000", 1_000_000),
    ("9999999", 9_999_999),
    ("10000000", 10_000_000),
    ("99999999", 99_999_999),
    ("100000000", 100_000_000),
    ("999999999", 999_999_999),
    ("1000000000", 1_000_000_000),
    ("1234567890", 1_234_567_890),
    ("2147483647", 2_147_483_647),
    ("2147483648", 2_147_483_648),
    ("4199999999", 4_199_999_999),
    ("4294967289", 4_294_967_289),
    ("4294967294", 4_294_967_294),
    ("4294967295", 4_294_967_295),
];

/// What is no figure, or one above 4,294,967,295.
const NO_FIGURES: [&[u8]; 64] = [
    b"",
    // Leading zeros.
    b"00",
    b"01",
    b"010",
    b"007",
    b"0000000000",
    b"0000000001",
    b"00000000001",
    b"01234567890",
    b"04294967295",
    b"00000000000000000000000000000000000000000000000005",
    // Too large, some of them small where high bits are dropped.
    b"4294967296",
    b"4294967299",
    b"4294967300",
    b"4294967301",
    b"4294967395",
    b"4294968295",
    b"4295000000",
    b"4300000000",
    b"5000000000",
    b"5294967295",
    b"8589934597",
    b"9999999999",
    b"10000000000",
    b"42949672950",
    b"42949672951",
    b"99999999999",
    b"9223372036854775808",
    b"18446744073709551615",
    b"18446744073709551616",
    b"18446744073709551621",
    b"99999999999999999999",
    b"340282366920938463463374607431768211461",
    // Signs, blanks and other bytes.
    b"+5",
    b"-5",
    b"-0",
    b"+",
    b"-",
    b" 5",
    b"5 ",
    b" ",
    b"5\r",
    b"\r",
    b"5 5",
    b"1,000",
    b"1.000",
    b"1_000",
    b"5.",
    b"1e3",
    b"0x5",
    b"5a",
    b"a5",
    b"A",
    b"/",
    b":",
    b"5/",
    b"5:",
    b"\0",
    b"5\0",
    b"\x0b5",
    b"\xb5",
    b"5\xff",
    "５".as_bytes(),
    "٥".as_bytes(),
];

/// Lines of another form whose figures are right.
const OTHER_FORMS: [&[u8]; 58] = [
    b"",
    b"A",
    b"R",
    b"5",
    b"\t",
    b"\t\t",
    b"\t\t\t",
    // Fields that are missing or too many.
    b"A\t",
    b"R\t",
    b"A\t5",
    b"A5",
    b"A5\t2",
    b"A\t52",
    b"R\t5",
    b"R\t5\t2",
    b"R\t5\t29",
    b"5\t2",
    b"5\t2\t9",
    b"\t5\t2",
    b"\tA\t5\t2",
    b"A\t\t5\t2",
    b"A\t5\t\t2",
    b"A\t5\t2\t",
    b"A\t5\t2\t9",
    b"A\t5\t2\t2",
    b"A\t5\t2\t\t",
    b"R\t\t5\t2\t9",
    b"R\t5\t\t2\t9",
    b"R\t5\t2\t\t9",
    b"R\t5\t2\t9\t",
    b"R\t5\t2\t9\t9",
    b"A\t5\t2A\t5\t9",
    b"A\t5\t2\tA\t5\t9",
    // Other letters.
    b"a\t5\t2",
    b"r\t5\t2\t9",
    b"B\t5\t2",
    b"Q\t5\t2\t9",
    b"@\t5\t2",
    b"AA\t5\t2",
    b"AR\t5\t2",
    b"RR\t5\t2\t9",
    b"1\t5\t2",
    b"2\t5\t2\t9",
    b"\xc1\t5\t2",
    b"\xd2\t5\t2\t9",
    "Ａ\t5\t2".as_bytes(),
    // Other bytes between the fields and around them.
    b"A 5 2",
    b"A 5\t2",
    b"A\t5 2",
    b"A,5,2",
    b"A\x0b5\t2",
    b" A\t5\t2",
    b"A \t5\t2",
    b"A\t5\t2\r",
    b"\rA\t5\t2",
    b"\0A\t5\t2",
    b"A\0\t5\t2",
    "\u{feff}A\t5\t2".as_bytes(),
];

/// The lines that have this text in one place of a figure.
pub fn lines_with_figure(figure: &[u8]) -> [Vec<u8>; 5] {
    [
        [b"A\t", figure, b"\t2"].concat(),
        [b"A\t5\t", figure].concat(),
        [b"R\t", figure, b"\t2\t9"].concat(),
        [b"R\t5\t", figure, b"\t9"].concat(),
        [b"R\t5\t2\t", figure].concat(),
    ]
}

/// Figures of so many digits that are far too large, and zeros.
pub fn long_figures(digits: usize) -> [Vec<u8>; 4] {
    let mut least = vec![b'0'; digits];
    least[0] = b'1';
    let mut small = vec![b'0'; digits];
    small[digits - 1] = b'5';
    [vec![b'9'; digits], least, vec![b'0'; digits], small]
}

/// Lines of another form or with a figure above 4,294,967,295, one ground each.
pub fn bad_lines() -> Vec<Vec<u8>> {
    let mut bad: Vec<Vec<u8>> = OTHER_FORMS.iter().map(|line| line.to_vec()).collect();
    for figure in NO_FIGURES {
        bad.extend(lines_with_figure(figure));
    }
    for figure in long_figures(100) {
        bad.extend(lines_with_figure(&figure));
    }
    bad
}

/// The bytes of files' lines and what is next to them, so that random bytes come close to files.
const ALPHABET: &[u8] = b"AR\t\n0159";
const TOKENS: [&[u8]; 16] = [
    b"A\t",
    b"R\t",
    b"\t",
    b"\t",
    b"\n",
    b"\n",
    b"A\t5\t2",
    b"R\t5\t2\t9",
    b"\nA\t1\t1\n",
    b"0",
    b"1",
    b"9",
    b"10",
    b"4294967295",
    b"4294967296",
    b"\r",
];

/// Bytes at random: over a small alphabet, of parts of lines, of lines with such parts among them,
/// or any.
pub fn random_bytes(random: &mut Random, most: usize) -> Vec<u8> {
    let length = random.below(most + 1);
    let parts: Vec<&[u8]> = match random.below(7) {
        0 | 1 => return (0..length).map(|_| random.pick(ALPHABET)).collect(),
        2 => return random.bytes(length),
        3 => (0..length).map(|_| random.pick(&TOKENS)).collect(),
        _ => {
            let lines: [&[u8]; 4] = [b"A\t5\t2\n", b"R\t5\t2\t9\n", b"A\t1\t9\n", b"R\t1\t9\t1\n"];
            let part = |random: &mut Random| match random.below(10) {
                0 => random.pick(&TOKENS),
                1 => b"R\t1\t9\t0\n",
                _ => random.pick(&lines),
            };
            (0..length).map(|_| part(random)).collect()
        }
    };
    parts.concat()
}

/// One byte changed, inserted or left out somewhere.
pub fn mutated(random: &mut Random, bytes: &[u8]) -> Vec<u8> {
    let mut bytes = bytes.to_vec();
    let byte = match random.below(3) {
        0 => random.draw() as u8,
        1 => random.pick(b"\t\n\r 0a-"),
        _ => random.pick(ALPHABET),
    };
    let at = random.below(bytes.len() + 1);
    match random.below(3) {
        _ if at == bytes.len() => bytes.push(byte),
        0 => bytes[at] = byte,
        1 => bytes.insert(at, byte),
        _ => {
            bytes.remove(at);
        }
    }
    bytes
}
