// The program that reads a scorekeepers' file from standard input, run beside the second program:
// outputs written out by hand, and comparisons. The program is target/bin/scorekeeper, or the one
// in the folder that GAMEINDEX_BIN_DIR names.

use std::env;
use std::fs::{self, File, OpenOptions};
use std::io::{ErrorKind, Read, Seek, SeekFrom, Write};
use std::os::fd::OwnedFd;
use std::os::unix::net::UnixStream;
use std::path::PathBuf;
use std::process::{Child, Command, Output, Stdio};
use std::thread;
use std::time::{Duration, Instant};

use gameindex_tests::batches::{addition, Mixture, Universe};
use gameindex_tests::compare::Tally;
use gameindex_tests::files;
use gameindex_tests::random::Random;
use gameindex_tests::second::scores::{self, LONGEST_LINE, SETTLING_BYTES};
use gameindex_tests::second::Outcome;

fn program() -> PathBuf {
    let folder = match env::var_os("GAMEINDEX_BIN_DIR") {
        Some(named) => PathBuf::from(named),
        None => PathBuf::from(env!("CARGO_MANIFEST_DIR")).join("../target/bin"),
    };
    let program = folder.join("scorekeeper");
    let there = program.is_file();
    assert!(there, "there is no program {} to test", program.display());
    program
}

fn started(input: Stdio) -> Child {
    Command::new(program())
        .stdin(input)
        .stdout(Stdio::piped())
        .stderr(Stdio::piped())
        .spawn()
        .expect("the program starts")
}

/// Runs the program with these pieces written to a pipe, with pauses between them. It may stop
/// reading before the end.
fn by_pipe(pieces: &[&[u8]], pause: Duration) -> Output {
    let mut child = started(Stdio::piped());
    let mut pipe = child.stdin.take().expect("a pipe");
    thread::scope(|scope| {
        scope.spawn(move || {
            for (piece, before) in pieces.iter().zip(0..) {
                if before > 0 {
                    thread::sleep(pause);
                }
                match pipe.write_all(piece) {
                    Err(error) if error.kind() == ErrorKind::BrokenPipe => return,
                    written => written.expect("the pipe takes bytes"),
                }
            }
        });
        child.wait_with_output().expect("the program ends")
    })
}

/// A file that goes when the value does.
struct TemporaryFile(PathBuf);

impl TemporaryFile {
    fn new(test: &str, bytes: &[u8]) -> TemporaryFile {
        let name = format!("gameindex-scorekeeper-{}-{test}", std::process::id());
        let path = env::temp_dir().join(name);
        fs::write(&path, bytes).expect("a temporary file");
        TemporaryFile(path)
    }

    fn open(&self) -> File {
        File::open(&self.0).expect("the temporary file opens")
    }
}

impl Drop for TemporaryFile {
    fn drop(&mut self) {
        let _ = fs::remove_file(&self.0);
    }
}

fn by_file(test: &str, bytes: &[u8]) -> Output {
    let file = TemporaryFile::new(test, bytes);
    let child = started(Stdio::from(file.open()));
    child.wait_with_output().expect("the program ends")
}

/// The program printed this on standard output, nothing else, and ended well.
fn check(output: &Output, expected: &str, about: &dyn Fn() -> String) {
    let text = String::from_utf8_lossy(&output.stdout);
    assert_eq!(text, expected, "{}", about());
    let errors = String::from_utf8_lossy(&output.stderr);
    assert_eq!(errors, "", "on standard error; {}", about());
    let status = output.status;
    assert!(status.success(), "{status}; {}", about());
}

/// The beginning of an input, for a failure's message.
fn shown(bytes: &[u8]) -> String {
    let first = &bytes[..bytes.len().min(300)];
    format!("{} bytes: \"{}\"", bytes.len(), first.escape_ascii())
}

/// Runs of a test beside the second program, and what they gave.
struct Runs {
    test: &'static str,
    tally: Tally,
    by_steps: [u64; 16],
}

impl Runs {
    fn new(test: &'static str) -> Runs {
        Runs {
            test,
            tally: Tally::new(),
            by_steps: [0; 16],
        }
    }

    fn note(&mut self, bytes: &[u8]) {
        match scores::outcome(bytes) {
            Outcome::Number(number) => self.tally.note(number),
            Outcome::Steps(steps) => {
                self.tally.note(0);
                self.by_steps[steps as usize] += 1;
            }
        }
    }

    /// Runs the program with a pipe or, every third time, with a file.
    fn compare(&mut self, bytes: &[u8]) {
        let output = if self.tally.total() % 3 == 2 {
            by_file(self.test, bytes)
        } else {
            by_pipe(&[bytes], Duration::ZERO)
        };
        check(&output, &scores::printed(bytes), &|| shown(bytes));
        self.note(bytes);
    }

    /// Both ways, and the output is this one.
    fn expect(&mut self, bytes: &[u8], expected: &str) {
        check(&by_pipe(&[bytes], Duration::ZERO), expected, &|| {
            shown(bytes)
        });
        check(&by_file(self.test, bytes), expected, &|| shown(bytes));
        assert_eq!(scores::printed(bytes), expected, "the second program");
        self.note(bytes);
    }

    fn report(&self) {
        self.tally.report(self.test);
        println!("{}: by steps {:?}", self.test, self.by_steps);
    }
}

/// So many lines that add a pair each: of one term, and of a term each.
fn additions(count: u32) -> [String; 2] {
    let lines = |line: &dyn Fn(u32) -> String| (1..=count).map(line).collect::<String>();
    [
        lines(&|i| format!("A\t7\t{i}\n")),
        lines(&|i| format!("A\t{i}\t7\n")),
    ]
}

/// Outputs by hand. A block of 8 words holds six positions of one term, or two terms with a
/// position each; a pass takes three steps a block, and five places of six can be filled.
#[test]
fn scorekeeper_outputs_written_out() {
    let mut runs = Runs::new("scorekeeper_outputs_written_out");
    for (input, expected) in [
        ("", "D\t1\n"),
        ("A\t5\t2\n", "D\t3\n"),
        ("A\t5\t2", "D\t3\n"),
        ("R\t5\t2\t9\n", "D\t1\n"),
        ("R\t5\t2\t9", "D\t1\n"),
        ("A\t5\t2\nA\t5\t9\nA\t7\t4\n", "D\t3\n"),
        ("A\t7\t4\nA\t5\t9\nA\t5\t2\n", "D\t3\n"),
        ("A\t8\t1\nA\t7\t4\nA\t5\t9\nA\t5\t2", "D\t6\n"),
        ("A\t4294967295\t4294967295\n", "D\t3\n"),
        ("R\t1\t1\t4294967295\nA\t1\t1\n", "D\t3\n"),
        // Of an addition and a removal of a pair the later line decides.
        ("A\t1\t1\nR\t1\t1\t4294967295\n", "D\t1\n"),
        ("A\t5\t2\nR\t5\t1\t9\n", "D\t1\n"),
        ("R\t5\t1\t9\nA\t5\t2", "D\t3\n"),
        ("A\t5\t2\nR\t5\t1\t9\nA\t5\t2\n", "D\t3\n"),
        ("R\t5\t1\t9\nA\t5\t2\nR\t5\t2\t2", "D\t1\n"),
        ("A\t5\t2\nA\t5\t9\nR\t5\t3\t9\n", "D\t3\n"),
        ("A\t0\t2\n", "N\t6\n"),
        ("A\t5\t0\n", "N\t6\n"),
        // A range with no game in it removes nothing; a zero in it is refused as before.
        ("R\t5\t9\t2\n", "D\t1\n"),
        ("R\t5\t9\t3", "D\t1\n"),
        ("R\t5\t4294967295\t1", "D\t1\n"),
        ("A\t5\t4\nR\t5\t9\t3\n", "D\t3\n"),
        ("R\t5\t9\t3\nA\t5\t4\n", "D\t3\n"),
        ("R\t5\t9\t0\n", "N\t6\n"),
        ("R\t5\t1\t0\n", "N\t6\n"),
        ("R\t0\t9\t3\n", "N\t6\n"),
        ("R\t5\t0\t2\n", "N\t6\n"),
        ("R\t5\t0\t0\n", "N\t6\n"),
        ("A\t5\t2\nR\t0\t1\t1", "N\t6\n"),
        // No line says a removal under every term.
        ("R\t0\t1\t9", "N\t6\n"),
        ("R\t0\t1\t4294967295\n", "N\t6\n"),
        ("A\t0\t5", "N\t6\n"),
        ("A\t0\t5\nR\t0\t1\t9\n", "N\t6\n"),
        ("N\t1\t9\n", "N\t12\n"),
        ("R\t1\t9\n", "N\t12\n"),
        ("\n", "N\t12\n"),
        ("\n\n", "N\t12\n"),
        ("A\t5\t2\n\n", "N\t12\n"),
        ("A\t5\t2\r\n", "N\t12\n"),
        ("A\t0\t2\nx\n", "N\t12\n"),
        ("A\t5\t4294967296\n", "N\t12\n"),
        ("A\t5\t02\n", "N\t12\n"),
        ("a\t5\t2\n", "N\t12\n"),
        ("A\t5\t2\0", "N\t12\n"),
        ("A\t5\t2\u{e9}\n", "N\t12\n"),
    ] {
        runs.expect(input.as_bytes(), expected);
    }
    let by_count = [(6, 2, 3), (12, 4, 6), (18, 6, 9), (24, 8, 12), (30, 10, 15)];
    for (positions, terms, steps) in by_count {
        let done = format!("D\t{steps}\n");
        let after = if steps == 15 {
            "N\t8\n".to_string()
        } else {
            format!("D\t{}\n", steps + 3)
        };
        runs.expect(additions(positions)[0].as_bytes(), &done);
        runs.expect(additions(terms)[1].as_bytes(), &done);
        runs.expect(additions(positions + 1)[0].as_bytes(), &after);
        runs.expect(additions(terms + 1)[1].as_bytes(), &after);
    }
    // The most lines: of one pair, of zeros, of too many pairs.
    for (line, number) in [("A\t5\t2\n", "D\t3\n"), ("A\t0\t2\n", "N\t6\n")] {
        runs.expect(line.repeat(4096).as_bytes(), number);
        runs.expect(line.repeat(4097).as_bytes(), "N\t13\n");
        runs.expect((line.repeat(4096) + "\n").as_bytes(), "N\t12\n");
    }
    let [one_term, many_terms] = additions(4096);
    runs.expect(one_term.as_bytes(), "N\t8\n");
    runs.expect(many_terms.as_bytes(), "N\t8\n");
    // A file that does not stand at its beginning is read from where it stands.
    let text = "x\nA\t5\t2\n";
    let file = TemporaryFile::new("from_the_middle", text.as_bytes());
    let mut opened = file.open();
    opened.seek(SeekFrom::Start(2)).expect("a file seeks");
    let child = started(Stdio::from(opened));
    let output = child.wait_with_output().expect("the program ends");
    check(&output, "D\t3\n", &|| "from the second line".to_string());
    runs.report();
    runs.tally.expect(&[0], 40);
    runs.tally.expect(&[12], 14);
    runs.tally.expect(&[6], 13);
    runs.tally.expect(&[8], 4);
    runs.tally.expect(&[13], 2);
}

/// Each line of another form as the first, a middle and the last line.
#[test]
fn scorekeeper_refuses_lines_of_another_form() {
    let mut random = Random::new(121);
    let mut runs = Runs::new("scorekeeper_refuses_lines_of_another_form");
    for bad in files::bad_lines() {
        let size = 3 + random.below(20);
        for at in [0, 1 + random.below(size - 2), size - 1] {
            let mut lines = files::any_lines(&mut random, size);
            lines[at] = bad.clone();
            runs.compare(&files::file(&lines, at + 1 < size || random.chance(1, 2)));
        }
    }
    runs.report();
    runs.tally.expect(&[12], 1_000);
}

/// 4,095 to 4,098 lines, with and without the last line feed, with a line of another form around
/// the last one that may be, of short lines and of the longest.
#[test]
fn scorekeeper_at_the_most_lines() {
    let mut random = Random::new(122);
    let mut runs = Runs::new("scorekeeper_at_the_most_lines");
    for good in ["A\t5\t2", LONGEST_LINE.trim_end(), "A\t5\t0"] {
        for size in 4095..=4098 {
            let lines = vec![good.as_bytes().to_vec(); size];
            let mut cases = vec![lines.clone()];
            for at in [1, 4095, 4096, 4097, 4098] {
                if at <= size {
                    let mut lines = lines.clone();
                    lines[at - 1] = random.pick(&[&b""[..], b"x", b"A\t5\t2\r"]).to_vec();
                    cases.push(lines);
                }
            }
            for lines in cases {
                for last_feed in [true, false] {
                    runs.compare(&files::file(&lines, last_feed));
                }
            }
        }
    }
    // The 4,097th line has a record's form but for its last byte, which is the last that counts.
    let most = LONGEST_LINE.as_bytes().repeat(4096);
    for end in ["0", "\t", "\r", "x", "\0", "\n", "\n\n", "0\n", "\nx", ""] {
        let line = LONGEST_LINE.trim_end();
        runs.compare(&[&most, line.as_bytes(), end.as_bytes()].concat());
    }
    runs.report();
    runs.tally.expect(&[0, 6, 13], 6);
    runs.tally.expect(&[12], 60);
}

/// Batches whose passes take every number of steps there is, and those that the card or the judge
/// of the batch refuses, in any order of their lines.
#[test]
fn scorekeeper_runs_passes() {
    let mut random = Random::new(123);
    let mut runs = Runs::new("scorekeeper_runs_passes");
    for round in 0..1_500 {
        let universe = Universe::random(&mut random);
        let lines = if round % 4 == 0 {
            let size = random.below(8);
            files::lines(&files::any_records(&mut random, &universe, size))
        } else {
            let mixture = Mixture::random(&mut random);
            let most = random.pick(&[3, 12, 40]);
            files::good_lines(&mut random, &universe, mixture, most)
        };
        runs.compare(&files::file(&lines, random.chance(1, 2)));
    }
    // Many lines that say few things, some of them that add alone.
    for round in 0..60 {
        let removing = if round < 40 { 0 } else { 1 + round % 3 };
        let terms = 1 + random.below(4) as u32;
        let most = 1 + random.below(12) as u32;
        let lines: Vec<Vec<u8>> = (0..4096 - random.below(100))
            .map(|_| {
                let (term, position) = (random.within(1, terms), random.within(1, most));
                if random.chance(removing, 4) {
                    let to = random.within(position, most);
                    format!("R\t{term}\t{position}\t{to}").into_bytes()
                } else {
                    format!("A\t{term}\t{position}").into_bytes()
                }
            })
            .collect();
        runs.compare(&files::file(&lines, random.chance(1, 2)));
    }
    runs.report();
    runs.tally.expect(&[0], 500);
    runs.tally.expect(&[6, 8], 30);
    for steps in [1, 3, 6, 9, 12, 15] {
        assert!(runs.by_steps[steps] >= 20, "{steps} steps too seldom");
    }
}

/// A range with no game in it at every line of a file prints what the file without it prints; with
/// 0 for its to it is refused there.
#[test]
fn scorekeeper_on_empty_ranges() {
    let mut random = Random::new(126);
    let mut runs = Runs::new("scorekeeper_on_empty_ranges");
    for round in 0..24 {
        let universe = Universe::random(&mut random);
        let mut lines = files::good_lines(&mut random, &universe, Mixture::Both, 12);
        if round % 4 == 0 {
            // More than the card holds.
            lines = (1..=11)
                .map(|term| files::line(&addition(term, 7)))
                .collect();
        }
        let whole = scores::printed(&files::file(&lines, true));
        for at in 0..=lines.len() {
            let line = random.pick(&files::EMPTY_LINES);
            let bytes = files::file(&files::with_line(&lines, at, line), random.chance(1, 2));
            assert_eq!(scores::printed(&bytes), whole, "{line} as line {}", at + 1);
            runs.compare(&bytes);
        }
        let at = random.below(lines.len() + 1);
        let refused = files::file(&files::with_line(&lines, at, "R\t5\t9\t0"), true);
        runs.expect(&refused, "N\t6\n");
    }
    // Nothing but such lines, and one line too many of them.
    for line in files::EMPTY_LINES {
        let line = [line, "\n"].concat();
        runs.expect(line.as_bytes(), "D\t1\n");
        runs.expect(line.repeat(4096).as_bytes(), "D\t1\n");
        runs.expect(line.repeat(4097).as_bytes(), "N\t13\n");
    }
    runs.report();
    runs.tally.expect(&[0], 100);
    runs.tally.expect(&[8], 50);
    runs.tally.expect(&[6], 24);
}

/// Bytes at random, files with one byte changed, and bytes above 127.
#[test]
fn scorekeeper_on_random_bytes() {
    let mut random = Random::new(124);
    let mut runs = Runs::new("scorekeeper_on_random_bytes");
    for round in 0..1_200 {
        let bytes = match round % 3 {
            0 => {
                let most = random.pick(&[4, 10, 30]);
                files::random_bytes(&mut random, most)
            }
            1 => {
                let universe = Universe::random(&mut random);
                let lines = files::good_lines(&mut random, &universe, Mixture::Both, 12);
                let whole = files::file(&lines, random.chance(1, 2));
                files::mutated(&mut random, &whole)
            }
            _ => {
                let size = 1 + random.below(12);
                let lines = files::any_lines(&mut random, size);
                let mut bytes = files::file(&lines, random.chance(1, 2));
                let at = random.below(bytes.len());
                bytes[at] |= 0x80;
                bytes
            }
        };
        runs.compare(&bytes);
    }
    runs.report();
    runs.tally.expect(&[12], 700);
    runs.tally.expect(&[0], 100);
    runs.tally.expect(&[6], 30);
}

/// Waits for the program's end, but not for ever.
fn ended_in_time(mut child: Child, about: &str) -> Output {
    let began = Instant::now();
    while child.try_wait().expect("a child").is_none() {
        if began.elapsed() > Duration::from_secs(20) {
            let _ = child.kill();
            let _ = child.wait();
            panic!("the program did not end; {about}");
        }
        thread::sleep(Duration::from_millis(2));
    }
    child.wait_with_output().expect("the program ends")
}

/// Inputs of megabytes, and one without an end: the first bytes settle the answer.
#[test]
fn scorekeeper_on_megabytes() {
    let mut runs = Runs::new("scorekeeper_on_megabytes");
    let size = 4_000_000;
    let most = b"A\t5\t2\n".repeat(4096);
    for bytes in [
        b"A\t5\t2\n".repeat(700_000),
        LONGEST_LINE.as_bytes().repeat(100_000),
        vec![b'\n'; size],
        vec![0; size],
        vec![0xFF; size],
        vec![b'9'; size],
        [b"A\t", &vec![b'9'; size][..], b"\t2\n"].concat(),
        [b"A\t5\t", &vec![b'0'; size][..]].concat(),
        [&most, &vec![b'7'; size][..]].concat(),
        [&most, &b"A\t5\t2\n"[..], &vec![b'x'; size]].concat(),
        [&most[6..], &b"A\t5\t2"[..], &vec![b'0'; size]].concat(),
        [&most[6..], &b"x\n"[..], &vec![b'0'; size]].concat(),
    ] {
        // Twice by a pipe and once by a file.
        for _ in 0..3 {
            runs.compare(&bytes);
        }
        let settling = &bytes[..SETTLING_BYTES.min(bytes.len())];
        assert_eq!(scores::outcome(&bytes), scores::outcome(settling));
    }
    for _ in 0..3 {
        let endless = File::open("/dev/zero").expect("an endless file");
        let output = ended_in_time(started(Stdio::from(endless)), "on an endless line");
        check(&output, "N\t12\n", &|| "on an endless line".to_string());
    }
    let nothing = File::open("/dev/null").expect("an empty file");
    let output = ended_in_time(started(Stdio::from(nothing)), "on /dev/null");
    check(&output, "D\t1\n", &|| "on /dev/null".to_string());
    runs.report();
    runs.tally.expect(&[12], 25);
    runs.tally.expect(&[13], 9);
}

/// Input that arrives in pieces, cut anywhere, with pauses between them.
#[test]
fn scorekeeper_on_input_in_pieces() {
    let mut random = Random::new(125);
    let mut runs = Runs::new("scorekeeper_on_input_in_pieces");
    let pause = Duration::from_millis(4);
    for round in 0..40 {
        let universe = Universe::random(&mut random);
        let lines = files::good_lines(&mut random, &universe, Mixture::Additions, 24);
        let mut bytes = files::file(&lines, random.chance(1, 2));
        if round % 4 == 0 {
            bytes = files::mutated(&mut random, &bytes);
        }
        let mut cuts: Vec<usize> = (0..6).map(|_| random.below(bytes.len() + 1)).collect();
        cuts.extend([0, bytes.len()]);
        cuts.sort_unstable();
        let pieces: Vec<&[u8]> = cuts.windows(2).map(|two| &bytes[two[0]..two[1]]).collect();
        let output = by_pipe(&pieces, pause);
        check(&output, &scores::printed(&bytes), &|| shown(&bytes));
        runs.note(&bytes);
    }
    // Byte by byte, and many lines in pieces that a pipe takes whole.
    let bytes = b"R\t5\t1\t9\nA\t8\t1\nA\t7\t4\nA\t5\t9\nA\t5\t2";
    let pieces: Vec<&[u8]> = bytes.chunks(1).collect();
    check(&by_pipe(&pieces, pause), "D\t6\n", &|| shown(bytes));
    runs.note(bytes);
    let longest = LONGEST_LINE.as_bytes();
    for (bytes, expected) in [
        (b"A\t5\t2\n".repeat(4096), "D\t3\n"),
        (b"A\t5\t2\n".repeat(4097), "N\t13\n"),
        (longest.repeat(4096), "D\t1\n"),
        ([&longest.repeat(4096), &longest[..34]].concat(), "N\t13\n"),
        (
            [&longest.repeat(4096), &longest[..34], b"0"].concat(),
            "N\t12\n",
        ),
    ] {
        let pieces: Vec<&[u8]> = bytes.chunks(9_001).collect();
        check(&by_pipe(&pieces, pause), expected, &|| shown(&bytes));
        runs.note(&bytes);
    }
    runs.report();
    runs.tally.expect(&[0], 25);
}

/// Where a read of standard input fails, nothing is printed: closed, a folder, open for writing
/// alone, and a connection that breaks after lines that are no fault.
#[test]
fn scorekeeper_prints_nothing_where_it_cannot_read() {
    let silent = |output: Output, about: &str| {
        assert_eq!(output.stdout, b"", "{about}");
        assert_eq!(output.stderr, b"", "on standard error; {about}");
        // With whatever status, but by itself and not by a signal.
        let status = output.status;
        assert!(status.code().is_some(), "{status}; {about}");
    };
    let mut failures = 0;
    for _ in 0..10 {
        let closed = Command::new("sh")
            .args(["-c", "exec \"$0\" <&-"])
            .arg(program())
            .output()
            .expect("a shell starts");
        silent(closed, "standard input closed");

        let folder = File::open(env::temp_dir()).expect("a folder opens");
        let folder = started(Stdio::from(folder));
        silent(ended_in_time(folder, "a folder"), "a folder");

        let file = TemporaryFile::new("for_writing", b"A\t5\t2\n");
        let writing = OpenOptions::new().write(true).open(&file.0);
        let writing = started(Stdio::from(writing.expect("a file opens")));
        silent(ended_in_time(writing, "for writing"), "open for writing");
        failures += 3;
    }
    // A socket that is closed with bytes unread breaks the connection: the other end gets what was
    // sent, then an error.
    for lines in ["", "A\t5\t2\n", "A\t5\t2\nA\t5", "A\t5\t2\nA\t5\t0\n"] {
        let broken = || {
            let (mut ours, mut theirs) = UnixStream::pair().expect("a connection");
            theirs.write_all(b"unread").expect("bytes to us");
            ours.write_all(lines.as_bytes()).expect("bytes to them");
            theirs
        };
        // Reading it here fails too, after the lines.
        let mut read = Vec::new();
        let error = broken().read_to_end(&mut read).expect_err("it is broken");
        assert_eq!(error.kind(), ErrorKind::ConnectionReset);
        assert_eq!(read, lines.as_bytes());
        let child = started(Stdio::from(OwnedFd::from(broken())));
        silent(ended_in_time(child, "broken"), "a broken connection");
        failures += 1;
    }
    println!("scorekeeper_prints_nothing_where_it_cannot_read: {failures} comparisons");
}
