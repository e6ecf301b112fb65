// Comparisons of the library under test with the second program, and the tally of what they met.

use crate::batches;
use crate::ffi;
use crate::random::Random;
use crate::second::batch::{ADD, RECORD_WORDS};
use crate::second::page::{page_bytes, LINE_BYTES, LINE_POSITIONS};
use crate::second::{
    self, Configuration, ForecastAnswer, LookupAnswer, PageAnswer, ScoresAnswer, StepAnswer,
};

/// How often each number came out of a test's comparisons.
#[derive(Clone, Debug, Default)]
pub struct Tally {
    counts: [u64; 32],
}

impl Tally {
    pub fn new() -> Tally {
        Tally::default()
    }

    pub fn note(&mut self, number: u32) {
        self.counts[number as usize] += 1;
    }

    pub fn of(&self, number: u32) -> u64 {
        self.counts[number as usize]
    }

    pub fn total(&self) -> u64 {
        self.counts.iter().sum()
    }

    /// Prints the test's line.
    pub fn report(&self, test: &str) {
        let mut numbers = String::new();
        for (number, count) in self.counts.iter().enumerate() {
            if *count > 0 {
                numbers.push_str(&format!(" {number}:{count}"));
            }
        }
        println!("{test}: {} comparisons, by number{numbers}", self.total());
    }

    /// Fails unless each of these numbers came at least `least` times.
    pub fn expect(&self, numbers: &[u32], least: u64) {
        for &number in numbers {
            assert!(
                self.of(number) >= least,
                "number {number} came {} times, wanted {least}",
                self.of(number)
            );
        }
    }
}

/// The beginning of a card, for a failure's message.
fn shown(card: &[u32]) -> String {
    let most = 160;
    if card.len() <= most {
        format!("{card:?}")
    } else {
        format!("{:?} and {} words more", &card[..most], card.len() - most)
    }
}

/// What a call of card and batch is about, for a failure's message.
fn shown_call(card: &[u32], batch: &[u32], about: &dyn Fn() -> String) -> String {
    format!(
        "{}; a card of {} words: {}; a batch of {} words: {}",
        about(),
        card.len(),
        shown(card),
        batch.len(),
        shown(batch)
    )
}

/// Both judges give the same number. The card is lent and must keep its words.
pub fn judge(tally: &mut Tally, card: &[u32], about: &dyn Fn() -> String) {
    let before = card.to_vec();
    let number = ffi::judge(card);
    let expected = second::judge(card);
    assert_eq!(
        number,
        expected,
        "judge gave the left, the second program the right; {}; {} words: {}",
        about(),
        card.len(),
        shown(card)
    );
    assert!(before == card, "judge changed its card; {}", about());
    tally.note(number);
}

const GUARD: usize = 24;

/// Both formatters give the same number and leave the same card; words around the card stay.
pub fn format(tally: &mut Tally, random: &mut Random, card: &[u32], b: u32, n: u32) {
    let about = || format!("B {b}, N {n}, {} words", card.len());
    let mut memory = random.words(GUARD);
    memory.extend_from_slice(card);
    memory.extend(random.words(GUARD));
    let before = memory.clone();
    let end = GUARD + card.len();

    let number = ffi::format(&mut memory[GUARD..end], b, n);
    let mut expected_card = card.to_vec();
    let expected = second::format(&mut expected_card, b, n);

    assert_eq!(
        number,
        expected,
        "format gave the left, the second program the right; {}",
        about()
    );
    let outside_kept = memory[..GUARD] == before[..GUARD] && memory[end..] == before[end..];
    assert!(outside_kept, "format wrote outside its card; {}", about());
    if number == 0 {
        let changed = GUARD..GUARD + 8;
        assert_eq!(
            memory[changed.clone()],
            [1, b, n, 0, 0, 0, 0, 0],
            "configuration words; {}",
            about()
        );
        assert!(
            memory[changed.end..] == before[changed.end..],
            "format wrote beyond the configuration words; {}",
            about()
        );
        assert_eq!(ffi::judge(&memory[GUARD..end]), 0, "{}", about());
    } else {
        assert!(
            memory == before,
            "a refused format changed words; {}",
            about()
        );
    }
    assert!(memory[GUARD..end] == expected_card[..], "{}", about());
    tally.note(number);
}

/// What steps and forecasts have in common: the tally of the numbers that came.
macro_rules! with_numbers {
    ($compared:ident) => {
        impl $compared {
            pub fn new() -> $compared {
                $compared::default()
            }

            pub fn of(&self, number: u32) -> u64 {
                self.numbers.of(number)
            }

            pub fn total(&self) -> u64 {
                self.numbers.total()
            }

            /// Prints the test's lines.
            pub fn report(&self, test: &str) {
                self.numbers.report(test);
                println!("{test}: {self:?}");
            }

            /// Fails unless each of these numbers came at least `least` times.
            pub fn expect(&self, numbers: &[u32], least: u64) {
                self.numbers.expect(numbers, least);
            }
        }
    };
}

/// What the compared steps met: how often each number, write and shape came.
#[derive(Clone, Debug, Default)]
pub struct Steps {
    numbers: Tally,
    pub writes: [u64; 4],
    pub going_on: u64,
    pub finished: u64,
    pub nothing_remained: u64,
    pub freed_in_mid_pass: u64,
    pub freed_several: u64,
    pub freed_all_in_mid_pass: u64,
    pub began_in_mid_pass: u64,
    pub due_place_before_old_start: u64,
    pub on_full_cards: u64,
    pub annulling: u64,
    pub annulling_in_mid_pass: u64,
    pub with_empty_ranges: u64,
    pub empty_ranges_in_mid_pass: u64,
    pub passes: u64,
    pub passes_at_the_limit: u64,
}

with_numbers!(Steps);

impl Steps {
    /// Fails unless every kind of write and every shape came at least `least` times.
    pub fn expect_every_shape(&self, least: u64) {
        for count in [
            self.writes[1],
            self.writes[2],
            self.writes[3],
            self.going_on,
            self.finished,
            self.nothing_remained,
            self.freed_in_mid_pass,
            self.freed_several,
            self.freed_all_in_mid_pass,
            self.began_in_mid_pass,
            self.due_place_before_old_start,
            self.on_full_cards,
            self.annulling,
            self.annulling_in_mid_pass,
            self.with_empty_ranges,
            self.empty_ranges_in_mid_pass,
        ] {
            assert!(count >= least, "a shape came {count} times: {self:?}");
        }
    }

    fn note(&mut self, before: &[u32], after: &[u32], batch: &[u32], answer: &StepAnswer) {
        self.numbers.note(answer.number);
        if answer.number != 0 {
            return;
        }
        let configuration = Configuration::read(before);
        let live = configuration.old_length + configuration.new_length;
        self.writes[answer.write as usize] += 1;
        self.began_in_mid_pass += u64::from(configuration.new_length > 0);
        self.on_full_cards += u64::from(live == configuration.n - 1);
        let around = configuration.due_place() < configuration.old_start as usize;
        self.due_place_before_old_start += u64::from(around);
        let annuls = batches::annuls(batch);
        self.annulling += u64::from(annuls);
        self.annulling_in_mid_pass += u64::from(annuls && configuration.new_length > 0);
        let empty = batches::has_empty_range(batch);
        self.with_empty_ranges += u64::from(empty);
        self.empty_ranges_in_mid_pass += u64::from(empty && configuration.new_length > 0);
        if answer.write == 3 {
            let on = !answer.finished;
            self.going_on += u64::from(on);
            self.finished += u64::from(answer.finished);
            self.freed_in_mid_pass += u64::from(on && answer.freed > 0);
            self.freed_several += u64::from(on && answer.freed > 1);
            let all = on && answer.freed > 0 && answer.freed == configuration.old_length;
            self.freed_all_in_mid_pass += u64::from(all);
            let kept = answer.finished && after[4] == configuration.new_length;
            self.nothing_remained += u64::from(kept);
        }
    }
}

/// The answer of a step that made a write.
pub fn done(write: u32, freed: u32, finished: bool) -> StepAnswer {
    StepAnswer {
        number: 0,
        write,
        freed,
        finished,
    }
}

/// The answer of a refused step.
pub fn refused(number: u32) -> StepAnswer {
    StepAnswer {
        number,
        write: 0,
        freed: 0,
        finished: false,
    }
}

/// Words or bytes lent to a call, and the values that guard them: all different, and none of them one
/// that a call would write there by chance.
trait Lent: Copy + PartialEq {
    fn guard(i: usize) -> Self;
}

impl Lent for u32 {
    fn guard(i: usize) -> u32 {
        0x5EED_0000 + i as u32
    }
}

impl Lent for u8 {
    fn guard(i: usize) -> u8 {
        0x80 + i as u8
    }
}

/// A slice's words or bytes with guards before and after them.
struct Guarded<T> {
    memory: Vec<T>,
}

impl<T: Lent> Guarded<T> {
    fn new(inside: &[T]) -> Guarded<T> {
        let mut memory = Vec::with_capacity(inside.len() + 2 * GUARD);
        memory.extend((0..GUARD).map(T::guard));
        memory.extend_from_slice(inside);
        memory.extend((GUARD..2 * GUARD).map(T::guard));
        Guarded { memory }
    }

    fn inside(&mut self) -> &mut [T] {
        let end = self.memory.len() - GUARD;
        &mut self.memory[GUARD..end]
    }

    fn guards_stand(&self) -> bool {
        let before = self.memory[..GUARD].iter();
        let after = self.memory[self.memory.len() - GUARD..].iter();
        let mut guards = before.chain(after).zip(0..);
        guards.all(|(&value, i)| value == T::guard(i))
    }
}

/// Where two slices of one length begin to differ.
fn first_difference<T: PartialEq>(one: &[T], other: &[T]) -> usize {
    let both = one.iter().zip(other);
    both.take_while(|(one, other)| one == other).count()
}

/// Both steps give the same answer and leave the same card, word for word; a refused one leaves
/// every word; the batch and the words around the card stay. The card is left as after the step.
pub fn step(
    steps: &mut Steps,
    card: &mut [u32],
    batch: &[u32],
    about: &dyn Fn() -> String,
) -> StepAnswer {
    let mut expected_card = card.to_vec();
    let expected = second::step(&mut expected_card, batch);
    let mut lent = Guarded::new(card);
    let mut lent_batch = Guarded::new(batch);
    let answer = ffi::step(lent.inside(), lent_batch.inside());
    let message = || shown_call(card, batch, about);
    assert_eq!(
        answer,
        expected,
        "step gave the left, the second program the right; {}",
        message()
    );
    if answer.number != 0 {
        let counts = (answer.write, answer.freed, answer.finished);
        assert_eq!(counts, (0, 0, false), "counts of a refusal; {}", message());
        assert!(
            lent.inside() == &card[..],
            "a refused step changed words; {}",
            message()
        );
    }
    if lent.inside() != &expected_card[..] {
        let word = first_difference(lent.inside(), &expected_card);
        panic!(
            "after step's write {} word {word} is {}, the second program's {}; {}",
            answer.write,
            lent.inside()[word],
            expected_card[word],
            message()
        );
    }
    assert!(lent.guards_stand(), "step wrote outside; {}", message());
    let batch_kept = lent_batch.inside() == batch && lent_batch.guards_stand();
    assert!(batch_kept, "step changed its batch; {}", message());
    span(card, lent.inside(), answer.write, &message);
    steps.note(card, &expected_card, batch, &answer);
    card.copy_from_slice(&expected_card);
    answer
}

/// Checks where the library says that a write stands in the card that a step left: at the words of
/// the due place, of its map entry or of the configuration, and no word outside them has changed. Of
/// other writes, and on a card that is not sound, there are none.
fn span(before: &[u32], after: &[u32], write: u32, message: &dyn Fn() -> String) {
    let number = ffi::judge(after);
    let expected = match (number, write) {
        (0, 1 | 2) => {
            let configuration = Configuration::read(before);
            let place = configuration.due_place();
            if write == 1 {
                configuration.block_range(place)
            } else {
                configuration.map_range(place)
            }
        }
        (0, 3) => 0..8,
        _ => 0..0,
    };
    let (given, words) = ffi::write_span(after, write);
    assert_eq!((given, &words), (number, &expected), "{}", message());
    assert!(
        before[..words.start] == after[..words.start] && before[words.end..] == after[words.end..],
        "a step changed words outside its write's; {}",
        message()
    );
    for other in [0, 1, 2, 3, 4, u32::MAX] {
        if number != 0 || !(1..=3).contains(&other) {
            let none = (number, 0..0);
            assert_eq!(ffi::write_span(after, other), none, "{}", message());
        }
    }
}

/// Runs one batch until its pass finishes or a step is refused, each step compared; checks the step
/// limit and, where the pass finished, that the batch was applied. Gives the last number.
pub fn pass(steps: &mut Steps, card: &mut [u32], batch: &[u32], about: &dyn Fn() -> String) -> u32 {
    pass_seen(steps, card, batch, about, &mut |_, _| ())
}

/// The same; each step's answer and the card it left are shown.
pub fn pass_seen(
    steps: &mut Steps,
    card: &mut [u32],
    batch: &[u32],
    about: &dyn Fn() -> String,
    seen: &mut dyn FnMut(&StepAnswer, &[u32]),
) -> u32 {
    let limit = second::step_limit(second::blocks_filled(card, batch));
    let mut wanted = second::what_remains(card, batch);
    if let Some(boundary) = Configuration::read(card).boundary() {
        let moved = second::live_pairs(card);
        wanted.extend(moved.range(..=boundary));
    }
    for taken in 1.. {
        assert!(taken <= limit, "beyond the step limit; {}", about());
        let answer = step(steps, card, batch, about);
        seen(&answer, card);
        if answer.number != 0 {
            return answer.number;
        }
        if answer.finished {
            let index = second::live_pairs(card);
            assert!(index == wanted, "another index at the end; {}", about());
            steps.passes += 1;
            steps.passes_at_the_limit += u64::from(taken == limit);
            return 0;
        }
    }
    unreachable!()
}

/// What the compared forecasts met: how often each number, outcome and shape came.
#[derive(Clone, Debug, Default)]
pub struct Forecasts {
    numbers: Tally,
    pub finishing: u64,
    pub nothing_remains: u64,
    pub stopping: u64,
    pub stopping_at_once: u64,
    pub stopping_later: u64,
    pub stopping_at_the_last_block: u64,
    pub in_mid_pass: u64,
    pub stopping_in_mid_pass: u64,
    pub with_one_free: u64,
    pub finishing_with_one_free: u64,
    pub stopping_with_two_free: u64,
    pub removals_alone: u64,
    pub stopping_with_removals_alone: u64,
    pub annulling: u64,
    pub with_empty_ranges: u64,
    pub runs: u64,
    pub steps: u64,
    pub runs_at_the_limit: u64,
}

with_numbers!(Forecasts);

impl Forecasts {
    /// Fails unless every outcome and every shape came at least `least` times.
    pub fn expect_every_shape(&self, least: u64) {
        for count in [
            self.finishing,
            self.nothing_remains,
            self.stopping,
            self.stopping_at_once,
            self.stopping_later,
            self.stopping_at_the_last_block,
            self.in_mid_pass,
            self.stopping_in_mid_pass,
            self.with_one_free,
            self.finishing_with_one_free,
            self.stopping_with_two_free,
            self.removals_alone,
            self.stopping_with_removals_alone,
            self.annulling,
            self.with_empty_ranges,
            self.runs_at_the_limit,
        ] {
            assert!(count >= least, "a shape came {count} times: {self:?}");
        }
    }

    fn note(&mut self, card: &[u32], batch: &[u32], answer: &ForecastAnswer) {
        self.numbers.note(answer.number);
        if answer.number != 0 {
            return;
        }
        let configuration = Configuration::read(card);
        let free = configuration.free_places().len();
        let open = configuration.new_length > 0;
        let stops = !answer.finishes;
        self.finishing += u64::from(answer.finishes);
        self.nothing_remains += u64::from(answer.blocks == 0);
        self.stopping += u64::from(stops);
        self.stopping_at_once += u64::from(stops && answer.writes == 0);
        self.stopping_later += u64::from(stops && answer.writes > 1);
        let last = stops && answer.writes + 1 == answer.blocks;
        self.stopping_at_the_last_block += u64::from(last);
        self.in_mid_pass += u64::from(open);
        self.stopping_in_mid_pass += u64::from(open && stops);
        self.with_one_free += u64::from(free == 1);
        let through = answer.finishes && answer.blocks > 1;
        self.finishing_with_one_free += u64::from(free == 1 && through);
        self.stopping_with_two_free += u64::from(free == 2 && stops);
        let mut kinds = batch.iter().step_by(RECORD_WORDS);
        let removals = !batch.is_empty() && !kinds.any(|&kind| kind == ADD);
        self.removals_alone += u64::from(removals);
        self.stopping_with_removals_alone += u64::from(removals && stops);
        self.annulling += u64::from(batches::annuls(batch));
        self.with_empty_ranges += u64::from(batches::has_empty_range(batch));
    }
}

/// The forecast of a pass that will finish, for what remains filling `blocks` blocks.
pub fn finishing(blocks: u32) -> ForecastAnswer {
    ForecastAnswer {
        number: 0,
        blocks,
        limit: second::step_limit(blocks),
        finishes: true,
        writes: 0,
    }
}

/// The forecast of a pass that will be stopped by 8 after so many configuration writes.
pub fn stopping(blocks: u32, writes: u32) -> ForecastAnswer {
    ForecastAnswer {
        finishes: false,
        writes,
        ..finishing(blocks)
    }
}

/// The answer of a refused forecast.
pub fn no_forecast(number: u32) -> ForecastAnswer {
    ForecastAnswer {
        number,
        blocks: 0,
        limit: 0,
        finishes: false,
        writes: 0,
    }
}

/// What else may stand in the words of the figures before a forecast.
const FIGURES_BEFORE: [[u32; 4]; 4] = [
    [0, 0, 0, 0],
    [1, 1, 1, 1],
    [0, 1, 1, 0],
    [u32::MAX, 3, 0, u32::MAX],
];

/// Both forecasts give the same number and the same figures, whatever the figures' words held; card,
/// batch and the words around them stay.
pub fn forecast(
    forecasts: &mut Forecasts,
    card: &[u32],
    batch: &[u32],
    about: &dyn Fn() -> String,
) -> ForecastAnswer {
    let expected = second::forecast(card, batch);
    let mut lent = Guarded::new(card);
    let mut lent_batch = Guarded::new(batch);
    let answer = ffi::forecast(lent.inside(), lent_batch.inside());
    let message = || shown_call(card, batch, about);
    assert_eq!(
        answer,
        expected,
        "forecast gave the left, the second program the right; {}",
        message()
    );
    if answer.number != 0 {
        let refusal = no_forecast(answer.number);
        assert_eq!(answer, refusal, "figures of a refusal; {}", message());
    }
    let words = FIGURES_BEFORE[forecasts.total() as usize % FIGURES_BEFORE.len()];
    assert_eq!(
        ffi::forecast_over(lent.inside(), lent_batch.inside(), words),
        answer,
        "the forecast over {words:?}; {}",
        message()
    );
    let card_kept = lent.inside() == card && lent.guards_stand();
    assert!(card_kept, "forecast changed its card; {}", message());
    let batch_kept = lent_batch.inside() == batch && lent_batch.guards_stand();
    assert!(batch_kept, "forecast changed its batch; {}", message());
    forecasts.note(card, batch, &answer);
    answer
}

/// The forecast, compared, and beside it the library's own run with the same batch to the end, for a
/// sound card and a batch judged 0. The run finishes within the limit, or stops with 8 after as many
/// configuration writes as the forecast says. After each step that does not finish, the forecast says
/// the same of what is left of the run. Gives the first forecast.
pub fn forecast_run(
    forecasts: &mut Forecasts,
    card: &[u32],
    batch: &[u32],
    about: &dyn Fn() -> String,
) -> ForecastAnswer {
    let first = forecast(forecasts, card, batch, about);
    let message = || shown_call(card, batch, about);
    assert_eq!(first.number, 0, "no run to compare; {}", message());
    let mut run = card.to_vec();
    let mut writes = 0;
    for taken in 1.. {
        let answer = ffi::step(&mut run, batch);
        if answer.number != 0 {
            assert_eq!(answer.number, 8, "step {taken}; {}", message());
            assert!(!first.finishes, "stopped at step {taken}; {}", message());
            assert_eq!(writes, first.writes, "writes before 8; {}", message());
            break;
        }
        assert!(taken <= first.limit, "beyond the limit; {}", message());
        forecasts.steps += 1;
        writes += u32::from(answer.write == 3);
        if answer.finished {
            assert!(first.finishes, "finished at step {taken}; {}", message());
            assert_eq!(writes, first.blocks.max(1), "all writes; {}", message());
            forecasts.runs_at_the_limit += u64::from(taken == first.limit);
            break;
        }
        let expected = if first.finishes {
            finishing(first.blocks - writes)
        } else {
            assert!(writes <= first.writes, "write {writes}; {}", message());
            stopping(first.blocks - writes, first.writes - writes)
        };
        let next = ffi::forecast(&run, batch);
        assert_eq!(next, expected, "after step {taken}; {}", message());
        forecasts.numbers.note(0);
    }
    forecasts.runs += 1;
    first
}

/// A term, from and to.
pub type Question = (u32, u32, u32);

/// Both lookups give the same answer and leave the same answer words, the ones not needed as they
/// were; a refused one leaves them all; card, and words around the answer words, stay. The reading
/// of the same question and its run view are compared too.
pub fn lookup(
    tally: &mut Tally,
    card: &[u32],
    question: Question,
    answer: &[u32],
    about: &dyn Fn() -> String,
) -> LookupAnswer {
    let (term, from, to) = question;
    let mut expected_words = answer.to_vec();
    let expected = second::lookup(card, term, from, to, &mut expected_words);
    let before = card.to_vec();
    let mut lent = Guarded::new(answer);
    let reply = ffi::lookup(card, term, from, to, lent.inside());
    let message = || {
        format!(
            "{}; term {term} from {from} to {to}, {} answer words; a card of {} words: {}",
            about(),
            answer.len(),
            before.len(),
            shown(&before)
        )
    };
    assert_eq!(
        reply,
        expected,
        "lookup gave the left, the second program the right; {}",
        message()
    );
    if reply.number != 0 {
        let counts = (reply.count, reply.blocks);
        assert_eq!(counts, (0, 0), "counts of a refusal; {}", message());
        assert!(
            lent.inside() == answer,
            "a refused lookup changed words; {}",
            message()
        );
    }
    assert_eq!(lent.inside(), expected_words, "answer words; {}", message());
    assert!(lent.guards_stand(), "lookup wrote outside; {}", message());
    read(card, question, answer, &message);
    let view = ffi::run_view(card, term, from, to);
    let expected_view = second::run_view(card, term, from, to);
    assert_eq!(view, expected_view, "run view; {}", message());
    assert!(before == card, "the card was changed; {}", message());
    tally.note(reply.number);
    reply
}

/// The reading gives what the second program's reader yields first, as much as there are answer
/// words, and leaves the other answer words and those around them.
fn read(card: &[u32], question: Question, answer: &[u32], message: &dyn Fn() -> String) {
    let (term, from, to) = question;
    let reader = second::PostingReader::open(card, term, from, to);
    let number = reader.number();
    let positions: Vec<u32> = reader.take(answer.len()).collect();
    let mut lent = Guarded::new(answer);
    let reply = ffi::read(card, term, from, to, lent.inside());
    let expected = (number, positions.len());
    assert_eq!(reply, expected, "the reading's reply; {}", message());
    let (read, others) = lent.inside().split_at(positions.len());
    assert_eq!(read, positions, "the reading's words; {}", message());
    let kept = others == &answer[positions.len()..] && lent.guards_stand();
    assert!(kept, "the reading wrote other words; {}", message());
}

/// The lookup with just enough answer words, with one too few, and with another number of them.
/// Gives the answer to the one with just enough.
pub fn lookups(
    tally: &mut Tally,
    random: &mut Random,
    card: &[u32],
    question: Question,
    about: &dyn Fn() -> String,
) -> LookupAnswer {
    let (term, from, to) = question;
    let found = second::PostingReader::open(card, term, from, to).count();
    if found > 0 {
        let few = [found - 1, random.below(found)];
        lookup(tally, card, question, &random.words(few[0]), about);
        if random.chance(1, 4) {
            lookup(tally, card, question, &random.words(few[1]), about);
        }
    }
    if random.chance(1, 3) {
        let more = found + 1 + random.below(6);
        lookup(tally, card, question, &random.words(more), about);
    }
    lookup(tally, card, question, &random.words(found), about)
}

/// Both pages give the same answer and leave the same bytes, those after the page as they were; a
/// refused one leaves them all; card, and bytes around the memory, stay. A page reads back as the
/// library's lookup of the same question, and its line feeds are as many as its lines.
pub fn page(
    tally: &mut Tally,
    card: &[u32],
    question: Question,
    memory: &[u8],
    about: &dyn Fn() -> String,
) -> PageAnswer {
    let (term, from, to) = question;
    let mut expected_bytes = memory.to_vec();
    let expected = second::page(card, term, from, to, &mut expected_bytes);
    let before = card.to_vec();
    let mut lent = Guarded::new(memory);
    let reply = ffi::page(card, term, from, to, lent.inside());
    let message = || {
        format!(
            "{}; term {term} from {from} to {to}, {} bytes; a card of {} words: {}",
            about(),
            memory.len(),
            before.len(),
            shown(&before)
        )
    };
    assert_eq!(
        reply,
        expected,
        "page gave the left, the second program the right; {}",
        message()
    );
    if lent.inside() != &expected_bytes[..] {
        let byte = first_difference(lent.inside(), &expected_bytes);
        panic!(
            "byte {} of line {} is {}, the second program's {}; {}",
            byte % LINE_BYTES,
            byte / LINE_BYTES,
            lent.inside()[byte],
            expected_bytes[byte],
            message()
        );
    }
    assert!(lent.guards_stand(), "page wrote outside; {}", message());
    assert!(before == card, "the card was changed; {}", message());
    let lines = reply.lines as usize;
    let (page, after) = lent.inside().split_at(lines * LINE_BYTES);
    let kept = after == &memory[page.len()..];
    assert!(kept, "bytes after the page were changed; {}", message());
    if reply.number != 0 {
        assert_eq!(lines, 0, "lines of a refusal; {}", message());
    } else {
        let mut positions = vec![0; lines * LINE_POSITIONS];
        let found = ffi::lookup(card, term, from, to, &mut positions);
        positions.truncate(found.count as usize);
        let read = (positions.first().map(|_| term), positions);
        assert_eq!(found.number, 0, "the lookup beside it; {}", message());
        assert!(
            second::read_page(page) == Some(read),
            "the page read back is not the lookup; {}",
            message()
        );
        let line_feeds = page.iter().filter(|&&byte| byte == b'\n').count();
        assert_eq!(line_feeds, lines, "line feeds; {}", message());
    }
    tally.note(reply.number);
    reply
}

/// The page with just enough memory, with one byte too few, with none, with some more, and now and
/// then with other sizes that are too few. Gives the answer to the one with just enough.
pub fn pages(
    tally: &mut Tally,
    random: &mut Random,
    card: &[u32],
    question: Question,
    about: &dyn Fn() -> String,
) -> PageAnswer {
    let (term, from, to) = question;
    let need = page_bytes(second::PostingReader::open(card, term, from, to).count());
    let mut sizes = vec![need + 1 + random.below(2 * LINE_BYTES)];
    if need > 0 {
        sizes.extend([need - 1, 0]);
        if random.chance(1, 3) {
            sizes.extend([need - LINE_BYTES, random.below(need)]);
        }
    }
    for size in sizes {
        page(tally, card, question, &random.bytes(size), about);
    }
    page(tally, card, question, &random.bytes(need), about)
}

/// The beginning of a file, for a failure's message.
fn shown_bytes(bytes: &[u8]) -> String {
    let most = 400;
    let first = &bytes[..bytes.len().min(most)];
    let more = bytes.len() - first.len();
    format!("\"{}\" and {more} bytes more", first.escape_ascii())
}

/// Both read a file alike: the same number, words and line, and the same words lent for the batch,
/// those after it as they were; a refused call leaves them all; the file, and words around the lent
/// ones, stay.
pub fn scores(
    tally: &mut Tally,
    bytes: &[u8],
    batch: &[u32],
    about: &dyn Fn() -> String,
) -> ScoresAnswer {
    let mut expected_words = batch.to_vec();
    let expected = second::scores(bytes, &mut expected_words);
    let before = bytes.to_vec();
    let mut lent = Guarded::new(batch);
    let reply = ffi::scores(bytes, lent.inside());
    let message = || {
        format!(
            "{}; {} words lent; a file of {} bytes: {}",
            about(),
            batch.len(),
            before.len(),
            shown_bytes(&before)
        )
    };
    assert_eq!(
        reply,
        expected,
        "scores gave the left, the second program the right; {}",
        message()
    );
    if reply.number != 0 {
        assert_eq!(reply.words, 0, "words of a refusal; {}", message());
        assert!(
            lent.inside() == batch,
            "a refused call changed words; {}",
            message()
        );
    } else {
        assert_eq!(reply.line, 0, "a line without a fault; {}", message());
        let kept = lent.inside()[reply.words..] == batch[reply.words..];
        assert!(kept, "words after the batch were changed; {}", message());
    }
    if lent.inside() != &expected_words[..] {
        let word = first_difference(lent.inside(), &expected_words);
        panic!(
            "word {} of record {} is {}, the second program's {}; {}",
            word % RECORD_WORDS,
            word / RECORD_WORDS,
            lent.inside()[word],
            expected_words[word],
            message()
        );
    }
    assert!(lent.guards_stand(), "scores wrote outside; {}", message());
    assert!(before == bytes, "the file was changed; {}", message());
    tally.note(reply.number);
    reply
}

/// The file with just the words of its batch lent, with one too few, with none, with some more, and
/// now and then with another number that is too few. Gives the answer to the one with just enough.
pub fn scores_by_room(
    tally: &mut Tally,
    random: &mut Random,
    bytes: &[u8],
    about: &dyn Fn() -> String,
) -> ScoresAnswer {
    let need = match second::scores::fault(bytes) {
        Some(_) => 0,
        None => second::scores::batch(bytes).len(),
    };
    let mut sizes = vec![need + 1 + random.below(20)];
    if need > 0 {
        sizes.extend([need - 1, 0]);
        if random.chance(1, 3) {
            sizes.extend([need - RECORD_WORDS, random.below(need)]);
        }
    }
    for size in sizes {
        scores(tally, bytes, &random.words(size), about);
    }
    scores(tally, bytes, &random.words(need), about)
}
