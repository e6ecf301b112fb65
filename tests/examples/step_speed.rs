// Times a whole pass of the library's step against the second program's, on the same card with the same batch.

use std::time::Instant;

use gameindex_tests::batches::{self, Mixture, Universe};
use gameindex_tests::random::Random;
use gameindex_tests::second::{self, StepAnswer};
use gameindex_tests::{cards, ffi};

type Step = fn(&mut [u32], &[u32]) -> StepAnswer;

/// Runs a pass to its end: the steps, the seconds and the card left.
fn pass(card: &[u32], batch: &[u32], step: Step) -> (usize, f64, Vec<u32>) {
    let mut card = card.to_vec();
    let began = Instant::now();
    let mut steps = 0;
    loop {
        let answer = step(&mut card, batch);
        assert_eq!(answer.number, 0, "the pass is refused");
        steps += 1;
        if answer.finished {
            return (steps, began.elapsed().as_secs_f64(), card);
        }
    }
}

fn main() {
    let (b, n) = (64, 256);
    let mut random = Random::new(14);
    let mut card = cards::fresh(&mut random, b, n);
    let universe = Universe::wide(b as usize * n as usize);
    for _ in 0..2 {
        let mixture = Mixture::random(&mut random);
        let batch = batches::good(&mut random, &universe, mixture, 2000);
        cards::run(&mut card, &batch, 3 * n as usize);
    }
    let mixture = Mixture::random(&mut random);
    let batch = batches::good(&mut random, &universe, mixture, 1000);
    let (steps, library, left) = pass(&card, &batch, ffi::step);
    let (again, program, same) = pass(&card, &batch, second::step);
    assert_eq!((steps, left), (again, same));
    println!("a pass of {steps} steps, blocks of {b} words, {n} places");
    println!("library          {:10.0} steps/s", steps as f64 / library);
    println!("second program   {:10.0} steps/s", steps as f64 / program);
    println!("ratio            {:10.3}", library / program);
}
