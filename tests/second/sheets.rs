//! Random sheets: another program against the own reader, byte for byte.

use crate::counts::{all_met, ENOUGH};
use crate::tally::Tally;
use crate::{make, program, sheet, Count};
use std::sync::atomic::{AtomicU64, Ordering};
use std::sync::Mutex;
use std::thread;

const THREADS: usize = 2;

/// Runs the program on the sheets of `count` seeds.
pub fn run(program: &str, seed: u64, count: u64) -> Count {
    let next = AtomicU64::new(0);
    let sum = Mutex::new((Tally::default(), Count::default()));
    thread::scope(|scope| {
        for _ in 0..THREADS {
            scope.spawn(|| loop {
                let k = next.fetch_add(1, Ordering::SeqCst);
                if k >= count {
                    break;
                }
                let this = seed.wrapping_add(k);
                let input = make::sheet(this);
                let mut tally = Tally::default();
                let expected = sheet::run(&input, &mut tally);
                let result = program::compare(program, &this.to_string(), &input, &expected);
                let mut sum = sum.lock().unwrap();
                sum.0.add(&tally);
                sum.1.case(&format!("seed {this}"), result);
            });
        }
    });
    let (tally, mut sum) = sum.into_inner().unwrap();
    tally.print();
    let met = all_met("answers", &tally.missing(), count, ENOUGH);
    sum.case("answers of each kind", met);
    if tally.impossible() > 0 {
        sum.case(
            "answers that cannot arise",
            Err(format!("{} of them", tally.impossible())),
        );
    }
    sum
}
