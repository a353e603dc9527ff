//! The second program: an own store, ledger and sheet reader, written from documents 01 and 02
//! alone, and the comparisons that it is made for.

mod blockwise;
mod call;
mod cases;
mod counts;
mod damage;
mod damaged;
mod edges;
mod extent;
mod ledger;
mod make;
mod numbers;
mod origins;
mod program;
mod reserved;
mod rng;
mod rollback;
mod room;
mod sheet;
mod sheets;
mod spans;
mod store;
mod tally;
mod values;
mod visits;

use std::io::{Read, Write};
use std::process::ExitCode;

const USAGE: &str = "\
second run < SHEET                  run a sheet on the own reader
second make SEED                    print the sheet of a seed
second sheets PROGRAM SEED COUNT    compare a program on random sheets
second edges PROGRAM                compare a program on sheets at the edges
second values                       bench values, rules and cases by hand on the own store
second rollback SEED COUNT          rollback and ledger on the own store
second damaged SEED COUNT           calls on randomly damaged cards, own store
";

/// How many cases passed and failed.
#[derive(Clone, Default)]
pub struct Count {
    passed: u64,
    failed: u64,
}

impl Count {
    /// Counts a case; prints a failed one.
    pub fn case(&mut self, name: &str, result: Result<(), String>) {
        match result {
            Ok(()) => self.passed += 1,
            Err(reason) => {
                self.failed += 1;
                println!("failed: {name}: {reason}");
            }
        }
    }

    /// Prints the last line; the exit status is 1 where a case failed.
    fn finish(&self) -> ExitCode {
        println!("{} passed, {} failed", self.passed, self.failed);
        ExitCode::from(u8::from(self.failed > 0))
    }
}

/// Runs the own reader on standard input. One byte over the limit says as much as more.
fn run_sheet() -> std::io::Result<()> {
    let mut input = Vec::new();
    let most = sheet::MOST_INPUT as u64 + 1;
    std::io::stdin().take(most).read_to_end(&mut input)?;
    let output = sheet::run(&input, &mut tally::Tally::default());
    std::io::stdout().write_all(&output)
}

fn written(result: std::io::Result<()>) -> ExitCode {
    match result {
        Ok(()) => ExitCode::SUCCESS,
        Err(error) => {
            eprintln!("{error}");
            ExitCode::from(2)
        }
    }
}

fn main() -> ExitCode {
    let arguments: Vec<String> = std::env::args().skip(1).collect();
    let words: Vec<&str> = arguments.iter().map(String::as_str).collect();
    let number = |text: &str| text.parse::<u64>().ok();
    match words[..] {
        ["run"] => return written(run_sheet()),
        ["make", seed] => {
            if let Some(seed) = number(seed) {
                return written(std::io::stdout().write_all(&make::sheet(seed)));
            }
        }
        ["sheets", program, seed, count] => {
            if let (Some(seed), Some(count)) = (number(seed), number(count)) {
                return sheets::run(program, seed, count).finish();
            }
        }
        ["edges", program] => return edges::run(program).finish(),
        ["values"] => return values::run().finish(),
        ["rollback", seed, count] => {
            if let (Some(seed), Some(count)) = (number(seed), number(count)) {
                return rollback::run(seed, count).finish();
            }
        }
        ["damaged", seed, count] => {
            if let (Some(seed), Some(count)) = (number(seed), number(count)) {
                return damaged::run(seed, count).finish();
            }
        }
        _ => {}
    }
    eprint!("{USAGE}");
    ExitCode::from(2)
}
