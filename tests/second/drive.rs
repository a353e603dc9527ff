//! Drives the library through its C boundary beside the own store and compares, after each
//! call, the answer, the whole card and all lent memory; the names of visits with the origins; and
//! spans with the library's own calls of whole blocks.

mod blockwise;
#[path = "drive/boundary.rs"]
mod boundary;
mod call;
#[path = "drive/calls.rs"]
mod calls;
mod cases;
mod counts;
#[path = "drive/damaged.rs"]
mod damaged;
#[path = "../../rust/declared.rs"]
mod declared;
mod extent;
#[path = "drive/lent.rs"]
mod lent;
#[path = "drive/lists.rs"]
mod lists;
#[path = "drive/names.rs"]
mod names;
mod numbers;
mod origins;
#[path = "drive/pair.rs"]
mod pair;
mod reserved;
mod rng;
#[path = "drive/rollback.rs"]
mod rollback;
mod spans;
mod store;
#[path = "drive/table.rs"]
mod table;
#[path = "drive/values.rs"]
mod values;
mod visits;

use counts::{all_met, ENOUGH};
use std::process::ExitCode;
use table::Table;

const USAGE: &str = "\
drive calls SEED COUNT       random lists of calls
drive damaged SEED COUNT     random calls on damaged cards
drive rollback SEED COUNT    each accepted revert beside the shorter list
drive names SEED COUNT       lists of texts made into names
drive values SEED COUNT      the bench value of 255 snaps and one more, cases by hand, chains of each
                             length up to twelve
";

/// One list: it counts its answers in the table, or says what differed.
type List = fn(u64, &mut Table) -> Result<(), String>;

/// A command: its lists, what can arise in them, and from how many lists on all of it must have.
struct Command {
    list: List,
    expected: table::Expected,
    enough: u64,
    /// Whether it counts accepted reverts, and accepted visits and spans.
    reverts: bool,
    visits: bool,
}

fn command(name: &str) -> Option<Command> {
    let (list, expected, enough): (List, table::Expected, u64) = match name {
        "calls" => (calls::one, table::CALLS, ENOUGH),
        "damaged" => (damaged::one, table::DAMAGED, ENOUGH),
        "rollback" => (rollback::one, table::ROLLBACK, ENOUGH),
        "names" => (names::one, table::NAMES, ENOUGH),
        "values" => (values::one, table::VALUES, 1),
        _ => return None,
    };
    Some(Command {
        list,
        expected,
        enough,
        reverts: name == "rollback",
        visits: name != "names",
    })
}

/// Runs the lists of `count` seeds. That all that can arise did, and nothing else, are two more
/// cases.
fn run(command: &Command, seed: u64, count: u64) -> ExitCode {
    let mut table = Table::default();
    let mut failed = 0;
    let mut case = |result: Result<(), String>, name: &str| {
        if let Err(reason) = result {
            failed += 1;
            println!("failed: {name}: {reason}");
        }
    };
    for k in 0..count {
        let this = seed.wrapping_add(k);
        case((command.list)(this, &mut table), &format!("seed {this}"));
    }
    table.print(command.expected);
    let mut missing = table.missing(command.expected);
    if command.reverts {
        missing.extend(table.reverts.missing());
    }
    if command.visits {
        missing.extend(table.visits.missing());
        missing.extend(table.spans.missing());
    }
    case(
        all_met("answers", &missing, count, command.enough),
        "what can arise",
    );
    let strange = table.strange(command.expected);
    let met = match strange.is_empty() {
        true => Ok(()),
        false => Err(strange.join("; ")),
    };
    case(met, "what cannot arise");
    println!("{} passed, {failed} failed", count + 2 - failed);
    ExitCode::from(u8::from(failed > 0))
}

fn main() -> ExitCode {
    let words: Vec<String> = std::env::args().skip(1).collect();
    if let [name, seed, count] = &words[..] {
        if let (Some(command), Ok(seed), Ok(count)) = (command(name), seed.parse(), count.parse()) {
            return run(&command, seed, count);
        }
    }
    eprint!("{USAGE}");
    ExitCode::from(2)
}
