// Times the calls of the library beside the same calls in plain Rust, and its span calls beside its whole-block calls.
//   bench [MILLISECONDS]   verify, then all rows as a Markdown table, about so long for each
//   bench verify CARDS     the two sides compared on so many random cards
//   bench blocks           blocks stored and taken by each call, as a Markdown table
//   bench rows             the names of the rows, one on a line
//   bench cards FOLDER     stores the cards of all rows
//   bench once FOLDER      each row once on each side, with these cards, for a counter of instructions
mod baseline;
mod call;
// the benchmark pads no name
#[allow(dead_code)]
#[path = "../rust/declared.rs"]
mod declared;
mod library;
mod numbers;
mod row;
mod verify;

use call::{make, Call, Lent, Side};
use declared::{RECORD_BETA, RECORD_SIZE};
use numbers::BLOCK;
use row::{Row, Setting};
use std::env::args;
use std::fs;
use std::hint::black_box;
use std::path::{Path, PathBuf};
use std::time::{Duration, Instant};

const SIDES: [Side; 3] = [Side::Library, Side::Baseline, Side::Whole];

// The sides that make the call.
fn sides(call: &Call) -> &'static [Side] {
    match call.is_span() {
        true => &SIDES,
        false => &SIDES[..2],
    }
}

fn main() {
    let command = args().nth(1).unwrap_or_else(|| "200".to_string());
    match command.as_str() {
        "verify" => compare(argument().parse().expect("a number")),
        "blocks" => blocks(),
        "rows" => row::rows()
            .iter()
            .for_each(|row| println!("{}", row.cells())),
        "cards" => cards(Path::new(&argument())),
        "once" => once(Path::new(&argument())),
        _ => match command.parse() {
            Ok(milliseconds) => times(Duration::from_millis(milliseconds)),
            Err(_) => eprintln!(
                "usage: bench [MILLISECONDS | verify CARDS | blocks | rows | cards FOLDER | once FOLDER]"
            ),
        },
    }
}

// The second word of the command.
fn argument() -> String {
    args().nth(2).expect("an argument")
}

// A card and what a call changes in it, so that the change can be undone.
struct Bench {
    card: Vec<u8>,
    undo: Vec<(usize, Vec<u8>)>,
    lent: Lent,
}

// The blocks that differ.
fn changed(before: &[u8], after: &[u8]) -> Vec<usize> {
    let pairs = before.chunks(BLOCK).zip(after.chunks(BLOCK));
    let differ = pairs.enumerate().filter(|(_, (x, y))| x != y);
    differ.map(|(p, _)| p).collect()
}

impl Bench {
    // The card as it is, and the changes that the call makes, which all sides must agree on.
    fn new(card: &[u8], call: &Call, lent: Lent) -> Bench {
        let mut bench = Bench {
            card: card.to_vec(),
            undo: Vec::new(),
            lent: lent.clone(),
        };
        let x = make(Side::Library, call, &mut bench.card, &mut bench.lent);
        for &side in sides(call) {
            let (mut other, mut lent) = (card.to_vec(), lent.clone());
            let y = make(side, call, &mut other, &mut lent);
            assert!(
                x == Ok(()) && y == x && other == bench.card && lent == bench.lent,
                "{call:?}: {x:?} {side:?} {y:?}"
            );
        }
        bench.undo = changed(card, &bench.card)
            .iter()
            .map(|&p| (BLOCK * p, card[BLOCK * p..][..BLOCK].to_vec()))
            .collect();
        bench.restore();
        assert!(bench.card == card);
        bench
    }

    fn restore(&mut self) {
        for (at, block) in &self.undo {
            self.card[*at..][..BLOCK].copy_from_slice(block);
        }
    }

    // The time of `batch` calls; with `undo` what each changes is put back before the next.
    fn time(&mut self, side: Side, call: &Call, batch: u32, undo: bool) -> Duration {
        let start = Instant::now();
        for _ in 0..batch {
            black_box(make(side, black_box(call), &mut self.card, &mut self.lent))
                .expect("an accepted call");
            if undo {
                self.restore();
            }
        }
        start.elapsed()
    }

    // The time of putting the same blocks back, `batch` times.
    fn undo_time(&mut self, batch: u32) -> Duration {
        let start = Instant::now();
        for _ in 0..batch {
            black_box(&mut self.card);
            self.restore();
        }
        start.elapsed()
    }
}

fn quantile(sorted: &[f64], q: f64) -> f64 {
    sorted[((sorted.len() - 1) as f64 * q).round() as usize]
}

fn sorted(mut values: Vec<f64>) -> Vec<f64> {
    values.sort_by(f64::total_cmp);
    values
}

// What reading the clock itself takes, in nanoseconds.
fn clock() -> f64 {
    let values = (0..10001)
        .map(|_| Instant::now().elapsed().as_nanos() as f64)
        .collect();
    quantile(&sorted(values), 0.5)
}

// The time to copy so many bytes into the card, in nanoseconds.
fn copy_time(card: &mut [u8], bytes: usize) -> f64 {
    let from = vec![0x5a; bytes];
    let at = BLOCK * (card.len() / BLOCK / 2);
    let at = at.min(card.len() - bytes);
    let kept = card[at..at + bytes].to_vec();
    let values = (0..301)
        .map(|_| {
            let start = Instant::now();
            for _ in 0..256 {
                black_box(&mut card[at..at + bytes]).copy_from_slice(black_box(&from));
            }
            start.elapsed().as_nanos() as f64 / 256.0
        })
        .collect();
    card[at..at + bytes].copy_from_slice(&kept);
    quantile(&sorted(values), 0.5)
}

fn show(nanoseconds: f64) -> String {
    match nanoseconds {
        t if t < 10_000.0 => format!("{t:.0} ns"),
        t if t < 10_000_000.0 => format!("{:.1} µs", t / 1e3),
        t => format!("{:.1} ms", t / 1e6),
    }
}

// Runs `f` for each row with the row's card, as `card_of` gives it. The last card of each revision is kept.
fn each_row(card_of: impl Fn(&Setting) -> Vec<u8>, mut f: impl FnMut(&Row, &[u8])) {
    let mut made: [Option<(Setting, Vec<u8>)>; 2] = [None, None];
    for row in row::rows() {
        let made = &mut made[row.setting.revision as usize];
        if made.as_ref().map(|m| m.0) != Some(row.setting) {
            *made = Some((row.setting, card_of(&row.setting)));
        }
        f(&row, &made.as_ref().unwrap().1);
    }
}

// The file of a setting's card.
fn file(folder: &Path, s: &Setting) -> PathBuf {
    folder.join(format!(
        "{}-{}-{}-{}-{:?}.card",
        s.layout, s.volume, s.revision, s.snapshots, s.content
    ))
}

// The random cards that are compared before the times are taken.
const CARDS: u64 = 3000;

fn compare(cards: u64) {
    println!(
        "{} calls on random cards: same answers, same bytes.\n",
        verify::verify(cards)
    );
}

// The table of times.
fn times(budget: Duration) {
    compare(CARDS);
    println!(
        "| Call | Layout | L | Snapshots | N | Library | Baseline | Ratio | 10th to 90th percentile | Copy \
         | Whole blocks |"
    );
    println!("|---|---|---|---|---|---|---|---|---|---|---|");
    let overhead = clock();
    each_row(row::prepare, |row, card| {
        let call = row.call();
        let sides = sides(&call);
        let mut bench = Bench::new(card, &call, row.lent());
        let mut once = Duration::ZERO;
        for &side in sides {
            once += bench.time(side, &call, 1, true);
        }
        let once = once.as_nanos().max(1) as u64;
        // so many calls are timed together that the clock's steps do not count, 20 µs at least; those that change what
        // the next one finds, with what puts it back, whose time alone is taken off
        let batch = (40_000 / once).clamp(1, 1000) as u32;
        let undo = !row.repeats();
        let pairs =
            (budget.as_nanos() as u64 / (once * u64::from(batch))).clamp(21, 20_001) as usize;
        let mut taken = SIDES.map(|_| Vec::new());
        for _ in 0..pairs {
            for (i, &side) in sides.iter().enumerate() {
                let time = bench.time(side, &call, batch, undo).as_nanos() as f64;
                let rest = match undo {
                    true => bench.undo_time(batch).as_nanos() as f64,
                    false => overhead,
                };
                taken[i].push((time - rest).max(1.0) / f64::from(batch));
            }
        }
        let ratios = sorted(taken[0].iter().zip(&taken[1]).map(|(a, b)| a / b).collect());
        let median = |values| quantile(&sorted(values), 0.5);
        let [a, b, whole] = taken;
        let (a, b) = (median(a), median(b));
        let whole = match whole.is_empty() {
            true => String::new(),
            false => show(median(whole)),
        };
        let floor = row.moved().map_or(String::new(), |bytes| {
            show(copy_time(&mut bench.card, bytes))
        });
        println!(
            "| {} | {} | {} | {} | {:.2} | {:.2} to {:.2} | {} | {} |",
            row.cells(),
            card.len() / BLOCK,
            show(a),
            show(b),
            a / b,
            quantile(&ratios, 0.1),
            quantile(&ratios, 0.9),
            floor,
            whole
        );
    });
}

// The first block after the last region, by the listing.
fn beta(card: &mut [u8]) -> i64 {
    let mut lent = Lent::new();
    lent.records.fill(0);
    make(Side::Library, &Call::List, card, &mut lent).expect("a sound card");
    let last = lent
        .records
        .chunks(RECORD_SIZE)
        .rfind(|r| r[0] != 0)
        .unwrap();
    i64::from(row::number(last, RECORD_BETA))
}

// The table of blocks: what changed on the card, and how far beta moved.
fn blocks() {
    println!("| Call | Layout | L | Snapshots | Blocks changed | Blocks taken |");
    println!("|---|---|---|---|---|---|");
    each_row(row::prepare, |row, card| {
        if row.setting.snapshots != 1
            && !(row.setting.snapshots == 0 && row.kind == row::Kind::Ream)
        {
            return;
        }
        // other bytes in the free blocks, for a revert in all after the last descriptor, and for a format in all, so
        // that every store shows
        let mut before = card.to_vec();
        let free = match row.kind {
            row::Kind::Ream => 0,
            row::Kind::Revert => row::chain(card)[1] + 1,
            _ => beta(&mut before) as usize,
        };
        before[BLOCK * free..].fill(0xa5);
        let start = if row.kind == row::Kind::Ream {
            0
        } else {
            beta(&mut before)
        };
        let mut after = before.clone();
        let mut lent = row.lent();
        lent.bytes.fill(0x33);
        make(Side::Library, &row.call(), &mut after, &mut lent).expect("an accepted call");
        println!(
            "| {} | {} | {} |",
            row.cells(),
            changed(&before, &after).len(),
            beta(&mut after) - start
        );
    });
}

// Stores the cards.
fn cards(folder: &Path) {
    each_row(row::prepare, |row, card| {
        fs::write(file(folder, &row.setting), card).expect("a card stored")
    });
}

// Tells the counter that a measured call has ended.
#[inline(never)]
#[export_name = "measured_end"]
fn end() {
    black_box(());
}

// Each row once on each side, after the calls that do nothing.
fn once(folder: &Path) {
    for side in SIDES {
        make(side, &Call::Nothing, &mut [], &mut Lent::new()).expect("nothing");
        end();
    }
    let load = |s: &Setting| fs::read(file(folder, s)).expect("a card");
    each_row(load, |row, card| {
        for side in SIDES {
            let mut own = card.to_vec();
            make(side, &row.call(), &mut own, &mut row.lent()).expect("an accepted call");
            end();
        }
    });
}
