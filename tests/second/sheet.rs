//! The desk's work sheet: bytes in, bytes out, on the own store.

use crate::numbers::BLOCK;
use crate::store::{self, Answer, Logical, Record, Target, NOTHING};
use crate::tally::{self, Tally};

pub const MOST_INPUT: usize = 16_384;
pub const MOST_LINE: usize = 127;
pub const DESK_BLOCKS: usize = 64;
/// The greatest number on a line, but for blocks and fill.
const MOST_NUMBER: u64 = 65_535;
/// The revision of all cards of the desk.
const REVISION: u64 = 0;
/// The answer to a line that is not of the form, and to a sheet that is too long.
pub const ILL_FORMED: u64 = 15;

/// A line that has the form of a sheet line. Names are texts and may be no names.
pub enum Line {
    Ream {
        layout: u64,
        blocks: u64,
        volume: u64,
        name: Vec<u8>,
    },
    Write {
        block: u64,
        fill: u8,
    },
    Read {
        target: Target,
        block: u64,
    },
    Snap {
        name: Vec<u8>,
    },
    Revert {
        name: Vec<u8>,
    },
    List,
    Check,
}

/// A decimal number from 0 to `most` without a leading zero.
fn number(text: &[u8], most: u64) -> Option<u64> {
    if text.is_empty() || text.len() > 5 || !text.iter().all(u8::is_ascii_digit) {
        return None;
    }
    if text[0] == b'0' && text.len() > 1 {
        return None;
    }
    let value = text
        .iter()
        .fold(0, |sum, digit| sum * 10 + u64::from(digit - b'0'));
    if value <= most {
        Some(value)
    } else {
        None
    }
}

/// The values of a line that has exactly these keys in this order.
fn values<'a>(words: &[&'a [u8]], keys: &[&str]) -> Option<Vec<&'a [u8]>> {
    if words.len() != keys.len() {
        return None;
    }
    let pairs = words.iter().zip(keys);
    pairs
        .map(|(word, key)| word.strip_prefix(key.as_bytes()))
        .collect()
}

/// What a line asks for, or nothing where it is not of the form.
pub fn parse(line: &[u8]) -> Option<Line> {
    if line.len() > MOST_LINE {
        return None;
    }
    let words: Vec<&[u8]> = line.split(|byte| *byte == b' ').collect();
    let rest = &words[1..];
    match words[0] {
        b"op=ream" => {
            let values = values(rest, &["layout=", "blocks=", "volume=", "name="])?;
            Some(Line::Ream {
                layout: number(values[0], MOST_NUMBER)?,
                blocks: number(values[1], DESK_BLOCKS as u64)?,
                volume: number(values[2], MOST_NUMBER)?,
                name: values[3].to_vec(),
            })
        }
        b"op=write" => {
            let values = values(rest, &["block=", "fill="])?;
            let block = number(values[0], MOST_NUMBER)?;
            Some(Line::Write {
                block,
                fill: number(values[1], u64::from(u8::MAX))? as u8,
            })
        }
        b"op=read" => {
            let values = values(rest, &["from=", "block="])?;
            let target = if values[0] == b"*" {
                Target::Active
            } else {
                Target::Snapshot(values[0].to_vec())
            };
            Some(Line::Read {
                target,
                block: number(values[1], MOST_NUMBER)?,
            })
        }
        b"op=snap" => Some(Line::Snap {
            name: values(rest, &["name="])?[0].to_vec(),
        }),
        b"op=revert" => Some(Line::Revert {
            name: values(rest, &["name="])?[0].to_vec(),
        }),
        b"op=list" => values(rest, &[]).map(|_| Line::List),
        b"op=check" => values(rest, &[]).map(|_| Line::Check),
        _ => None,
    }
}

/// The desk's 64 blocks, how many of them are the card, and its list.
pub struct Desk {
    area: Vec<u8>,
    blocks: usize,
    records: Vec<Record>,
}

impl Desk {
    pub fn new() -> Desk {
        Desk {
            area: vec![0; DESK_BLOCKS * BLOCK],
            blocks: DESK_BLOCKS,
            records: vec![NOTHING; DESK_BLOCKS],
        }
    }

    /// The names on the card in order, the active one last; none where there is no card.
    pub fn names(&self) -> Vec<Vec<u8>> {
        let mut records = self.records.clone();
        let (_, count) = store::list(&self.area[..self.blocks * BLOCK], &mut records);
        records[..count]
            .iter()
            .map(|record| store::unpadded(&record.name).to_vec())
            .collect()
    }

    /// Carries out a line and appends what it prints.
    pub fn act(&mut self, line: &Line, output: &mut Vec<u8>) -> Answer {
        if let Line::Ream {
            layout,
            blocks,
            volume,
            name,
        } = line
        {
            let blocks = *blocks as usize;
            let card = &mut self.area[..blocks * BLOCK];
            let answer = store::ream(card, *layout, *volume, REVISION, name);
            if answer == store::ACCEPTED {
                self.blocks = blocks;
            }
            print_answer(output, answer, "");
            return answer;
        }
        let card = &mut self.area[..self.blocks * BLOCK];
        let mut extra = String::new();
        let mut filled = 0;
        let answer = match line {
            Line::Ream { .. } => unreachable!(),
            Line::Write { block, fill } => store::write(card, Logical(*block), &[*fill; BLOCK]),
            Line::Read { target, block } => {
                let mut lent = [0; BLOCK];
                let answer = store::read(card, target, Logical(*block), &mut lent);
                if answer == store::ACCEPTED {
                    extra = format!(" byte={}", lent[0]);
                }
                answer
            }
            Line::Snap { name } => store::snap(card, name),
            Line::Revert { name } => store::revert(card, name),
            Line::List => {
                let (answer, count) = store::list(card, &mut self.records);
                filled = count;
                answer
            }
            Line::Check => store::check(card),
        };
        print_answer(output, answer, &extra);
        for record in &self.records[..filled] {
            output.extend_from_slice(b"name=");
            output.extend_from_slice(store::unpadded(&record.name));
            let marks = (record.alpha, record.beta, record.next);
            let text = format!(" alpha={} beta={} next={}\n", marks.0, marks.1, marks.2);
            output.extend_from_slice(text.as_bytes());
        }
        answer
    }
}

fn print_answer(output: &mut Vec<u8>, answer: Answer, extra: &str) {
    let text = format!("answer={} place={}{extra}\n", answer.number, answer.place);
    output.extend_from_slice(text.as_bytes());
}

fn ill_formed(place: u64) -> Answer {
    Answer {
        number: ILL_FORMED,
        place,
    }
}

/// Runs a whole sheet: what it prints. The answers are counted.
pub fn run(input: &[u8], tally: &mut Tally) -> Vec<u8> {
    let mut output = Vec::new();
    if input.len() > MOST_INPUT {
        tally.count(tally::OTHER, ILL_FORMED);
        print_answer(&mut output, ill_formed(0), "");
        return output;
    }
    let mut desk = Desk::new();
    let mut rest = input;
    let mut place = 0;
    while !rest.is_empty() {
        place += 1;
        let end = rest.iter().position(|byte| *byte == b'\n');
        let text = &rest[..end.unwrap_or(rest.len())];
        let line = match end {
            Some(_) => parse(text),
            None => None,
        };
        let line = match line {
            Some(line) => line,
            None => {
                tally.count(tally::op_of(text), ILL_FORMED);
                print_answer(&mut output, ill_formed(place), "");
                return output;
            }
        };
        let answer = desk.act(&line, &mut output);
        tally.count(tally::op_of(text), answer.number);
        rest = &rest[text.len() + 1..];
    }
    output
}
