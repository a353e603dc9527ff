//! A maker of random sheets. It carries each line out on a desk of its own, so that it knows
//! which names stand on the card and when the card is full.

use crate::numbers::{MOST_VOLUME, TABLE_ENTRIES};
use crate::rng::Rng;
use crate::sheet::{self, Desk, MOST_INPUT, MOST_LINE};
use crate::store;

const EDGES: [u64; 24] = [
    0, 1, 2, 62, 63, 64, 65, 126, 127, 128, 129, 198, 199, 200, 201, 254, 255, 256, 257, 14_334,
    14_335, 14_336, 14_337, 65_535,
];

struct Maker {
    rng: Rng,
    desk: Desk,
    lines: Vec<Vec<u8>>,
    length: usize,
    /// How often each op is chosen.
    weights: Vec<(&'static str, u64)>,
    /// Names that this sheet uses again and again.
    pool: Vec<Vec<u8>>,
    /// Logical blocks that this sheet uses again and again.
    hot: Vec<u64>,
    volume: u64,
    written: Vec<u64>,
    /// The last write or snap found no room.
    full: bool,
}

/// The sheet of a seed.
pub fn sheet(seed: u64) -> Vec<u8> {
    let mut maker = Maker::new(seed);
    let kind = maker.rng.below(120);
    let exact = kind < 10;
    let too_long = (10..13).contains(&kind);
    let ill_formed = kind >= 90;
    let length = if exact || too_long {
        MOST_INPUT
    } else {
        match maker.rng.below(10) {
            0 => maker.rng.between(0, 400) as usize,
            1..=4 => maker.rng.between(400, 6_000) as usize,
            _ => maker.rng.between(6_000, MOST_INPUT as u64) as usize,
        }
    };
    maker.run_to(length);
    if exact {
        maker.fill_to(MOST_INPUT);
    }
    if too_long {
        maker.fill_to(MOST_INPUT);
        let more = *maker.rng.pick(&[1, 1, 2, 100, 3_000]);
        let mut text = maker.text();
        text.extend(std::iter::repeat(b'\n').take(more));
        return text;
    }
    if ill_formed {
        return maker.with_ill_formed_line();
    }
    maker.text()
}

impl Maker {
    fn new(seed: u64) -> Maker {
        let mut rng = Rng::new(seed);
        let weights = vec![
            ("write", rng.between(20, 60)),
            ("read", rng.between(15, 40)),
            ("snap", rng.between(3, 22)),
            ("revert", rng.between(1, 7)),
            ("list", rng.between(1, 6)),
            ("check", rng.between(1, 6)),
            ("ream", rng.between(0, 2)),
        ];
        let mut maker = Maker {
            rng,
            desk: Desk::new(),
            lines: Vec::new(),
            length: 0,
            weights,
            pool: Vec::new(),
            hot: vec![0, 5],
            volume: 10,
            written: Vec::new(),
            full: false,
        };
        let size = maker.rng.between(3, 40);
        for _ in 0..size {
            let name = maker.new_name();
            maker.pool.push(name);
        }
        maker
    }

    /// All lines with their line feeds.
    fn text(&self) -> Vec<u8> {
        let mut text = Vec::new();
        for line in &self.lines {
            text.extend_from_slice(line);
            text.push(b'\n');
        }
        text
    }

    /// Appends lines as long as the sheet stays within the length.
    fn run_to(&mut self, length: usize) {
        if self.rng.once_in(8) {
            for _ in 0..self.rng.between(1, 8) {
                let line = self.call_line();
                self.append(line, length);
            }
        }
        let line = self.good_ream();
        let mut more = self.append(line, length);
        while more {
            let line = self.call_line();
            more = self.append(line, length);
        }
    }

    /// Appends a line and carries it out, unless the sheet would grow over the length.
    fn append(&mut self, line: Vec<u8>, length: usize) -> bool {
        if self.length + line.len() + 1 > length {
            return false;
        }
        self.length += line.len() + 1;
        if let Some(call) = sheet::parse(&line) {
            let answer = self.desk.act(&call, &mut Vec::new());
            if line.starts_with(b"op=write") || line.starts_with(b"op=snap") {
                self.full = answer.number == 11;
            } else if answer.number == 0 && line.starts_with(b"op=re") {
                self.full = false;
            }
        }
        self.lines.push(line);
        true
    }

    /// Brings the sheet to the very length: the last line's name fills what is left.
    fn fill_to(&mut self, length: usize) {
        let least = b"op=snap name=\n".len();
        while length - self.length > MOST_LINE + 1 {
            self.append(b"op=check".to_vec(), length);
        }
        while length - self.length < least {
            let line = self.lines.pop().unwrap();
            self.length -= line.len() + 1;
            while length - self.length > MOST_LINE + 1 {
                self.append(b"op=check".to_vec(), length);
            }
        }
        let mut line = b"op=snap name=".to_vec();
        line.resize(length - self.length - 1, b'x');
        self.append(line, length);
    }

    /// A text that is a name.
    fn new_name(&mut self) -> Vec<u8> {
        let alphabet = b"abcdefghijklmnopqrstuvwxyz0123456789.-az09";
        let length = *self.rng.pick(&[1, 1, 2, 3, 3, 4, 5, 8, 15, 16, 16]);
        let alike = self.rng.once_in(3);
        let mut name = Vec::new();
        for _ in 0..length {
            name.push(if alike {
                b'a'
            } else {
                *self.rng.pick(alphabet)
            });
        }
        name[length - 1] = *self.rng.pick(alphabet);
        name
    }

    /// A text that is no name, without space and line feed.
    fn wrong_name(&mut self) -> Vec<u8> {
        let mut name = if self.rng.once_in(2) {
            self.known_name()
        } else {
            self.new_name()
        };
        let place = self.rng.below(name.len() as u64) as usize;
        match self.rng.below(12) {
            0 => name.clear(),
            1 => name.resize(17, b'a'),
            2 => name.resize(self.rng.between(18, 60) as usize, b'z'),
            3 => name[place] = self.rng.between(u64::from(b'A'), u64::from(b'Z')) as u8,
            4 => name[place] = b'=',
            5 => {
                name = self
                    .rng
                    .pick(&[&b"**"[..], b"*a", b"a*", b"A", b"="])
                    .to_vec()
            }
            6 => name.push(b'\r'),
            7 => name.push(0),
            8 => name[place] = 0,
            9 => name[place] = self.rng.between(128, 255) as u8,
            10 => name[place] = *self.rng.pick(b"`{/:,_~\t\r\x1f\x7f!"),
            _ => name.insert(0, *self.rng.pick(b"\0*_\r")),
        }
        if store::is_name_text(&name) {
            name.push(0);
        }
        name
    }

    /// A name that stands on the card, the active one with the others; else one of the pool.
    fn known_name(&mut self) -> Vec<u8> {
        let names = self.desk.names();
        if names.is_empty() {
            self.rng.pick(&self.pool).clone()
        } else {
            self.rng.pick(&names).clone()
        }
    }

    /// The name of a snapshot; one of the pool where there is none.
    fn snapshot_name(&mut self) -> Vec<u8> {
        let mut names = self.desk.names();
        names.pop();
        if names.is_empty() {
            self.rng.pick(&self.pool).clone()
        } else {
            self.rng.pick(&names).clone()
        }
    }

    /// The name of a read or revert: mostly a snapshot's.
    fn old_name(&mut self) -> Vec<u8> {
        match self.rng.below(40) {
            0 => self.wrong_name(),
            1 => self.rng.pick(&self.pool).clone(),
            2 => self.known_name(),
            3 => self.new_name(),
            _ => self.snapshot_name(),
        }
    }

    /// The name of a snap: mostly one that is not in use.
    fn fresh_name(&mut self) -> Vec<u8> {
        let used = self.desk.names();
        match self.rng.below(40) {
            0 | 1 => self.wrong_name(),
            2 | 3 => self.known_name(),
            _ => {
                let free: Vec<Vec<u8>> = self
                    .pool
                    .iter()
                    .filter(|name| !used.contains(name))
                    .cloned()
                    .collect();
                if free.is_empty() {
                    self.new_name()
                } else {
                    self.rng.pick(&free).clone()
                }
            }
        }
    }

    /// A logical number: mostly a hot one, now and then past the volume.
    fn logical(&mut self) -> u64 {
        match self.rng.below(40) {
            0 => *self.rng.pick(&EDGES),
            1 => self.volume + self.rng.below(2),
            2 | 3 => self.rng.below(self.volume),
            4 => self.volume - 1,
            _ => *self.rng.pick(&self.hot),
        }
    }

    /// A logical number to read: mostly one that was written.
    fn logical_to_read(&mut self) -> u64 {
        if self.written.is_empty() || self.rng.once_in(5) {
            self.logical()
        } else {
            *self.rng.pick(&self.written)
        }
    }

    /// A ream that is mostly accepted. The hot blocks are chosen for its volume.
    fn good_ream(&mut self) -> Vec<u8> {
        let layout = self.rng.between(1, 2);
        let blocks = match self.rng.below(10) {
            0..=3 => 64,
            4 => self.rng.between(2, 8),
            5 => self.rng.between(2, 20),
            _ => self.rng.between(9, 64),
        };
        let most = if layout == 2 {
            MOST_VOLUME
        } else {
            TABLE_ENTRIES * (blocks - 1)
        };
        let volume = match self.rng.below(12) {
            0 => most.min(MOST_VOLUME),
            1 => self.rng.between(1, most.min(MOST_VOLUME)),
            2..=4 => self.rng.between(1, 300).min(most),
            _ => (*self.rng.pick(&EDGES)).clamp(1, most),
        };
        let volume = if layout == 1 && volume / 32 > blocks && !self.rng.once_in(4) {
            self.rng.between(1, 200).min(most)
        } else {
            volume
        };
        self.volume = volume;
        self.hot.clear();
        self.written.clear();
        for _ in 0..self.rng.between(2, 16) {
            let logical = match self.rng.below(3) {
                0 => self.rng.below(volume),
                1 => self.rng.below(volume.min(9)),
                _ => (*self.rng.pick(&EDGES)).min(volume - 1),
            };
            self.hot.push(logical);
        }
        let name = if self.rng.once_in(30) {
            self.wrong_name()
        } else {
            self.rng.pick(&self.pool).clone()
        };
        ream_line(layout, blocks, volume, &name)
    }

    /// A ream whose numbers are taken from the edges.
    fn odd_ream(&mut self) -> Vec<u8> {
        let mut layout = self.rng.between(1, 2);
        let mut blocks = self.rng.between(2, 64);
        let mut volume = self.rng.between(1, 300);
        let mut name = self.known_name();
        for _ in 0..self.rng.between(1, 2) {
            match self.rng.below(5) {
                0 => layout = *self.rng.pick(&[0, 3, 4, 255, 256, 257, 65_535]),
                1 => blocks = *self.rng.pick(&[0, 0, 1, 1, 2, 64]),
                2 => volume = *self.rng.pick(&[0, MOST_VOLUME + 1, 65_535, MOST_VOLUME]),
                3 => name = self.wrong_name(),
                _ => {
                    layout = 1;
                    let tables = blocks.saturating_sub(1);
                    volume = TABLE_ENTRIES * tables + self.rng.between(1, TABLE_ENTRIES);
                }
            }
        }
        ream_line(layout, blocks, volume, &name)
    }

    /// A line of the form. A full card is left by a revert or a ream before long.
    fn call_line(&mut self) -> Vec<u8> {
        if self.full && self.rng.once_in(2) {
            if self.desk.names().len() > 1 && !self.rng.once_in(12) {
                let name = self.snapshot_name();
                return named_line("op=revert name=", &name);
            }
            if self.rng.once_in(4) {
                return self.good_ream();
            }
        }
        let op = self.op();
        self.line_of(op)
    }

    /// An op, by the weights of this sheet.
    fn op(&mut self) -> &'static str {
        let sum: u64 = self.weights.iter().map(|pair| pair.1).sum();
        let mut left = self.rng.below(sum);
        for (op, weight) in &self.weights {
            if left < *weight {
                return op;
            }
            left -= weight;
        }
        unreachable!()
    }

    /// A line of the form, of the given op.
    fn line_of(&mut self, op: &str) -> Vec<u8> {
        match op {
            "write" => {
                let block = self.logical();
                self.written.push(block);
                let fill = match self.rng.below(8) {
                    0 => *self
                        .rng
                        .pick(&[0, 0, 1, 9, 10, 63, 99, 100, 127, 128, 199, 200, 255]),
                    _ => self.rng.below(256),
                };
                format!("op=write block={block} fill={fill}").into_bytes()
            }
            "read" => {
                let block = self.logical_to_read();
                let from = if self.rng.once_in(2) {
                    b"*".to_vec()
                } else {
                    self.old_name()
                };
                let mut line = named_line("op=read from=", &from);
                line.extend_from_slice(format!(" block={block}").as_bytes());
                line
            }
            "snap" => {
                if self.rng.once_in(100) {
                    return self.widest_line();
                }
                let name = self.fresh_name();
                named_line("op=snap name=", &name)
            }
            "revert" => {
                let name = self.old_name();
                named_line("op=revert name=", &name)
            }
            "ream" => {
                if self.rng.once_in(2) {
                    self.odd_ream()
                } else {
                    self.good_ream()
                }
            }
            word => format!("op={word}").into_bytes(),
        }
    }

    /// A line of exactly 127 bytes, of the form; its name is too long.
    fn widest_line(&mut self) -> Vec<u8> {
        let (head, tail) = *self.rng.pick(&[
            ("op=snap name=", ""),
            ("op=revert name=", ""),
            ("op=read from=", " block=0"),
            ("op=ream layout=1 blocks=8 volume=9 name=", ""),
        ]);
        let mut line = head.as_bytes().to_vec();
        line.resize(MOST_LINE - tail.len(), b'a');
        line.extend_from_slice(tail.as_bytes());
        line
    }

    /// The sheet with an ill-formed line at a random place, or its last line cut short.
    fn with_ill_formed_line(mut self) -> Vec<u8> {
        if self.rng.once_in(10) {
            let mut text = self.text();
            let last = self.lines.last().map_or(0, |line| line.len() as u64);
            if last > 0 {
                let cut = if self.rng.once_in(2) {
                    1
                } else {
                    self.rng.between(1, last)
                };
                text.truncate(text.len() - cut as usize);
            }
            return text;
        }
        let mut line = self.ill_formed_line();
        while sheet::parse(&line).is_some() {
            line = self.ill_formed_line();
        }
        let place = self.rng.below(self.lines.len() as u64 + 1) as usize;
        self.lines.insert(place, line);
        let mut text = self.text();
        while text.len() > MOST_INPUT {
            self.lines.pop();
            text = self.text();
        }
        text
    }

    /// A line that most often is not of the form.
    fn ill_formed_line(&mut self) -> Vec<u8> {
        let op = self.rng.pick(&self.weights).0;
        let mut line = self.line_of(op);
        let mut words: Vec<Vec<u8>> = line.split(|b| *b == b' ').map(|w| w.to_vec()).collect();
        let word = self.rng.below(words.len() as u64) as usize;
        let place = self.rng.below(line.len() as u64) as usize;
        match self.rng.below(20) {
            0 => {
                words.remove(word);
                words.join(&b' ')
            }
            1 => {
                let extra = match self.rng.below(4) {
                    0 => words[word].clone(),
                    1 => b"x=1".to_vec(),
                    2 => b"name=".to_vec(),
                    _ => b"op=list".to_vec(),
                };
                let at = self.rng.below(words.len() as u64 + 1) as usize;
                words.insert(at, extra);
                words.join(&b' ')
            }
            2 => {
                words.insert(word, Vec::new());
                words.join(&b' ')
            }
            3 => {
                line.push(b' ');
                line
            }
            4 => {
                line.insert(0, b' ');
                line
            }
            5 => {
                let other = self.rng.below(words.len() as u64) as usize;
                words.swap(word, other);
                words.join(&b' ')
            }
            6 => {
                line[place] = line[place].to_ascii_uppercase();
                line
            }
            7 => {
                match line.iter().position(|byte| *byte == b' ') {
                    Some(at) => line[at] = b'\t',
                    None => line.push(b'\t'),
                }
                line
            }
            8 => Vec::new(),
            9 => {
                let mut wide = self.widest_line();
                let more = *self.rng.pick(&[1, 1, 1, 2, 128, 129, 256, 1_000]);
                wide.extend(std::iter::repeat(b'a').take(more));
                wide
            }
            10 => {
                line.push(b'\r');
                line
            }
            11 => {
                line.insert(place, 0);
                line
            }
            12 => {
                let head = *self
                    .rng
                    .pick(&["", "op=", "op", "=list", "op=lists", "op=lis", "list"]);
                words[0] = head.as_bytes().to_vec();
                words.join(&b' ')
            }
            13 => {
                let key = *self
                    .rng
                    .pick(&["nam=", "block=", "blocks=", "fill=", "from=", "=", ""]);
                let value = words[word]
                    .split(|b| *b == b'=')
                    .nth(1)
                    .unwrap_or(b"")
                    .to_vec();
                words[word] = [key.as_bytes(), &value].concat();
                words.join(&b' ')
            }
            14..=16 => {
                let number = *self.rng.pick(&[
                    "",
                    "00",
                    "01",
                    "007",
                    "+1",
                    "-1",
                    "-0",
                    "65536",
                    "65537",
                    "99999",
                    "100000",
                    "4294967296",
                    "18446744073709551616",
                    "1.0",
                    "0x1",
                    "1e1",
                    "1\r",
                    "a",
                    "*",
                    "256",
                    "065535",
                    "000001",
                    "\u{661}",
                    "1_0",
                    "65",
                    "300",
                    "1,000",
                ]);
                self.with_number(number)
            }
            17 => {
                line[place] = self.byte_but_line_feed();
                line
            }
            18 => {
                line.remove(place);
                line
            }
            _ => {
                let length = self.rng.between(1, 140);
                (0..length).map(|_| self.byte_but_line_feed()).collect()
            }
        }
    }

    /// A line with a given text as one of its numbers.
    fn with_number(&mut self, number: &str) -> Vec<u8> {
        match self.rng.below(6) {
            0 => format!("op=write block={number} fill=1").into_bytes(),
            1 => format!("op=write block=1 fill={number}").into_bytes(),
            2 => format!("op=read from=* block={number}").into_bytes(),
            3 => format!("op=ream layout={number} blocks=9 volume=9 name=fs").into_bytes(),
            4 => format!("op=ream layout=1 blocks={number} volume=9 name=fs").into_bytes(),
            _ => format!("op=ream layout=1 blocks=9 volume={number} name=fs").into_bytes(),
        }
    }

    fn byte_but_line_feed(&mut self) -> u8 {
        let byte = self.rng.below(256) as u8;
        if byte == b'\n' {
            b' '
        } else {
            byte
        }
    }
}

fn named_line(head: &str, name: &[u8]) -> Vec<u8> {
    [head.as_bytes(), name].concat()
}

fn ream_line(layout: u64, blocks: u64, volume: u64, name: &[u8]) -> Vec<u8> {
    let head = format!("op=ream layout={layout} blocks={blocks} volume={volume} name=");
    named_line(&head, name)
}
