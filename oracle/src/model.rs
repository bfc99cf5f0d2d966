//! Document 01 in plain Rust, with document 02's longer lists and senders that go smaller, written from their text alone: no word of the Rust
//! module is used here. Document 01's sections are the headings below.

use crate::script::{Answer, Call, Config, Shown, What};

const ENTRIES: usize = 16;
const OPTIONS: u64 = 12;
const JUMP: u64 = 16_384;

// Block value

#[derive(Debug, Clone, Copy, PartialEq, Eq)]
pub struct Block {
    pub num: u64,
    pub more: bool,
    pub exponent: u8,
}

impl Block {
    pub fn make(strict: bool, num: u64, more: bool, size: u64) -> Option<Block> {
        let exponent = (size.checked_ilog2()? as u8).saturating_sub(4);
        let most = if strict { 1_048_575 } else { 65_535 };
        (exponent <= 7 && num <= most).then_some(Block { num, more, exponent })
    }

    pub fn size(self) -> u64 {
        1 << (self.exponent + 4)
    }

    /// Where its first byte stands in the body.
    pub fn start(self) -> u64 {
        self.num * self.size()
    }

    pub fn read(strict: bool, option: &[u8]) -> Option<Block> {
        let n = match *option {
            [] => 0,
            [a] => u64::from(a),
            [a, b] => u64::from(a) * 256 + u64::from(b),
            [a, b, c] if strict => u64::from(a) * 65_536 + u64::from(b) * 256 + u64::from(c),
            _ => return None,
        };
        Some(Block { num: n / 16, more: n / 8 % 2 == 1, exponent: (n % 8) as u8 })
    }

    fn shown(self) -> Shown {
        Shown { num: self.num, more: self.more, size: self.size() }
    }
}

/// Unreadable counts as absent.
pub fn counted(strict: bool, option: &Option<Vec<u8>>) -> Option<Block> {
    Block::read(strict, option.as_deref()?)
}

// Negotiation

pub fn negotiate(strict: bool, block: Option<Block>, bare: u64, p: u64, t: u64) -> Result<Option<Block>, u8> {
    if bare + OPTIONS > t {
        return Err(4);
    }
    let m = t - bare - OPTIONS;
    let made = match block {
        None if p < m => return Ok(None),
        None => Block::make(strict, 0, true, m),
        Some(b) => match b.size().min(m) {
            0 => None,
            g => Block::make(strict, b.start() / g, b.start() + g < p, g),
        },
    };
    made.map(Some).ok_or(5)
}

// Chunk

/// The bounds of the chunk, and the value that goes with it.
fn chunk(n: u64, asked: Block) -> Result<(usize, usize, Block), u8> {
    let (from, s) = (asked.start(), asked.size());
    if from >= n {
        return Err(8);
    }
    let more = (asked.num + 1) * s < n;
    Ok((from as usize, (from + s).min(n) as usize, Block { more, ..asked }))
}

// Table and clock

#[derive(Debug, Clone, Default)]
struct Entry {
    used: bool,
    key: Vec<u8>,
    touched: u64,
    assembled: usize,
    kept: u8,
    /// Lengths of the cached head and payload.
    cache: Option<(usize, usize)>,
    recorded: Option<Block>,
}

pub struct Model {
    config: Config,
    clock: u64,
    entries: Vec<Entry>,
    upload: Vec<u8>,
    response: Vec<u8>,
}

/// What a key's entry holds, for the choice of further calls.
#[derive(Debug, Clone, Copy, Default)]
pub struct Look {
    pub assembled: u64,
    pub cached: Option<u64>,
    pub recorded: Option<Block>,
}

fn in_limits(c: &Config) -> bool {
    (1..=65_535).contains(&c.t)
        && (1..=4_294_967_295).contains(&c.lifetime)
        && (16..=16_777_216).contains(&c.u)
        && (16..=65_536).contains(&c.v)
}

impl Model {
    /// A set-up off the limits is taken, and each call under it gets refusal 1.
    pub fn new(config: Config) -> Self {
        let (u, v) = if in_limits(&config) { (config.u as usize, config.v as usize) } else { (0, 0) };
        Self { config, clock: 0, entries: vec![Entry::default(); ENTRIES], upload: vec![0; ENTRIES * u], response: vec![0; ENTRIES * v] }
    }

    pub fn strict(&self) -> bool {
        self.config.strict
    }

    pub fn look(&self, key: &[u8]) -> Look {
        match self.entries.iter().find(|e| e.used && e.key == key) {
            Some(e) => Look { assembled: e.assembled as u64, cached: e.cache.map(|(_, n)| n as u64), recorded: e.recorded },
            None => Look::default(),
        }
    }

    pub fn call(&mut self, call: &Call) -> Answer {
        self.checked(call).unwrap_or_else(Answer::refused)
    }

    fn checked(&mut self, call: &Call) -> Result<Answer, u8> {
        let (head, payload) = match &call.what {
            What::Request { payload, .. } => (0, payload.len()),
            What::Response { head, payload, .. } => (head.len(), payload.len()),
        };
        let limits =
            in_limits(&self.config) && (1..=64).contains(&call.key.len()) && call.bare <= 65_535 && payload <= 65_535 && head <= 128;
        if !limits {
            return Err(1);
        }
        if call.now < self.clock {
            return Err(2);
        }
        let i = self.place(call)?;
        match &call.what {
            What::Request { block1, block2, payload } => {
                let strict = self.config.strict;
                self.request(i, call.bare, counted(strict, block1), counted(strict, block2), payload)
            }
            What::Response { own, head, payload } => self.respond(i, call.bare, *own, head, payload),
        }
    }

    /// Check 3, and the touch: the entry of the key.
    fn place(&mut self, call: &Call) -> Result<usize, u8> {
        let live = |e: &Entry| e.used && call.now - e.touched < self.config.lifetime;
        let found = self.entries.iter().position(|e| live(e) && e.key == call.key);
        let i = found.or_else(|| self.entries.iter().position(|e| !live(e))).ok_or(3)?;
        for e in &mut self.entries {
            if e.used && call.now - e.touched >= self.config.lifetime {
                *e = Entry::default();
            }
        }
        self.clock = call.now;
        let e = &mut self.entries[i];
        if !e.used {
            *e = Entry { used: true, key: call.key.clone(), ..Entry::default() };
        }
        e.touched = call.now;
        Ok(i)
    }

    // A request call

    fn request(&mut self, i: usize, bare: u64, block1: Option<Block>, block2: Option<Block>, payload: &[u8]) -> Result<Answer, u8> {
        let reply = negotiate(self.config.strict, block1, bare, payload.len() as u64, self.config.t)?;
        let (mut name, mut body, mut made) = ("Pass", payload.to_vec(), None);
        match (block1, reply) {
            (Some(b), reply) => {
                let length = self.splice(i, b, payload)?;
                if b.more {
                    let block1 = reply.map(Block::shown);
                    return Ok(Answer { block1, ..Answer::named("Continue") });
                }
                let at = i * self.config.u as usize;
                (name, body, made) = ("Handed", self.upload[at..at + length].to_vec(), reply.map(Block::shown));
                self.entries[i].assembled = 0;
                self.entries[i].kept = 0;
            }
            (None, Some(reply)) => return Ok(Answer { block1: Some(reply.shown()), ..Answer::named("TooLarge") }),
            (None, None) => {}
        }
        let e = &mut self.entries[i];
        e.recorded = block2;
        if let (Some(b), Some((head, n))) = (block2, e.cache) {
            let (from, to, value) = chunk(n as u64, b)?;
            if !value.more {
                e.cache = None;
            }
            let at = i * self.config.v as usize + head;
            let bytes = self.response[at + from..at + to].to_vec();
            return Ok(Answer { name: "Served".to_owned(), block1: made, block2: Some(value.shown()), bytes: Some(bytes) });
        }
        Ok(Answer { name: name.to_owned(), block1: made, block2: None, bytes: Some(body) })
    }

    // Splice, after strict mode's own checks

    /// Puts the payload into the key's piece and gives the assembled length.
    fn splice(&mut self, i: usize, b: Block, payload: &[u8]) -> Result<usize, u8> {
        let (p, s, a) = (payload.len() as u64, b.size(), b.start());
        let e = &self.entries[i];
        let mut length = e.assembled as u64;
        if self.config.strict {
            if b.exponent == 7 || p > s || (b.more && p != s) {
                return Err(10);
            }
            if b.num == 0 {
                length = 0;
            } else if a != length || b.exponent > e.kept {
                // A wrong start or a rising exponent.
                return Err(9);
            }
        }
        let end = a + s;
        if end.saturating_sub(length) > JUMP {
            return Err(6);
        }
        let new = length.max(end) - s + p;
        if new > self.config.u {
            return Err(7);
        }
        let at = i * self.config.u as usize;
        let piece = &mut self.upload[at..at + self.config.u as usize];
        let old = piece[..length as usize].to_vec();
        let before = old.iter().copied().chain(std::iter::repeat(0)).take(a as usize);
        let after = old.iter().copied().skip(end as usize);
        let whole: Vec<u8> = before.chain(payload.iter().copied()).chain(after).collect();
        assert_eq!(whole.len() as u64, new);
        piece[..whole.len()].copy_from_slice(&whole);

        let e = &mut self.entries[i];
        e.assembled = new as usize;
        e.kept = if new == 0 { 0 } else { b.exponent };
        Ok(new as usize)
    }

    // A response call

    fn respond(&mut self, i: usize, bare: u64, own: bool, head: &[u8], payload: &[u8]) -> Result<Answer, u8> {
        if own {
            return Ok(Answer::named("Plain"));
        }
        let n = payload.len() as u64;
        let Some(b) = negotiate(self.config.strict, self.entries[i].recorded, bare, n, self.config.t)? else {
            return Ok(Answer::named("Plain"));
        };
        let (from, to, value) = chunk(n, b)?;
        let answer = |name: &str| Answer {
            name: name.to_owned(),
            block1: None,
            block2: Some(value.shown()),
            bytes: Some(payload[from..to].to_vec()),
        };
        if !value.more {
            return Ok(answer("Whole"));
        }
        let total = head.len() + payload.len();
        if total as u64 > self.config.v {
            return Err(7);
        }
        let at = i * self.config.v as usize;
        self.response[at..at + head.len()].copy_from_slice(head);
        self.response[at + head.len()..at + total].copy_from_slice(payload);
        self.entries[i].cache = Some((head.len(), payload.len()));
        Ok(answer("First"))
    }
}

#[cfg(test)]
mod tests {
    use crate::script::{self, Line};

    use super::*;

    fn answers(text: &str) -> String {
        let mut model = Model::new(script::FIRST);
        let mut out = Vec::new();
        let run = script::run(&mut text.as_bytes(), &mut out, |line| match line {
            Line::Config(c) => {
                model = Model::new(c);
                None
            }
            Line::Call(call) => Some(model.call(&call)),
            Line::Show => None,
            Line::Unreadable => Some(Answer::named("unreadable")),
        });
        run.unwrap();
        String::from_utf8(out).unwrap()
    }

    #[test]
    fn document_01() {
        let script = "\
Q 0 01 20 08 - 41414141414141414141414141414141
Q 1 01 20 10 - 42424242
Q 2 01 20 10 - 42424242
Q 3 02 20 - - .
P 4 02 36 0 . 4343434343434343434343434343434343
Q 5 02 20 - 10 .
";
        let expected = "\
line answer block1 block2 bytes
1 Continue 0/0/16 - -
2 Handed 1/0/16 - 4141414141414141414141414141414142424242
3 Handed 1/0/16 - 0000000000000000000000000000000042424242
4 Pass - - .
5 First - 0/1/16 43434343434343434343434343434343
6 Served - 1/0/16 43
";
        assert_eq!(answers(script), expected);
    }

    #[test]
    fn refusals_of_our_own() {
        let script = "\
C plain 64 10 16 16
Q 5 . 0 - - .
Q 5 01 65536 - - .
Q 5 01 0 - - .
Q 4 01 0 - - .
Q 5 01 0 09 - 6161616161616161616161616161616161
P 5 01 36 0 61 61616161616161616161616161616161
P 5 01 36 0 61 6161616161616161616161616161616161
C strict 64 10 2048 1024
Q 0 01 0 18 - 61616161616161616161616161616161
Q 0 01 0 08 - 616161616161616161616161616161
Q 0 01 0 07 - 61
Q 0 01 0 08 - 61616161616161616161616161616161
Q 0 01 0 18 - 62626262626262626262626262626262
Q 0 01 0 08 - 63636363636363636363636363636363
Q 0 01 0 10 - 64
";
        let names = "refused-1 refused-1 Pass refused-2 refused-7 Whole refused-7 \
                     refused-9 refused-10 refused-10 Continue Continue Continue Handed";
        let answers = answers(script);
        let got: Vec<&str> = answers.lines().skip(1).map(|l| l.split(' ').nth(1).unwrap()).collect();
        assert_eq!(got.join(" "), names);
        assert!(answers.ends_with("Handed 1/0/16 - 6363636363636363636363636363636364\n"));
    }

    /// A block 0 that leaves no room for its size, then blocks at the size of the reply: by number, by offset, and the larger size again.
    #[test]
    fn smaller_blocks() {
        let mut script = "C strict 64 10 2048 1024\n".to_owned();
        let blocks = [("0a", 64), ("19", 32), ("29", 32), ("39", 32), ("2a", 64), ("22", 3), ("88", 16), ("48", 16), ("90", 0)];
        for (option, payload) in blocks {
            script += &format!("Q 0 01 20 {option} - {}\n", if payload == 0 { ".".to_owned() } else { "61".repeat(payload) });
        }
        let expected = format!(
            "\
line answer block1 block2 bytes
2 Continue 0/1/32 - -
3 refused-9 - - -
4 Continue 2/0/32 - -
5 Continue 3/0/32 - -
6 refused-9 - - -
7 refused-9 - - -
8 Continue 8/0/16 - -
9 refused-9 - - -
10 Handed 9/0/16 - {}
",
            "61".repeat(144)
        );
        assert_eq!(answers(&script), expected);
    }

    #[test]
    fn full_table() {
        let mut script = "C plain 64 10 16 16\n".to_owned();
        for key in 0..17 {
            script += &format!("Q {} {key:02x} 0 - - .\n", key / 16);
        }
        // Refusal 3 leaves the clock; entry 0 expires at 10.
        script += "Q 0 00 0 - - .\nQ 9 10 0 - - .\nQ 10 10 0 - - .\n";
        let answers = answers(&script);
        let got: Vec<&str> = answers.lines().skip(17).map(|l| l.split(' ').nth(1).unwrap()).collect();
        assert_eq!(got, ["refused-3", "Pass", "refused-3", "Pass"]);
    }
}
