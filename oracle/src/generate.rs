//! Scripts within demand 2's domain: plain mode, no entry expired, at most 16 keys, no refusal 1, 2, 3 or 7, no panic in the Rust. And scripts
//! of the same kinds in strict mode, for the model and our program: there the domain has no meaning, and every call is taken.
//!
//! A script begins with a `C` line. Each key then has a queue of calls of its own, filled by plans (an upload, a download, a jump, ..),
//! and the next call is taken from a queue at random, so that transfers cross. A call that would leave the domain is left out: the
//! model of document 01 tells.

use std::collections::VecDeque;

use crate::model::{counted, Block, Look, Model};
use crate::script::{self, Call, Config, Line, What};

/// Both piece sizes of every script.
const PIECE: u64 = 65_536;
const LIFETIME: u64 = 4_294_967_295;
const JUMP: u64 = 16_384;
const LAST_NUM: u64 = 4095;

/// A plain xorshift, with the high bits of a product as its output.
pub struct Random(u64);

impl Random {
    pub fn new(seed: u64) -> Self {
        Self(seed.wrapping_mul(0x9e37_79b9_7f4a_7c15) | 1)
    }

    fn next(&mut self) -> u64 {
        self.0 ^= self.0 << 13;
        self.0 ^= self.0 >> 7;
        self.0 ^= self.0 << 17;
        self.0.wrapping_mul(0x2545_f491_4f6c_dd1d) >> 11
    }

    /// Below n; 0 if n is 0.
    fn below(&mut self, n: u64) -> u64 {
        self.next() % n.max(1)
    }

    fn between(&mut self, least: u64, most: u64) -> u64 {
        least + self.below(most - least + 1)
    }

    fn one_in(&mut self, n: u64) -> bool {
        self.below(n) == 0
    }

    fn pick<T: Copy>(&mut self, of: &[T]) -> T {
        of[self.below(of.len() as u64) as usize]
    }

    /// One below, at or one above n.
    fn near(&mut self, n: u64) -> u64 {
        (n + self.below(3)).saturating_sub(1)
    }

    fn bytes(&mut self, n: u64) -> Vec<u8> {
        (0..n).map(|_| self.next() as u8).collect()
    }
}

/// How scripts are to be.
#[derive(Debug, Clone, Copy)]
pub struct Style {
    pub strict: bool,
    /// Payloads that are not of a size for a reason of their own stay below this.
    pub cap: u64,
    /// Whether calls are left out whose reply has a num above 4095.
    pub low_nums: bool,
    /// Whether bodies grow to the whole piece, payloads to the largest that there are, and scripts to some hundred calls.
    pub huge: bool,
    /// The rooms that the first scripts sweep over, each for every exponent.
    pub rooms: &'static [u64],
}

/// What the runs use.
pub const FULL: Style = Style {
    strict: false,
    cap: 2048,
    low_nums: false,
    huge: true,
    rooms: &[
        1, 2, 3, 7, 8, 9, 15, 16, 17, 31, 32, 33, 63, 64, 65, 127, 128, 129, 255, 256, 257, 511, 512, 513, 1000, 1023, 1024, 1025, 2047,
        2048, 2049, 4095, 4096,
    ],
};

/// What the runs in strict mode use.
pub const STRICT: Style = Style { strict: true, rooms: &[1, 16, 700, 1024], ..FULL };

/// Short lines, and nums as every side prints them.
const SHORT: Style = Style { strict: false, cap: 70, low_nums: true, huge: false, rooms: &[1, 16, 33] };

/// A call without its time and key.
type Todo = (u64, What);

struct Key {
    bytes: Vec<u8>,
    queue: VecDeque<Todo>,
}

pub struct Generator {
    random: Random,
    style: Style,
    /// How many scripts have been begun: the first ones sweep over the boundaries.
    begun: usize,
    model: Model,
    t: u64,
    now: u64,
    keys: Vec<Key>,
    /// Calls that are still to come in this script, if it is no sweep.
    left: u64,
    /// Whether the script ends with the queues that a sweep has filled.
    sweeping: bool,
}

/// The block value that the call negotiates with, if it has one and there is enough room for the message, and the g of document 01.
fn negotiated(model: &Model, t: u64, call: &Call) -> Option<(Block, u64)> {
    let block = match &call.what {
        What::Request { block1, .. } => counted(model.strict(), block1),
        What::Response { own: true, .. } => None,
        What::Response { .. } => model.look(&call.key).recorded,
    }?;
    let m = t.checked_sub(call.bare + 12)?;
    Some((block, block.size().min(m)))
}

/// Whether the call is within the domain, or in strict mode. If so, the model has taken it; if not, it has touched the model at most.
fn taken(model: &mut Model, t: u64, call: &Call) -> bool {
    if model.strict() {
        model.call(call);
        return true;
    }
    // With a block given and no room at all the Rust divides by zero.
    let panics = negotiated(model, t, call).is_some_and(|(_, g)| g == 0);
    !panics && script::IN_DOMAIN.contains(&model.call(call).name.as_str())
}

/// Whether a script is within the domain. Of the lifetime it is enough that no entry expires in the model.
pub fn within(lines: &[String]) -> bool {
    let mut config = script::FIRST;
    let mut model = Model::new(config);
    lines.iter().all(|line| match script::read(line.as_bytes()) {
        Line::Config(c) => {
            config = c;
            model = Model::new(c);
            true
        }
        Line::Call(call) => taken(&mut model, config.t, &call),
        Line::Show | Line::Unreadable => false,
    })
}

impl Generator {
    pub fn new(seed: u64, style: Style) -> Self {
        Self {
            random: Random::new(seed),
            style,
            begun: 0,
            model: Model::new(script::FIRST),
            t: 0,
            now: 0,
            keys: Vec::new(),
            left: 0,
            sweeping: false,
        }
    }

    /// Lines up to about so many bytes and calls; the first is a `C` line. A sweep that has been begun is ended.
    pub fn chunk(&mut self, bytes: usize, calls: u64) -> Vec<String> {
        let mut lines = Vec::new();
        let (mut size, mut made) = (0, 0);
        self.left = 0;
        while self.sweeping || size < bytes && made < calls {
            let line = if self.sweeping || self.left > 0 { self.next() } else { Some(self.begin()) };
            let Some(line) = line else { continue };
            made += u64::from(!line.starts_with('C'));
            size += line.len() + 1;
            lines.push(line);
        }
        lines
    }

    /// Starts a script: its `C` line.
    fn begin(&mut self) -> String {
        let r = &mut self.random;
        let sweep = self.style.rooms.get(self.begun / 8).map(|&room| (room, (self.begun % 8) as u8));
        self.begun += 1;
        let ample = r.below(24);
        self.t = match r.below(20) {
            _ if sweep.is_some() => sweep.unwrap().0 + 12 + ample,
            0..=3 => r.between(13, 40),
            4..=7 => r.between(41, 200),
            8..=12 => 11 + (16 << r.below(9)) + r.below(40),
            13..=14 => 1152,
            15..=17 => r.between(200, 3000),
            18 => r.between(3000, 5000),
            _ if self.style.huge => r.between(5000, 65_535),
            _ => 64,
        };
        // The clock may be anywhere within 64 bits.
        self.now = r.pick(&[0, 0, 1, 1 << 32, 1 << 63, u64::MAX - 1_000_000]);
        let count = r.pick(&[1, 2, 5, 16, 16, 16]);
        let stem = r.below(40);
        let stem = r.bytes(stem);
        self.keys = (0..count)
            .map(|i| {
                // All different: a common beginning, a number, and any bytes up to 64 in all.
                let mut bytes = if i % 3 == 0 { Vec::new() } else { stem.clone() };
                bytes.push(i as u8);
                let more = if r.one_in(8) { 64 - bytes.len() as u64 } else { r.below(4) };
                bytes.extend(r.bytes(more));
                Key { bytes, queue: VecDeque::new() }
            })
            .collect();
        let config = Config { strict: self.style.strict, t: self.t, lifetime: LIFETIME, u: PIECE, v: PIECE };
        self.model = Model::new(config);
        self.left = if self.style.huge { r.between(40, 600) } else { r.between(40, 200) };
        if let Some((room, exponent)) = sweep {
            self.sweep(room, exponent);
            self.sweeping = true;
            self.left = 0;
        }
        script::write(&Line::Config(config))
    }

    /// The next call as a line, if it stays within the domain.
    fn next(&mut self) -> Option<String> {
        let i = self.random.below(self.keys.len() as u64) as usize;
        if self.keys[i].queue.is_empty() && self.sweeping {
            self.sweeping = self.keys.iter().any(|k| !k.queue.is_empty());
            return None;
        }
        if self.keys[i].queue.is_empty() {
            let look = self.model.look(&self.keys[i].bytes);
            self.plan(i, look);
        }
        let (bare, what) = self.keys[i].queue.pop_front()?;
        let now = self.now + self.random.pick(&[0, 0, 0, 1, 1, 7]);
        self.now = now;
        let call = Call { now, key: self.keys[i].bytes.clone(), bare, what };
        if !self.allowed(&call) {
            return None;
        }
        self.left = self.left.saturating_sub(1);
        Some(script::write(&Line::Call(call)))
    }

    fn allowed(&mut self, call: &Call) -> bool {
        if let (true, Some((block, g))) = (self.style.low_nums, negotiated(&self.model, self.t, call)) {
            if g > 0 && (4096..65_536).contains(&(block.start() / g)) {
                return false;
            }
        }
        taken(&mut self.model, self.t, call)
    }

    // Parts of a call

    /// An option's bytes: the shortest form, or now and then one with leading zero bytes.
    fn option(&mut self, num: u64, more: bool, exponent: u8) -> Vec<u8> {
        let number = num.min(LAST_NUM) * 16 + u64::from(more) * 8 + u64::from(exponent);
        let shortest = match number {
            0 => 0,
            1..=255 => 1,
            _ => 2,
        };
        let length = if self.random.one_in(10) { self.random.between(shortest, 2) } else { shortest };
        number.to_be_bytes()[8 - length as usize..].to_vec()
    }

    /// An option that cannot be read, or none.
    fn no_option(&mut self) -> Option<Vec<u8>> {
        let length = self.random.pick(&[3, 3, 4, 8]);
        self.random.one_in(4).then(|| self.random.bytes(length))
    }

    fn exponent(&mut self) -> u8 {
        let all: &[u8] = if self.style.huge { &[0, 0, 0, 1, 1, 2, 2, 3, 4, 5, 6, 7] } else { &[0, 0, 0, 0, 0, 0, 1, 1, 2, 3, 5, 7] };
        self.random.pick(all)
    }

    /// The length without payload that leaves the room m, as near as T allows.
    fn bare_for(&self, m: u64) -> u64 {
        (self.t - 12).saturating_sub(m)
    }

    /// A length without payload: mostly ample room, else room around a size, around a payload's length, anything, or too little.
    fn bare(&mut self, s: u64, p: u64) -> u64 {
        let most = self.t - 12;
        let m = match self.random.below(20) {
            0..=9 => return self.random.below(most.min(20) + 1),
            10..=12 => self.random.near(s),
            13..=15 => self.random.near(p),
            16 => self.random.pick(&[0, 1, 2, 3, 15, 16, 17, s / 2, s / 2 + 1, s - 3]),
            17..=18 => self.random.below(most + 1),
            _ => return self.random.pick(&[most + 1, most + 1, most + 2, self.t, self.t + 1, 65_535]),
        };
        self.bare_for(m)
    }

    /// A payload for a block of size s: mostly full.
    fn block_payload(&mut self, s: u64) -> Vec<u8> {
        let most = (3 * s).min(s + self.style.cap);
        let n = match self.random.below(16) {
            0 => 0,
            1 => self.random.near(s),
            2 => self.random.below(s.min(self.style.cap)),
            3 => self.random.below(most),
            4 => 1,
            _ if s > self.style.cap => self.random.below(self.style.cap),
            _ => s,
        };
        self.random.bytes(n)
    }

    fn upload_call(&mut self, num: u64, more: bool, exponent: u8, payload: Vec<u8>) -> Todo {
        let block1 = Some(self.option(num, more, exponent));
        let block2 = self.some_block2();
        let bare = self.bare(16 << exponent, payload.len() as u64);
        (bare, What::Request { block1, block2, payload })
    }

    /// A Block2 option beside something else: mostly none.
    fn some_block2(&mut self) -> Option<Vec<u8>> {
        if self.random.one_in(6) {
            let (num, more, exponent) = (self.random.below(4), self.random.one_in(4), self.exponent());
            Some(self.option(num, more, exponent))
        } else {
            self.no_option()
        }
    }

    fn fetch_call(&mut self, num: u64, exponent: u8) -> Todo {
        let more = self.random.one_in(8);
        let block2 = Some(self.option(num, more, exponent));
        // Now and then with the last block of an upload, whose body is then lost.
        let block1 = if self.random.one_in(12) {
            let (num, exponent) = (self.random.below(3), self.random.below(3) as u8);
            Some(self.option(num, false, exponent))
        } else {
            self.no_option()
        };
        let n = self.random.pick(&[0, 0, 0, 1, 5, 16]);
        let payload = self.random.bytes(n);
        let bare = if self.random.one_in(10) { self.bare(16, n) } else { self.random.below(self.t.min(30) - 12) };
        (bare, What::Request { block1, block2, payload })
    }

    fn answer_call(&mut self, bare: u64, n: u64) -> Todo {
        let own = self.random.one_in(12);
        let head = self.random.pick(&[0, 0, 0, 1, 4, 17]);
        let head = if self.random.one_in(20) { self.random.below(129) } else { head };
        let what = What::Response { own, head: self.random.bytes(head), payload: self.random.bytes(n) };
        (bare, what)
    }

    // Plans

    fn plan(&mut self, i: usize, look: Look) {
        let falling = if self.style.strict { 2 } else { 5 };
        let calls = match self.random.below(100) {
            // The short lines stay as they are: they stand in our fixed list.
            0..=34 if self.style.huge && self.random.one_in(falling) => self.falling(),
            0..=34 => self.upload(),
            35..=74 => self.download(),
            75..=86 => self.noise(),
            87 => self.repeat(look),
            // These make long bodies: fewer of them where lines are to be short.
            _ if !self.style.huge && self.random.one_in(2) => self.noise(),
            88..=94 => self.nums(),
            95..=97 => self.jump(look),
            98 if self.style.huge && self.random.one_in(6) => self.climb(look),
            99 if self.style.huge && self.random.one_in(10) => self.largest(),
            _ => self.noise(),
        };
        self.keys[i].queue.extend(calls);
    }

    /// Blocks 0 to n - 1, and then what can go wrong with them.
    fn upload(&mut self) -> Vec<Todo> {
        let e = self.exponent();
        let s = 16 << e;
        let n = self.random.between(1, if e < 3 { 10 } else { 3 });
        let mut blocks: Vec<(u64, bool, u8)> = (0..n).map(|k| (k, k + 1 < n, e)).collect();
        while self.random.one_in(2) {
            let at = self.random.below(blocks.len() as u64) as usize;
            let last = *blocks.last().unwrap();
            match self.random.below(8) {
                0 => blocks.swap(at, 0),
                1 => blocks.insert(at, blocks[at]),
                2 => blocks.push(last),
                3 if blocks.len() > 1 => drop(blocks.remove(at)),
                4 => {
                    // Cancelled before its last block, and sent again shorter.
                    blocks.pop();
                    let n = self.random.between(1, n);
                    blocks.extend((0..n).map(|k| (k, k + 1 < n, e)));
                }
                5 => blocks[at].1 = !blocks[at].1,
                6 => {
                    // The same place in another size, as near as it goes.
                    let other = self.exponent();
                    blocks[at] = (blocks[at].0 * s / (16 << other), blocks[at].1, other);
                }
                _ => blocks[at].0 += self.random.below(4),
            }
        }
        let mut calls = Vec::new();
        for (num, more, e) in blocks {
            let mut payload = self.block_payload(16 << e);
            if !more && self.random.one_in(2) {
                payload.truncate(self.random.below(16 << e) as usize);
            }
            calls.push(self.upload_call(num, more, e, payload));
        }
        calls
    }

    /// An upload whose size falls now and then, each block at the end of those before it and mostly full. Among them are strays.
    fn falling(&mut self) -> Vec<Todo> {
        let mut e = self.random.pick(&[1, 1, 2, 2, 3, 4, 5, 6]);
        let n = self.random.between(2, 9);
        let (mut at, mut calls) = (0, Vec::new());
        for k in 1..=n {
            if at > 0 && self.random.one_in(4) {
                calls.push(self.stray(at, e));
            }
            if at > 0 && self.random.one_in(3) {
                e = self.random.below(u64::from(e) + 1) as u8;
            }
            calls.push(self.whole_or_last(at >> (e + 4), k < n, e));
            at += 16 << e;
        }
        calls
    }

    /// A block that strict mode does not take behind so many bytes, the last of them in a block of that exponent: a larger one, or one that
    /// starts elsewhere because its sender counts on from the last num or is a block off.
    fn stray(&mut self, at: u64, e: u8) -> Todo {
        // The next larger size, if a block of it can start there, or any.
        let twice = at.trailing_zeros() > u32::from(e) + 4 && self.random.one_in(2);
        let other = if twice { (e + 1).min(6) } else { self.random.below(7) as u8 };
        let end = at >> (other + 4);
        let num = match self.random.below(3) {
            _ if other > e => end.max(1),
            0 if other < e => at >> (e + 4),
            1 if end > 1 => end - 1,
            _ => end + 1,
        };
        let more = !self.random.one_in(3);
        self.whole_or_last(num, more, other)
    }

    /// A full block if more follow, and one of any length up to its size if not; now and then another.
    fn whole_or_last(&mut self, num: u64, more: bool, e: u8) -> Todo {
        let s = 16 << e;
        let n = match self.random.below(24) {
            0 => self.random.near(s),
            1..=2 if !more => 0,
            _ if more => s,
            _ => self.random.below(s + 1),
        };
        let payload = self.random.bytes(n);
        self.upload_call(num, more, e, payload)
    }

    /// A request, its response, and the blocks fetched in some order.
    fn download(&mut self) -> Vec<Todo> {
        let e = self.exponent();
        let s = 16 << e;
        let mut calls = Vec::new();
        let k = self.random.pick(&[0, 0, 0, 1, 1, 2, 5]);
        if self.random.one_in(3) {
            calls.push(self.fetch_call(k, e));
        } else if !self.random.one_in(8) {
            let block1 = self.no_option();
            let block2 = self.no_option();
            let bare = self.random.below(self.t - 12);
            calls.push((bare, What::Request { block1, block2, payload: Vec::new() }));
        }
        let rough = self.random.below(5 * s);
        let even = self.random.below(8) * s;
        let bare = self.bare(s, rough);
        let m = (self.t - 12).saturating_sub(bare);
        let n = match self.random.below(12) {
            0..=1 => rough,
            2..=4 => self.random.near(m),
            5 => self.random.near(k * s),
            6..=7 => self.random.near((k + 1) * s),
            8 => even,
            9 => self.random.near(even),
            10 => 0,
            _ => self.random.below(100),
        };
        let n = if n > 4 * self.style.cap { self.random.below(4 * self.style.cap) } else { n };
        calls.push(self.answer_call(bare, n));
        if self.random.one_in(8) {
            // Another response over the cached one, of a size that is plain, whole or first.
            let (bare, n) = (self.bare(s, n), self.random.below(2 * s.min(self.style.cap)));
            calls.push(self.answer_call(bare, n));
        }
        // Fetched in the size that was answered, the one asked for, or any.
        let answered = Block::make(false, 0, true, s.min(m)).map_or(e, |b| b.exponent);
        let f = match self.random.below(4) {
            0 => self.exponent(),
            1 => e,
            _ => answered,
        };
        let blocks = n.div_ceil(16 << f);
        let mut order: Vec<u64> = (0..(blocks + 1).min(10)).collect();
        match self.random.below(6) {
            0 => order.reverse(),
            1 => (0..order.len()).for_each(|i| order.swap(i, self.random.below(i as u64 + 1) as usize)),
            2 => order = (0..4).map(|_| self.random.below(blocks + 2)).collect(),
            3 => order = vec![blocks, blocks.saturating_sub(1), blocks, LAST_NUM],
            4 => drop(order.remove(0)),
            _ => {}
        }
        for num in order {
            let f = if self.random.one_in(10) { self.exponent() } else { f };
            calls.push(self.fetch_call(num, f));
        }
        calls
    }

    /// Calls of any kind with any options.
    fn noise(&mut self) -> Vec<Todo> {
        let n = self.random.below(60);
        let bare = self.bare(16, n);
        if self.random.one_in(3) {
            return vec![self.answer_call(bare, n)];
        }
        let [block1, block2] = [0; 2].map(|_| {
            let length = self.random.pick(&[0, 1, 1, 1, 1, 2, 3]);
            self.random.one_in(2).then(|| self.random.bytes(length))
        });
        vec![(bare, What::Request { block1, block2, payload: self.random.bytes(n) })]
    }

    /// Little room, so that the reply's num is near a limit: 4095 as written, 65,535 as made.
    fn nums(&mut self) -> Vec<Todo> {
        let e = self.exponent();
        let s = 16 << e;
        let g: u64 = self.random.pick(&[1, 1, 2, 3, 5, s - 1]);
        let goal = self.random.pick(&[4095, 4096, 65_535, 65_536]);
        let num = self.random.near((goal * g).div_ceil(s)).min(LAST_NUM);
        let n = self.random.below(20);
        let payload = self.random.bytes(n);
        let bare = self.bare_for(g);
        if self.random.one_in(2) {
            // From a body that is long enough for the jump.
            let before = (num * s).saturating_sub(JUMP).div_ceil(16);
            let n = self.random.below(20);
            let payload = self.random.bytes(n);
            let first = self.upload_call(before, true, 0, payload);
            let more = !self.random.one_in(4);
            let (_, second) = self.upload_call(num, more, e, Vec::new());
            return vec![first, (bare, second)];
        }
        let more = !self.random.one_in(4);
        let (_, what) = self.upload_call(num, more, e, payload);
        vec![(bare, what)]
    }

    /// A block whose end is about 16,384 past what is assembled.
    fn jump(&mut self, look: Look) -> Vec<Todo> {
        let e = self.exponent();
        let s = 16 << e;
        let num = ((look.assembled + JUMP) / s + self.random.below(4)).saturating_sub(2).min(LAST_NUM);
        let payload = self.block_payload(s);
        let more = !self.random.one_in(6);
        let mut calls = vec![self.upload_call(num, more, e, payload)];
        if more && self.random.one_in(2) {
            let payload = self.block_payload(s);
            calls.push(self.upload_call(0, false, e, payload));
        }
        calls
    }

    /// One block several times at the end of what is assembled, or right before it.
    fn repeat(&mut self, look: Look) -> Vec<Todo> {
        let e = self.exponent();
        let num = self.random.near(look.assembled / (16 << e)).min(LAST_NUM);
        let mut calls = Vec::new();
        for more in [true, true, false, false] {
            let payload = self.block_payload(16 << e);
            calls.push(self.upload_call(num, more, e, payload));
        }
        calls
    }

    /// Jumps up to the end of the piece, and the whole of it handed on.
    fn climb(&mut self, look: Look) -> Vec<Todo> {
        let mut calls = Vec::new();
        let mut length = look.assembled;
        while length + 16 < PIECE {
            let end = (length + JUMP).min(PIECE) / 16;
            let payload = self.random.bytes(16);
            calls.push(self.upload_call(end - 1, true, 0, payload));
            length = end * 16;
        }
        for n in [0, 1, 15, 16] {
            let payload = self.random.bytes(n);
            calls.push(self.upload_call(LAST_NUM, n < 15, 0, payload));
        }
        calls
    }

    /// Payloads up to the longest, and a download of one by its first and last blocks.
    fn largest(&mut self) -> Vec<Todo> {
        let n = self.random.between(65_400, 65_535);
        let (bare, e) = (self.bare(2048, n), self.exponent());
        let payload = self.random.bytes(n);
        let mut calls = vec![(bare, What::Request { block1: None, block2: None, payload })];
        let bare = self.random.below(self.t - 12);
        calls.push(self.answer_call(bare, n));
        let blocks = n.div_ceil(16 << e);
        for num in [1, blocks / 2, blocks, blocks - 1, blocks - 1] {
            calls.push(self.fetch_call(num, e));
        }
        calls
    }

    /// One pairing of room and block size: blocks and payloads on each side of every limit, spread over the keys.
    fn sweep(&mut self, room: u64, e: u8) {
        let (s, cap) = (16 << e, self.style.cap);
        let bare = self.bare_for(room);
        let mut i = 0;
        let mut add = |calls: Vec<Todo>, keys: &mut Vec<Key>| {
            i = (i + 1) % keys.len();
            keys[i].queue.extend(calls);
        };
        for num in [0, 1, 2, 7] {
            // Bodies of short scripts stay short.
            if num * s > 32 * cap {
                continue;
            }
            let mut calls = Vec::new();
            for n in [s, 0, 1, s - 1, s + 1, room] {
                let payload = self.random.bytes(if n > cap { n % 7 } else { n });
                for more in [true, false] {
                    let block1 = Some(self.option(num, more, e));
                    calls.push((bare, What::Request { block1, block2: None, payload: payload.clone() }));
                }
            }
            add(calls, &mut self.keys);
        }
        for p in [room - 1, room, room + 1] {
            let payload = self.random.bytes(p.min(4 * cap));
            let block1 = self.no_option();
            let ask = |block2| (bare, What::Request { block1: block1.clone(), block2, payload: Vec::new() });
            let mut calls = vec![(bare, What::Request { block1: block1.clone(), block2: None, payload: payload.clone() }), ask(None)];
            calls.push((bare, What::Response { own: false, head: vec![1, 2], payload }));
            calls.push((bare + 1, What::Request { block1: None, block2: None, payload: Vec::new() }));
            for num in [0, 1, 2] {
                calls.push(self.fetch_call(num, e));
            }
            add(calls, &mut self.keys);
        }
        for num in [0, 1, 3] {
            let mut calls = Vec::new();
            for n in [num * s, num * s + 1, (num + 1) * s - 1, (num + 1) * s, (num + 1) * s + 1] {
                if n > 4 * cap {
                    continue;
                }
                calls.push((0, What::Request { block1: None, block2: Some(self.option(num, false, e)), payload: Vec::new() }));
                let payload = self.random.bytes(n);
                calls.push((bare, What::Response { own: false, head: Vec::new(), payload }));
                for k in [num, num + 1, num + 2] {
                    calls.push(self.fetch_call(k, e));
                }
            }
            add(calls, &mut self.keys);
        }
    }
}

/// Document 01's own script, then its cases 1 to 11 as far as calls can show them (case 2 is in `sample`, its payloads being long).
const CASES: &str = "\
C plain 64 120000 2048 1024
Q 0 01 20 08 - 41414141414141414141414141414141
Q 1 01 20 10 - 42424242
Q 2 01 20 10 - 42424242
Q 3 02 20 - - .
P 4 02 36 0 . 4343434343434343434343434343434343
Q 5 02 20 - 10 .
C plain 64 4294967295 65536 65536
Q 0 01 37 - - 616161616161616161616161616161
Q 0 01 20 - - 6161616161616161616161616161616161616161616161616161616161616161
Q 0 01 52 - - .
C plain 13 4294967295 65536 65536
Q 0 03 0 7ff9 - .
Q 0 03 0 8001 - .
C plain 64 4294967295 65536 65536
Q 0 04 20 08 - 6162
Q 0 04 20 . - 6162
C plain 1152 4294967295 65536 65536
Q 0 06 1140 - - .
Q 0 06 1141 - - .
Q 0 07 140 2e - 61
Q 0 08 20 fe - 61
Q 0 09 20 010e - 61
C plain 64 4294967295 65536 65536
Q 0 09 20 08 - 61616161616161616161616161616161
Q 0 09 20 18 - 62626262626262626262626262626262
Q 0 09 20 28 - 63636363636363636363636363636363
Q 0 09 20 10 - 64646464
P 0 0a 36 0 ff 6161616161616161616161616161616162626262626262626262626262626262
Q 0 0a 20 - 20 .
Q 0 0a 20 - 10 .
Q 0 0a 20 - 10 .
Q 0 0b 20 08 - 61616161616161616161616161616161
Q 0 0b 20 18 - 62626262626262626262626262626262
Q 0 0b 20 28 - 63636363636363636363636363636363
Q 0 0b 20 38 - 64646464646464646464646464646464
Q 0 0b 20 08 - 65656565656565656565656565656565
Q 0 0b 20 10 - 66666666666666666666666666666666
";

/// What a call leaves behind, seen by the calls after it: one key for each, T 64.
const LEFT: &str = "\
C plain 64 4294967295 65536 65536
Q 0 01 20 08 20 61616161616161616161616161616161
P 0 01 20 0 . 6262626262
Q 0 02 20 - 20 6161616161616161616161616161616161616161616161616161616161616161
P 0 02 20 0 . 6262626262
P 0 03 36 0 ff 6161616161616161616161616161616162626262
Q 0 03 20 - f0 .
P 0 03 20 0 . 6262626262
Q 0 03 20 - 10 .
Q 0 04 20 - . .
P 0 04 20 0 ff 6161616161616161616161616161616162626262
P 0 04 20 0 . 6363636363
Q 0 04 20 - 10 .
P 0 05 36 0 ff 6161616161616161616161616161616162626262
P 0 05 36 0 . 6363636363
Q 0 05 20 - 10 .
Q 0 06 20 - f0 .
P 0 06 60 1 . 61
P 0 06 52 1 . 61
P 0 06 60 0 . 61
P 0 06 20 1 . .
P 0 06 20 0 . .
Q 0 07 20 08 - 61616161616161616161616161616161
Q 0 07 20 7d08 - 62
Q 0 07 20 10 - 6363
P 0 08 36 0 ff 61616161616161616161616161616161616161616161616161616161616161616161616161616161
Q 0 08 20 08 - 61616161616161616161616161616161
Q 0 08 20 10 10 6262
Q 0 08 20 10 - 6363
Q 0 08 20 08 - 61616161616161616161616161616161
Q 0 08 20 10 30 6262
Q 0 08 20 10 - 6363
Q 0 08 20 - 20 .
Q 0 09 20 4008 - 61
Q 0 09 20 3ff8 - 61616161616161616161616161616161
Q 0 09 20 7ff8 - 61616161616161616161616161616161
Q 0 09 20 bff8 - 61616161616161616161616161616161
Q 0 09 20 fff8 - 61616161616161616161616161616161
Q 0 09 20 fff8 - 61616161616161616161616161616161
Q 0 0a 20 08 - 61616161616161616161616161616161
Q 0 0a 20 4018 - 61
Q 0 0a 20 4008 - 61
Q 0 0b 53 - - 61
Q 0 0b 53 08 - 61
Q 0 0b 51 08 - 6161
Q 0 0b 51 10 - 61
";

/// A fixed list of calls with short lines: document 01's cases, what calls leave, the boundaries, then calls of every kind.
pub fn sample() -> Vec<String> {
    let mut lines: Vec<String> = CASES.lines().chain(LEFT.lines()).map(str::to_owned).collect();
    // Cases 2 and 5: the payload just fits, or just does not.
    for (t, bare, p) in [(5000, 893, 4094), (5000, 893, 4095), (5000, 892, 4096), (1152, 116, 1023), (1152, 116, 1024)] {
        let config = Config { strict: false, t, lifetime: LIFETIME, u: PIECE, v: PIECE };
        let what = What::Request { block1: None, block2: None, payload: vec![0x61; p] };
        lines.push(script::write(&Line::Config(config)));
        lines.push(script::write(&Line::Call(Call { now: 0, key: vec![2], bare, what })));
    }
    lines.extend(Generator::new(1, SHORT).chunk(usize::MAX, 4000));
    lines
}

#[cfg(test)]
mod tests {
    use super::*;

    #[test]
    fn within_the_domain() {
        assert!(within(&sample()));
        assert!(within(&Generator::new(7, FULL).chunk(usize::MAX, 60_000)));
    }

    #[test]
    fn same_seed_same_script() {
        let lines = |seed| Generator::new(seed, FULL).chunk(usize::MAX, 2000);
        assert_eq!(lines(3), lines(3));
        assert_ne!(lines(3), lines(4));
    }
}
