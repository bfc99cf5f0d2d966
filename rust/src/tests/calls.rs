//! Random calls, chosen with an eye on the table: most go on with what a key has begun, some are odd, a few are off the limits.

use super::model::last_num;
use crate::ffi::{Assembled, BlockState, Entry, Table};
use crate::{BlockHandlerConfig, Mode, Request, Response};

/// Random numbers, the same in each run (the generator is SplitMix64).
pub struct Random(pub u64);

impl Random {
    pub fn next(&mut self) -> u64 {
        self.0 = self.0.wrapping_add(0x9e37_79b9_7f4a_7c15);
        let mut z = self.0;
        z = (z ^ (z >> 30)).wrapping_mul(0xbf58_476d_1ce4_e5b9);
        z = (z ^ (z >> 27)).wrapping_mul(0x94d0_49bb_1331_11eb);
        z ^ (z >> 31)
    }

    pub fn below(&mut self, n: u64) -> u64 {
        self.next() % n.max(1)
    }

    pub fn up_to(&mut self, n: usize) -> usize {
        self.below(n as u64 + 1) as usize
    }

    pub fn percent(&mut self, n: u64) -> bool {
        self.below(100) < n
    }

    pub fn one_of<T: Copy>(&mut self, items: &[T]) -> T {
        items[self.below(items.len() as u64) as usize]
    }
}

/// The bytes of an option: the last of four, which spell its number, the most significant first.
#[derive(Debug, Clone, Copy)]
pub struct OptionBytes {
    bytes: [u8; 4],
    len: usize,
}

impl OptionBytes {
    /// The shortest form.
    fn of(num: u64, more: bool, exponent: u8) -> Self {
        let scalar = (num * 16 + u64::from(more) * 8 + u64::from(exponent)) as u32;
        Self { bytes: scalar.to_be_bytes(), len: 4 - scalar.leading_zeros() as usize / 8 }
    }

    /// With as many zeros before it as make so many bytes.
    fn widened(self, len: usize) -> Self {
        Self { len: self.len.max(len), ..self }
    }

    pub fn bytes(&self) -> &[u8] {
        &self.bytes[4 - self.len..]
    }
}

/// A call by its lengths; `Calls` has the bytes.
#[derive(Debug, Clone, Copy)]
pub struct Call {
    pub time: u64,
    pub key: usize,
    pub bare: usize,
    pub what: What,
}

#[derive(Debug, Clone, Copy)]
pub enum What {
    Request { block1: Option<OptionBytes>, block2: Option<OptionBytes>, payload: (usize, usize) },
    Response { own_block2: bool, head: usize, payload: (usize, usize) },
}

pub struct Calls {
    pub random: Random,
    config: BlockHandlerConfig,
    keys: Vec<Vec<u8>>,
    /// Payloads and heads are parts of this.
    pool: Vec<u8>,
}

const POOL: usize = 4096;

impl Calls {
    /// Calls for so many keys, which share a prefix.
    pub fn new(seed: u64, config: BlockHandlerConfig, keys: usize) -> Self {
        let mut random = Random(seed);
        let prefix = random.up_to(62);
        let key = |i: usize| {
            let mut key = vec![b'k'; prefix];
            key.extend(if i < 26 { vec![b'a' + i as u8] } else { vec![b'a', i as u8] });
            key
        };
        let keys = (0..keys).map(key).collect();
        let pool = (0..65_536 + POOL).map(|_| random.next() as u8).collect();
        Self { random, config, keys, pool }
    }

    pub fn request<'a>(&'a self, call: &'a Call) -> Option<Request<'a>> {
        let What::Request { block1, block2, payload } = &call.what else { return None };
        Some(Request {
            time: call.time,
            key: self.key(call.key),
            bare: call.bare,
            block1: block1.as_ref().map(OptionBytes::bytes),
            block2: block2.as_ref().map(OptionBytes::bytes),
            payload: self.bytes(*payload),
        })
    }

    pub fn response<'a>(&'a self, call: &'a Call) -> Option<Response<'a>> {
        let What::Response { own_block2, head, payload } = call.what else { return None };
        Some(Response {
            time: call.time,
            key: self.key(call.key),
            bare: call.bare,
            own_block2,
            head: self.bytes((payload.0 / 2, head)),
            payload: self.bytes(payload),
        })
    }

    /// Past the keys that are in limits stand an empty one and one of 65 bytes.
    fn key(&self, i: usize) -> &[u8] {
        match self.keys.get(i) {
            Some(key) => key,
            None if i == self.keys.len() => &[],
            None => &self.pool[..65],
        }
    }

    fn bytes(&self, (at, len): (usize, usize)) -> &[u8] {
        &self.pool[at..at + len]
    }

    /// The calls that follow are for a handler of this mode.
    pub fn turn(&mut self, mode: Mode) {
        self.config.mode = mode;
    }

    /// The next call, for a table as it stands.
    pub fn next(&mut self, table: &Table) -> Call {
        let odd = self.random.below(400) == 0;
        let keys = self.keys.len() as u64 + if odd { 2 } else { 0 };
        let key = self.random.below(keys) as usize;
        let state = self.state(table, key);
        let (bare, what) = if self.random.percent(25) {
            (self.response_bare(state), self.some_response(state))
        } else {
            let bare = self.bare();
            (bare, self.some_request(state, bare))
        };
        Call { time: self.time(table.clock), key, bare, what }
    }

    pub fn state(&self, table: &Table, key: usize) -> BlockState {
        self.entry(table, key).map_or_else(BlockState::default, |e| e.state)
    }

    /// What the call meets of its key's upload: nothing where the lifetime is over.
    pub fn met(&self, table: &Table, call: &Call) -> Assembled {
        let lifetime = self.config.cache_expiry_duration.as_millis();
        let live = |e: &&Entry| u128::from(call.time.saturating_sub(e.touched)) < lifetime;
        self.entry(table, call.key).filter(live).map_or_else(Assembled::default, |e| e.state.assembled)
    }

    fn entry<'a>(&self, table: &'a Table, key: usize) -> Option<&'a Entry> {
        let key = self.key(key);
        table.entries.iter().find(|e| e.used && e.key.bytes.get(..usize::from(e.key.len)) == Some(key))
    }

    /// Mostly soon after the clock, at times late enough for a lifetime to end, and at times too early.
    fn time(&mut self, clock: u64) -> u64 {
        let lifetime = self.config.cache_expiry_duration.as_millis() as u64;
        match self.random.below(1000) {
            0 => clock.saturating_sub(1 + self.random.below(3)),
            1..=2 => clock.saturating_add(lifetime - 1 + self.random.below(3)),
            3..=9 => clock.saturating_add(self.random.below(lifetime)),
            _ => clock.saturating_add(self.random.below(lifetime / 64 + 2)),
        }
    }

    /// Mostly with room for a block, at times with just none, and at times off the limits.
    fn bare(&mut self) -> usize {
        let t = self.config.max_total_message_size;
        match self.random.below(100) {
            0 => 65_535 + self.random.up_to(1),
            1..=5 => t.saturating_sub(12).saturating_sub(self.random.up_to(2)) + self.random.up_to(1),
            6..=20 => self.random.up_to(t),
            _ => self.random.up_to(t / 4),
        }
    }

    /// At times with such a room that the num of the block made is just the last one or just above it.
    fn response_bare(&mut self, state: BlockState) -> usize {
        let asked = u64::from(state.recorded.num) << (state.recorded.exponent % 8 + 4);
        let room = (asked / (last_num(self.config.mode) + 1)) as usize + self.random.up_to(1);
        match self.config.max_total_message_size.checked_sub(12 + room) {
            Some(bare) if room > 0 && self.random.percent(50) => bare,
            _ => self.bare(),
        }
    }

    fn part(&mut self, len: usize) -> (usize, usize) {
        (self.random.up_to(POOL - 1), len)
    }

    fn some_request(&mut self, state: BlockState, bare: usize) -> What {
        let (block1, len) = match self.random.below(100) {
            0..=49 => self.next_block(state.assembled),
            50..=59 => self.resized_block(state.assembled),
            60..=72 => self.odd_block(state, bare),
            _ => (None, self.length(self.config.max_total_message_size / 2)),
        };
        let block2 = if self.random.percent(30) { Some(self.some_block2(state)) } else { None };
        let (block1, block2) = (block1.map(|b| self.some_width(b)), block2.map(|b| self.some_width(b)));
        What::Request { block1, block2, payload: self.part(len) }
    }

    /// Mostly the shortest form, at times with zeros before it, in up to four bytes.
    fn some_width(&mut self, option: OptionBytes) -> OptionBytes {
        if self.random.percent(6) {
            option.widened(2 + self.random.up_to(2))
        } else {
            option
        }
    }

    /// A num at which the option gets longer or ends, or one for which, in this room, the num of the reply is just the last one or just
    /// above it.
    fn edge_num(&mut self, exponent: u8, room: u64) -> u64 {
        if self.random.percent(50) {
            return self.random.one_of(&[4095, 4096, 65_535, 65_536, 1_048_575, 1_048_576]);
        }
        let size = 16 << exponent;
        let first_above = ((last_num(self.config.mode) + 1) * room.min(size)).div_ceil(size);
        first_above.saturating_sub(self.random.below(2))
    }

    /// A length up to that, with the ends more often than the rest, and at times one off the limits.
    fn length(&mut self, most: usize) -> usize {
        match self.random.below(400) {
            0 => 65_535 + self.random.up_to(1),
            1..=40 => 0,
            41..=80 => most,
            _ => self.random.up_to(most),
        }
    }

    /// The block that goes on with the assembly, or block 0: full if more follow, and no longer if it is the last.
    fn next_block(&mut self, met: Assembled) -> (Option<OptionBytes>, usize) {
        let anew = met.len == 0 || self.random.percent(3);
        let most = self.config.max_upload.max(16).ilog2().min(10) - 4;
        let exponent = if anew { self.random.up_to(most as usize) as u8 } else { met.exponent };
        let num = if anew { 0 } else { u64::from(met.len) >> (exponent + 4) };
        self.full_or_last(met, num, exponent)
    }

    fn full_or_last(&mut self, met: Assembled, num: u64, exponent: u8) -> (Option<OptionBytes>, usize) {
        let size = 16 << exponent;
        // The last block comes where the piece is nearly full, and at times a block too many.
        let room = u64::from(met.len) + 2 * size <= self.config.max_upload as u64;
        let more = self.random.percent(if room { 85 } else { 10 });
        let len = if more { size as usize } else { self.random.up_to(size as usize) };
        (Some(OptionBytes::of(num, more, exponent)), len)
    }

    /// A block of another size than the last one's, where the assembly ends, with its num rescaled. More are smaller than larger. At times
    /// the sender counts on from the last block's num, or is a block off; at times it ends with an empty block.
    fn resized_block(&mut self, met: Assembled) -> (Option<OptionBytes>, usize) {
        // Blocks of this exponent and of smaller ones can start there.
        let most = met.len.trailing_zeros().saturating_sub(4).min(6) as u8;
        let exponents = if self.random.percent(60) { 0..met.exponent } else { met.exponent + 1..most + 1 };
        if met.len == 0 || exponents.is_empty() {
            return self.next_block(met);
        }
        let exponent = exponents.start + self.random.below(exponents.len() as u64) as u8;
        let end = u64::from(met.len) >> (exponent + 4);
        let num = match self.random.below(12) {
            0..=1 => u64::from(met.len) >> (met.exponent + 4),
            2 => end + 1,
            3 => end.saturating_sub(1),
            _ => end,
        };
        if self.random.percent(4) {
            return (Some(OptionBytes::of(num, false, exponent)), 0);
        }
        self.full_or_last(met, num, exponent)
    }

    fn odd_block(&mut self, state: BlockState, bare: usize) -> (Option<OptionBytes>, usize) {
        let exponent = self.random.below(8) as u8;
        let near = u64::from(state.assembled.len) >> (exponent + 4);
        let num = match self.random.below(10) {
            0 => self.random.below(4096),
            1 => (16_384 >> (exponent + 4)) + near + self.random.below(2) - 1,
            2 => self.edge_num(exponent, self.config.max_total_message_size.saturating_sub(12 + bare) as u64),
            _ => self.random.below(near + 3),
        };
        let len = self.length((16 << exponent) + 2);
        (Some(OptionBytes::of(num, self.random.percent(60), exponent)), len)
    }

    /// A chunk of the cached response, or one past its end, or any.
    fn some_block2(&mut self, state: BlockState) -> OptionBytes {
        let edge = self.random.percent(4);
        let exponent = if edge || self.random.percent(10) { self.random.below(8) } else { self.random.below(3) } as u8;
        let chunks = u64::from(state.cached.payload) >> (exponent + 4);
        let num = match self.random.below(100) {
            _ if edge => self.edge_block2(exponent),
            0 => self.random.below(70_000),
            1 => self.random.below(1_048_576),
            _ => self.random.below(chunks + 2),
        };
        OptionBytes::of(num, self.random.percent(10), exponent)
    }

    /// The room is that of a response to come: one in which a num that can be read is too large for the reply.
    fn edge_block2(&mut self, exponent: u8) -> u64 {
        let most = if self.config.mode == Mode::Strict { 16 << exponent } else { 1 << exponent };
        let room = 1 + self.random.below(most);
        self.edge_num(exponent, room)
    }

    fn some_response(&mut self, state: BlockState) -> What {
        let head = if self.random.percent(1) { 127 + self.random.up_to(2) } else { self.random.up_to(20) };
        let asked = state.recorded.num as usize * (16 << (state.recorded.exponent % 8));
        let most = self.config.max_response.max(asked.min(2048)) + 16;
        let len = self.length(most).min(65_536);
        What::Response { own_block2: self.random.percent(5), head, payload: self.part(len) }
    }
}
