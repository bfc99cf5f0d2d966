//! Document 01 once more, with what document 02 adds on longer lists and on senders that go smaller, in plain Rust and from their text
//! alone. Document 01's sections are the headings below. It shares with the crate the form of the table and of the answers, and no rule.

use crate::ffi::{Assembled, Block, BlockState, Cached, Config, Entry, Key, Table};
use crate::{BlockValue, Mode, Refusal, Request, RequestAnswer, Response, ResponseAnswer};

const OPTIONS: u64 = 12;
const JUMP: u64 = 16_384;

#[derive(Debug, Clone)]
pub struct Model {
    pub config: Config,
    pub table: Table,
    pub upload: Vec<u8>,
    pub response: Vec<u8>,
}

// Block value

/// The largest num that is made: in strict mode 1,048,575 instead of 65,535.
pub fn last_num(mode: Mode) -> u64 {
    if mode == Mode::Strict {
        1_048_575
    } else {
        65_535
    }
}

/// How many bytes an option may have: in strict mode 3, and plain mode keeps two.
fn option_bytes(mode: Mode) -> usize {
    if mode == Mode::Strict {
        3
    } else {
        2
    }
}

pub fn make(mode: Mode, num: u64, more: bool, size: u64) -> Option<BlockValue> {
    let exponent = size.checked_ilog2()?.saturating_sub(4);
    (exponent <= 7 && num <= last_num(mode)).then_some(BlockValue { num: num as u32, more, size_exponent: exponent as u8 })
}

pub fn size(block: BlockValue) -> u64 {
    1 << (block.size_exponent + 4)
}

pub fn start(block: BlockValue) -> u64 {
    u64::from(block.num) * size(block)
}

/// Unreadable counts as absent.
pub fn read(mode: Mode, option: Option<&[u8]>) -> Option<BlockValue> {
    let option = option.filter(|bytes| bytes.len() <= option_bytes(mode))?;
    let n = option.iter().fold(0, |n, &byte| n * 256 + u32::from(byte));
    Some(BlockValue { num: n / 16, more: n / 8 % 2 == 1, size_exponent: (n % 8) as u8 })
}

/// The shortest form. The num is taken modulo 4096, and in strict mode modulo 1,048,576, so that it fits in the option's bytes.
pub fn write(mode: Mode, block: BlockValue) -> Vec<u8> {
    let nums = 256_u32.pow(option_bytes(mode) as u32) / 16;
    let mut n = block.num % nums * 16 + if block.more { 8 } else { 0 } + u32::from(block.size_exponent);
    let mut bytes = Vec::new();
    while n > 0 {
        bytes.insert(0, (n % 256) as u8);
        n /= 256;
    }
    bytes
}

// Negotiation

fn negotiate(config: &Config, block: Option<BlockValue>, bare: usize, p: u64) -> Result<Option<BlockValue>, Refusal> {
    let (mode, bare, t) = (config.mode(), bare as u64, config.limit as u64);
    if bare + OPTIONS > t {
        return Err(Refusal::TooLargeToEncode);
    }
    let m = t - bare - OPTIONS;
    let made = match block {
        None if p < m => return Ok(None),
        None => make(mode, 0, true, m),
        Some(k) => match size(k).min(m) {
            0 => None,
            g => make(mode, start(k) / g, start(k) + g < p, g),
        },
    };
    made.map(Some).ok_or(Refusal::NoBlockValue)
}

// Chunk

/// The bounds of the chunk, and the value that goes with it.
fn chunk(n: u64, asked: BlockValue) -> Result<(usize, usize, BlockValue), Refusal> {
    let (from, s) = (start(asked), size(asked));
    if from >= n {
        return Err(Refusal::PastTheEnd);
    }
    let more = (u64::from(asked.num) + 1) * s < n;
    Ok((from as usize, (from + s).min(n) as usize, BlockValue { more, ..asked }))
}

// Table and clock

const FREE: Entry = Entry {
    key: Key { bytes: [0; 64], len: 0 },
    used: false,
    touched: 0,
    state: BlockState {
        assembled: Assembled { len: 0, exponent: 0 },
        cached: Cached { held: false, head: 0, payload: 0 },
        recorded: Block { given: false, more: false, exponent: 0, num: 0 },
    },
};

fn stored_key(entry: &Entry) -> &[u8] {
    &entry.key.bytes[..usize::from(entry.key.len).min(64)]
}

fn live(entry: &Entry, time: u64, lifetime: u64) -> bool {
    entry.used && time - entry.touched < lifetime
}

/// The bytes held: over entries in use, assembled length plus head and payload length of a cached response. An expired entry is in use
/// until a call frees it.
pub fn held(entries: &[Entry; 16]) -> u64 {
    let in_use = entries.iter().filter(|e| e.used);
    let cached = |c: Cached| if c.held { u64::from(c.head) + u64::from(c.payload) } else { 0 };
    in_use.map(|e| u64::from(e.state.assembled.len) + cached(e.state.cached)).sum()
}

fn recorded(state: &BlockState) -> Option<BlockValue> {
    let r = state.recorded;
    r.given.then_some(BlockValue { num: r.num, more: r.more, size_exponent: r.exponent })
}

fn recording(block: Option<BlockValue>) -> Block {
    match block {
        Some(b) => Block { given: true, more: b.more, exponent: b.size_exponent, num: b.num },
        None => Block::default(),
    }
}

impl Model {
    fn config_in_limits(&self) -> bool {
        let c = &self.config;
        (1..=65_535).contains(&c.limit)
            && (1..=4_294_967_295).contains(&c.lifetime)
            && (16..=16_777_216).contains(&c.upload)
            && (16..=65_536).contains(&c.response)
            && self.upload.len() == 16 * c.upload
            && self.response.len() == 16 * c.response
    }

    fn entry_in_limits(&self, e: &Entry) -> bool {
        let Entry { key, used, touched, state: BlockState { assembled, cached, recorded } } = *e;
        if !used {
            return *e == FREE;
        }
        let cached_ok = match cached.held {
            true => cached.head <= 128 && usize::from(cached.head) + cached.payload as usize <= self.config.response,
            false => cached == Cached::default(),
        };
        let recorded_ok = match recorded.given {
            true => recorded.num <= 1_048_575 && recorded.exponent <= 7,
            false => recorded == Block::default(),
        };
        (1..=64).contains(&key.len)
            && touched <= self.table.clock
            && assembled.len as usize <= self.config.upload
            && assembled.exponent <= 7
            && (assembled.len > 0 || assembled.exponent == 0)
            && cached_ok
            && recorded_ok
    }

    fn table_in_limits(&self) -> bool {
        let entries = &self.table.entries;
        let used = |i: &usize| entries[*i].used;
        let twice = |i: usize| (0..i).filter(used).any(|j| stored_key(&entries[i]) == stored_key(&entries[j]));
        entries.iter().all(|e| self.entry_in_limits(e)) && !(0..16).filter(used).any(twice) && self.table.held == held(entries)
    }

    /// Checks 1 to 3, and the touch: the index of the key's entry.
    fn place(&mut self, time: u64, key: &[u8], bare: usize, head: usize, payload: usize) -> Result<usize, Refusal> {
        let message = (1..=64).contains(&key.len()) && bare <= 65_535 && head <= 128 && payload <= 65_535;
        if !(message && self.config_in_limits() && self.table_in_limits()) {
            return Err(Refusal::OffLimits);
        }
        if time < self.table.clock {
            return Err(Refusal::ClockBack);
        }
        let lifetime = self.config.lifetime;
        let entries = &mut self.table.entries;
        let found = entries.iter().position(|e| live(e, time, lifetime) && stored_key(e) == key);
        let i = found.or_else(|| entries.iter().position(|e| !live(e, time, lifetime))).ok_or(Refusal::TableFull)?;

        self.table.clock = time;
        entries.iter_mut().filter(|e| !live(e, time, lifetime)).for_each(|e| *e = FREE);
        let e = &mut entries[i];
        if !e.used {
            e.used = true;
            e.key.bytes[..key.len()].copy_from_slice(key);
            e.key.len = key.len() as u8;
        }
        e.touched = time;
        Ok(i)
    }

    /// A call that passes checks 1 to 3 changes its key's state and a piece. Then the bytes held are counted anew, whatever it answers.
    pub fn intercept_request<'a>(&'a mut self, request: &Request<'a>) -> Result<RequestAnswer<'a>, Refusal> {
        let i = self.place(request.time, request.key, request.bare, 0, request.payload.len())?;
        let Self { config, table, upload, response } = self;
        let (upload, response) = (&mut upload[i * config.upload..], &response[i * config.response..]);
        let answer = answer_request(config, &mut table.entries[i].state, upload, response, request);
        table.held = held(&table.entries);
        answer
    }

    pub fn intercept_response<'a>(&mut self, response: &Response<'a>) -> Result<ResponseAnswer<'a>, Refusal> {
        let i = self.place(response.time, response.key, response.bare, response.head.len(), response.payload.len())?;
        let Self { config, table, response: memory, .. } = self;
        let answer = answer_response(config, &mut table.entries[i].state, &mut memory[i * config.response..], response);
        table.held = held(&table.entries);
        answer
    }
}

// A request call

fn answer_request<'a>(
    config: &Config,
    state: &mut BlockState,
    upload: &'a mut [u8],
    response: &'a [u8],
    request: &Request<'a>,
) -> Result<RequestAnswer<'a>, Refusal> {
    let Request { bare, payload, .. } = *request;
    let (block1, block2) = (read(config.mode(), request.block1), read(config.mode(), request.block2));
    let reply = negotiate(config, block1, bare, payload.len() as u64)?;

    let mut completed = None;
    match (block1, reply) {
        (Some(block), Some(reply)) => {
            let length = splice(config, &mut state.assembled, upload, block, payload)?;
            if block.more {
                return Ok(RequestAnswer::Continue { block1: reply });
            }
            state.assembled = Assembled::default();
            completed = Some((reply, length));
        }
        (_, Some(reply)) => return Ok(RequestAnswer::TooLarge { block1: reply }),
        (_, None) => {}
    }

    state.recorded = recording(block2);
    if let (Some(block), true) = (block2, state.cached.held) {
        return serve(&mut state.cached, response, block, completed.map(|(reply, _)| reply));
    }
    Ok(match completed {
        Some((block1, length)) => RequestAnswer::Handed { block1, body: &upload[..length] },
        None => RequestAnswer::Pass { body: payload },
    })
}

fn serve<'a>(cached: &mut Cached, piece: &'a [u8], block: BlockValue, block1: Option<BlockValue>) -> Result<RequestAnswer<'a>, Refusal> {
    let Cached { head, payload, .. } = *cached;
    let (from, to, block2) = chunk(payload.into(), block)?;
    if !block2.more {
        *cached = Cached::default();
    }
    let (head, chunks) = piece.split_at(head.into());
    Ok(RequestAnswer::Served { block1, block2, head, chunk: &chunks[from..to] })
}

// Splice, after strict mode's own checks

/// Puts the payload into the key's piece and gives the assembled length.
fn splice(config: &Config, assembled: &mut Assembled, piece: &mut [u8], block: BlockValue, payload: &[u8]) -> Result<usize, Refusal> {
    let (a, s, p) = (start(block), size(block), payload.len() as u64);
    let mut length = u64::from(assembled.len);
    if config.strict {
        if block.size_exponent == 7 || p > s || (block.more && p != s) {
            return Err(Refusal::BadForm);
        }
        if block.num == 0 {
            length = 0;
        } else if a != length || block.size_exponent > assembled.exponent {
            // A wrong start or a rising exponent.
            return Err(Refusal::NotNext);
        }
    }
    let e = a + s;
    if e > length + JUMP {
        return Err(Refusal::Jump);
    }
    let new = length.max(e) - s + p;
    if new > config.upload as u64 {
        return Err(Refusal::NoRoom);
    }
    let mut body = piece[..length as usize].to_vec();
    let tail = body.split_off(e.min(length) as usize);
    body.resize(a as usize, 0);
    body.extend_from_slice(payload);
    body.extend_from_slice(&tail);
    piece[..body.len()].copy_from_slice(&body);

    let exponent = if new == 0 { 0 } else { block.size_exponent };
    *assembled = Assembled { len: new as u32, exponent };
    Ok(body.len())
}

// A response call

fn answer_response<'a>(
    config: &Config,
    state: &mut BlockState,
    piece: &mut [u8],
    response: &Response<'a>,
) -> Result<ResponseAnswer<'a>, Refusal> {
    let Response { bare, own_block2, head, payload, .. } = *response;
    if own_block2 {
        return Ok(ResponseAnswer::Plain);
    }
    let n = payload.len() as u64;
    let Some(block) = negotiate(config, recorded(state), bare, n)? else {
        return Ok(ResponseAnswer::Plain);
    };
    let (from, to, block2) = chunk(n, block)?;
    let chunk = &payload[from..to];
    if !block2.more {
        return Ok(ResponseAnswer::Whole { block2, chunk });
    }
    if head.len() + payload.len() > config.response {
        return Err(Refusal::NoRoom);
    }
    piece[..head.len()].copy_from_slice(head);
    piece[head.len()..head.len() + payload.len()].copy_from_slice(payload);
    state.cached = Cached { held: true, head: head.len() as u8, payload: n as u32 };
    Ok(ResponseAnswer::First { block2, chunk })
}
