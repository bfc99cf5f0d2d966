//! The boundary to the static libraries: their structs and functions as the headers in include/ declare them, and one safe function
//! for each. All `unsafe` of the crate is here.

use crate::{BlockHandlerConfig, BlockValue, Draft, Mode, Refusal, Request, Response};

#[repr(C)]
#[derive(Debug, Clone, Copy, PartialEq, Eq)]
pub struct Config {
    pub strict: bool,
    pub limit: usize,
    pub lifetime: u64,
    pub upload: usize,
    pub response: usize,
}

#[repr(C)]
#[derive(Debug, Clone, Copy, PartialEq, Eq)]
pub struct Key {
    pub bytes: [u8; 64],
    pub len: u8,
}

#[repr(C)]
#[derive(Debug, Clone, Copy, PartialEq, Eq, Default)]
pub struct Assembled {
    pub len: u32,
    pub exponent: u8,
}

#[repr(C)]
#[derive(Debug, Clone, Copy, PartialEq, Eq, Default)]
pub struct Cached {
    pub held: bool,
    pub head: u8,
    pub payload: u32,
}

/// A block value, or none: then all of it is 0.
#[repr(C)]
#[derive(Debug, Clone, Copy, PartialEq, Eq, Default)]
pub struct Block {
    pub given: bool,
    pub more: bool,
    pub exponent: u8,
    pub num: u32,
}

#[repr(C)]
#[derive(Debug, Clone, Copy, PartialEq, Eq, Default)]
pub struct BlockState {
    pub assembled: Assembled,
    pub cached: Cached,
    pub recorded: Block,
}

#[repr(C)]
#[derive(Debug, Clone, Copy, PartialEq, Eq)]
pub struct Entry {
    pub key: Key,
    pub used: bool,
    pub touched: u64,
    pub state: BlockState,
}

#[repr(C)]
#[derive(Debug, Clone, Copy, PartialEq, Eq)]
pub struct Table {
    pub clock: u64,
    /// The bytes held, which the calls keep: over the entries in use, what is assembled, and head and payload of a cached response.
    pub held: u64,
    pub entries: [Entry; 16],
}

/// The bytes from..to.
#[repr(C)]
#[derive(Debug, Clone, Copy, PartialEq, Eq)]
pub struct Part {
    pub from: usize,
    pub to: usize,
}

/// The kinds of a reply; any other is a refusal.
pub const CONTINUE: u8 = 1;
pub const TOO_LARGE: u8 = 2;
pub const HANDED: u8 = 3;
pub const PASS: u8 = 4;
pub const SERVED: u8 = 5;
pub const PLAIN: u8 = 6;
pub const WHOLE: u8 = 7;
pub const FIRST: u8 = 8;

/// An answer in numbers.
#[repr(C)]
#[derive(Debug, Clone, Copy)]
pub struct Reply {
    pub kind: u8,
    refusal: u8,
    /// The response code, which the answers and refusals of this crate know, too.
    #[allow(dead_code)]
    code: u8,
    pub block1: Block,
    pub block2: Block,
    /// Of the upload memory after Handed, of the response memory after Served, of the payload after Whole and First.
    pub part: Part,
    /// Of the response memory after Served.
    pub head: Part,
}

#[repr(C)]
struct OptionBytes {
    len: usize,
    bytes: [u8; 3],
}

/// A message that was read, in numbers; or a refusal, and then all else is 0.
#[repr(C)]
#[derive(Debug, Clone, Copy, PartialEq, Eq)]
pub struct ReadMessage {
    pub refusal: u8,
    pub message_type: u8,
    pub code: u8,
    pub message_id: u16,
    pub bare: usize,
    pub token: Part,
    pub options: Part,
    pub payload: Part,
}

/// What stands where an option may begin.
#[repr(C)]
#[derive(Debug, Clone, Copy, PartialEq, Eq)]
pub struct OptionAt {
    /// 1 for an option.
    kind: u8,
    number: u16,
    value: Part,
}

#[repr(C)]
#[derive(Debug, Clone, Copy, PartialEq, Eq)]
pub struct Written {
    pub refusal: u8,
    pub len: usize,
}

extern "C" {
    fn block_handler_fresh() -> Table;
    fn block_handler_bytes_held(table: *const Table) -> u64;
    fn block_handler_read(strict: bool, option: *const u8, option_len: usize) -> Block;
    fn block_handler_write(strict: bool, num: u32, more: bool, exponent: u8) -> OptionBytes;
    fn block_handler_request(
        table: *mut Table,
        config: Config,
        upload: *mut u8,
        upload_len: usize,
        response: *const u8,
        response_len: usize,
        time: u64,
        key: *const u8,
        key_len: usize,
        bare: usize,
        given1: bool,
        block1: *const u8,
        block1_len: usize,
        given2: bool,
        block2: *const u8,
        block2_len: usize,
        payload: *const u8,
        payload_len: usize,
    ) -> Reply;
    fn block_handler_response(
        table: *mut Table,
        config: Config,
        upload: *const u8,
        upload_len: usize,
        response: *mut u8,
        response_len: usize,
        time: u64,
        key: *const u8,
        key_len: usize,
        bare: usize,
        own: bool,
        head: *const u8,
        head_len: usize,
        payload: *const u8,
        payload_len: usize,
    ) -> Reply;
    fn block_handler_message_read(message: *const u8, message_len: usize) -> ReadMessage;
    fn block_handler_next_option(message: *const u8, message_len: usize, at: usize, before: u16) -> OptionAt;
    fn block_handler_nth_option(message: *const u8, message_len: usize, options: usize, number: u16, n: usize) -> OptionAt;
    fn block_handler_message_write(
        out: *mut u8,
        out_len: usize,
        message_type: u8,
        code: u8,
        message_id: u16,
        token: *const u8,
        token_len: usize,
        numbers: *const u32,
        numbers_len: usize,
        lengths: *const u32,
        lengths_len: usize,
        values: *const u8,
        values_len: usize,
        payload: *const u8,
        payload_len: usize,
    ) -> Written;
    fn block_handler_option_length(number: u16, len: usize) -> u8;
}

/// An empty table with clock 0.
pub fn fresh() -> Table {
    // SAFETY: it takes nothing and returns a struct of numbers, declared here with the layout that the tests below check.
    unsafe { block_handler_fresh() }
}

/// The bytes that the table holds: its figure, whatever else stands there.
pub fn bytes_held(table: &Table) -> u64 {
    // SAFETY: the pointer is that of a table which is borrowed and only read. Every bool of it is a Rust bool, its numbers may be any, and
    // the library keeps no pointer.
    unsafe { block_handler_bytes_held(table) }
}

/// Reads an option; none if it has more bytes than the mode's options have.
pub fn read(mode: Mode, option: &[u8]) -> Option<BlockValue> {
    // SAFETY: pointer and length are those of one slice, which is only read; the library keeps no pointer.
    unsafe { block_handler_read(mode == Mode::Strict, option.as_ptr(), option.len()) }.value()
}

/// The option of a value in the fewest bytes: how many, and the bytes.
pub fn write(mode: Mode, block: BlockValue) -> (usize, [u8; 3]) {
    // SAFETY: numbers go in and a struct of numbers comes out.
    let option = unsafe { block_handler_write(mode == Mode::Strict, block.num, block.more, block.size_exponent) };
    (option.len, option.bytes)
}

/// A request call. It changes the table and the key's piece of the upload memory.
pub fn request(table: &mut Table, config: Config, upload: &mut [u8], response: &[u8], request: &Request) -> Reply {
    let Request { time, key, bare, block1, block2, payload } = *request;
    let (given1, block1) = (block1.is_some(), block1.unwrap_or_default());
    let (given2, block2) = (block2.is_some(), block2.unwrap_or_default());
    // SAFETY: each pointer and the length after it are those of one slice, never null. The table and the upload memory are borrowed
    // exclusively, so they overlap nothing; the rest is only read. Every bool of the table is a Rust bool. Any numbers and lengths may
    // be passed, and the library keeps no pointer.
    unsafe {
        block_handler_request(
            table,
            config,
            upload.as_mut_ptr(),
            upload.len(),
            response.as_ptr(),
            response.len(),
            time,
            key.as_ptr(),
            key.len(),
            bare,
            given1,
            block1.as_ptr(),
            block1.len(),
            given2,
            block2.as_ptr(),
            block2.len(),
            payload.as_ptr(),
            payload.len(),
        )
    }
}

/// A response call. It changes the table and the key's piece of the response memory.
pub fn response(table: &mut Table, config: Config, upload: &[u8], memory: &mut [u8], response: &Response) -> Reply {
    let Response { time, key, bare, own_block2, head, payload } = *response;
    // SAFETY: as in `request`, with the response memory borrowed exclusively in the place of the upload memory.
    unsafe {
        block_handler_response(
            table,
            config,
            upload.as_ptr(),
            upload.len(),
            memory.as_mut_ptr(),
            memory.len(),
            time,
            key.as_ptr(),
            key.len(),
            bare,
            own_block2,
            head.as_ptr(),
            head.len(),
            payload.as_ptr(),
            payload.len(),
        )
    }
}

/// Reads a message.
pub fn message_read(message: &[u8]) -> ReadMessage {
    // SAFETY: pointer and length are those of one slice, which is only read; the library keeps no pointer.
    unsafe { block_handler_message_read(message.as_ptr(), message.len()) }
}

/// What stands at an index of a message, after an option of the number `before`.
pub fn next_option(message: &[u8], at: usize, before: u16) -> OptionAt {
    // SAFETY: as in `message_read`. Any index and number may be passed.
    unsafe { block_handler_next_option(message.as_ptr(), message.len(), at, before) }
}

/// The n-th option of a number, of a message whose options begin at `options`.
pub fn nth_option(message: &[u8], options: usize, number: u16, n: usize) -> OptionAt {
    // SAFETY: as in `message_read`. Any index and numbers may be passed.
    unsafe { block_handler_nth_option(message.as_ptr(), message.len(), options, number, n) }
}

/// Writes a message to the start of `out`.
pub fn message_write(out: &mut [u8], draft: &Draft) -> Written {
    let Draft { message_type, code, message_id, token, numbers, lengths, values, payload } = *draft;
    // SAFETY: each pointer and the length after it are those of one slice, never null. `out` is borrowed exclusively, so it overlaps
    // nothing; the rest is only read. Any numbers and lengths may be passed, and the library keeps no pointer.
    unsafe {
        block_handler_message_write(
            out.as_mut_ptr(),
            out.len(),
            message_type as u8,
            code,
            message_id,
            token.as_ptr(),
            token.len(),
            numbers.as_ptr(),
            numbers.len(),
            lengths.as_ptr(),
            lengths.len(),
            values.as_ptr(),
            values.len(),
            payload.as_ptr(),
            payload.len(),
        )
    }
}

/// 0 if the table has no such option, 1 if its value may have this length, 2 if not.
pub fn option_length(number: u16, len: usize) -> u8 {
    // SAFETY: numbers go in and a number comes out.
    unsafe { block_handler_option_length(number, len) }
}

impl From<BlockHandlerConfig> for Config {
    /// A duration that has no count of milliseconds in 64 bits is off the limits, and so is what stands for it.
    fn from(config: BlockHandlerConfig) -> Self {
        Self {
            strict: config.mode == Mode::Strict,
            limit: config.max_total_message_size,
            lifetime: config.cache_expiry_duration.as_millis().try_into().unwrap_or(u64::MAX),
            upload: config.max_upload,
            response: config.max_response,
        }
    }
}

impl Config {
    pub fn mode(&self) -> Mode {
        if self.strict {
            Mode::Strict
        } else {
            Mode::Plain
        }
    }
}

/// The value, given or not.
impl From<Block> for BlockValue {
    fn from(block: Block) -> Self {
        Self { num: block.num, more: block.more, size_exponent: block.exponent }
    }
}

impl Block {
    pub fn value(self) -> Option<BlockValue> {
        self.given.then(|| self.into())
    }
}

impl OptionAt {
    /// The number, and where the value stands, of an option that is there.
    pub fn option(self) -> Option<(u16, Part)> {
        (self.kind == 1).then_some((self.number, self.value))
    }
}

impl Part {
    /// The part of a memory; empty if it isn't there.
    pub fn of(self, memory: &[u8]) -> &[u8] {
        memory.get(self.from..self.to).unwrap_or_default()
    }
}

impl Reply {
    /// The refusal of a reply that is one.
    pub fn refusal(&self) -> Refusal {
        Refusal::from_number(self.refusal).expect("the library's contract: a refusal has a number from 1 to 10")
    }
}

#[cfg(test)]
mod tests {
    use std::mem::{offset_of, size_of};

    use super::*;
    use crate::refusal;

    /// The sizes and offsets that the headers assert, too.
    #[test]
    fn layout() {
        assert_eq!([size_of::<bool>(), size_of::<usize>()], [1, 8]);
        assert_eq!(size_of::<Config>(), 40);
        let config = [offset_of!(Config, strict), offset_of!(Config, limit), offset_of!(Config, lifetime), offset_of!(Config, upload)];
        assert_eq!((config, offset_of!(Config, response)), ([0, 8, 16, 24], 32));
        assert_eq!([size_of::<Key>(), offset_of!(Key, bytes), offset_of!(Key, len)], [65, 0, 64]);
        assert_eq!([size_of::<Assembled>(), offset_of!(Assembled, len), offset_of!(Assembled, exponent)], [8, 0, 4]);
        let cached = [offset_of!(Cached, held), offset_of!(Cached, head), offset_of!(Cached, payload)];
        assert_eq!((size_of::<Cached>(), cached), (8, [0, 1, 4]));
        let block = [offset_of!(Block, given), offset_of!(Block, more), offset_of!(Block, exponent), offset_of!(Block, num)];
        assert_eq!((size_of::<Block>(), block), (8, [0, 1, 2, 4]));
        let state = [offset_of!(BlockState, assembled), offset_of!(BlockState, cached), offset_of!(BlockState, recorded)];
        assert_eq!((size_of::<BlockState>(), state), (24, [0, 8, 16]));
        let entry = [offset_of!(Entry, key), offset_of!(Entry, used), offset_of!(Entry, touched), offset_of!(Entry, state)];
        assert_eq!((size_of::<Entry>(), entry), (104, [0, 65, 72, 80]));
        let table = [offset_of!(Table, clock), offset_of!(Table, held), offset_of!(Table, entries)];
        assert_eq!((size_of::<Table>(), table), (1680, [0, 8, 16]));
        let reply = [offset_of!(Reply, kind), offset_of!(Reply, refusal), offset_of!(Reply, code), offset_of!(Reply, block1)];
        let more = [offset_of!(Reply, block2), offset_of!(Reply, part), offset_of!(Reply, head)];
        assert_eq!((size_of::<Reply>(), reply, more), (56, [0, 1, 2, 4], [12, 24, 40]));
        assert_eq!([size_of::<Part>(), offset_of!(Part, from), offset_of!(Part, to)], [16, 0, 8]);
        assert_eq!([size_of::<OptionBytes>(), offset_of!(OptionBytes, len), offset_of!(OptionBytes, bytes)], [16, 0, 8]);
    }

    #[test]
    fn layout_of_messages() {
        let head = [offset_of!(ReadMessage, refusal), offset_of!(ReadMessage, message_type), offset_of!(ReadMessage, code)];
        let numbers = [offset_of!(ReadMessage, message_id), offset_of!(ReadMessage, bare)];
        let parts = [offset_of!(ReadMessage, token), offset_of!(ReadMessage, options), offset_of!(ReadMessage, payload)];
        assert_eq!((size_of::<ReadMessage>(), head, numbers, parts), (64, [0, 1, 2], [4, 8], [16, 32, 48]));
        let option = [offset_of!(OptionAt, kind), offset_of!(OptionAt, number), offset_of!(OptionAt, value)];
        assert_eq!((size_of::<OptionAt>(), option), (24, [0, 2, 8]));
        assert_eq!([size_of::<Written>(), offset_of!(Written, refusal), offset_of!(Written, len)], [16, 0, 8]);
    }

    #[test]
    fn fresh_is_zeros() {
        let key = Key { bytes: [0; 64], len: 0 };
        let free = Entry { key, used: false, touched: 0, state: BlockState::default() };
        assert_eq!(fresh(), Table { clock: 0, held: 0, entries: [free; 16] });
    }

    /// The library's codes are those that the answers and refusals give.
    #[test]
    fn codes() {
        let config = BlockHandlerConfig { max_total_message_size: 64, max_upload: 64, max_response: 64, ..BlockHandlerConfig::default() };
        let (mut table, mut upload, memory) = (fresh(), [0; 1024], [0; 1024]);
        let mut code = |option: Option<&[u8]>, payload: &[u8], bare| {
            let call = Request { key: b"k", block1: option, payload, bare, ..Request::default() };
            let reply = request(&mut table, config.into(), &mut upload, &memory, &call);
            (reply.kind, reply.refusal, reply.code)
        };
        assert_eq!(code(Some(&[0x08]), &[0; 16], 0), (CONTINUE, 0, refusal::CONTINUE));
        assert_eq!(code(None, &[0; 60], 0), (TOO_LARGE, 0, refusal::REQUEST_ENTITY_TOO_LARGE));
        assert_eq!(code(None, &[], 0), (PASS, 0, 0));
        for (option, payload, bare, refusal) in [
            (0x38, &[0; 16][..], 0, Refusal::NotNext),
            (0x08, &[0; 15], 0, Refusal::BadForm),
            (0x08, &[0; 16], 60, Refusal::TooLargeToEncode),
            (0x08, &[0; 16], 65_536, Refusal::OffLimits),
        ] {
            assert_eq!(code(Some(&[option]), payload, bare), (0, refusal.number(), refusal.response_code()));
        }
    }
}
