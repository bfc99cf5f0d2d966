//! Long uploads: more blocks than two bytes of an option can number, up to the last that three can, into the largest piece.

use std::time::{Duration, Instant};

use crate::{BlockHandler, BlockHandlerConfig, BlockValue, Mode, Refusal, Request, RequestAnswer, Response, ResponseAnswer};

/// As many blocks as an option of three bytes can number.
const BLOCKS: u32 = 1_048_576;

/// Short ones, so that some of them are not disturbed by the tests that run beside this one.
const SLICES: u32 = 1024;

/// The list's bytes from a block of 16 on: each depends on its place, so that an exchange would show.
fn block_bytes(num: u32) -> [u8; 16] {
    (u128::from(num) + 1).wrapping_mul(0x9e37_79b9_7f4a_7c15_f39c_c060_5ced_c835).to_be_bytes()
}

/// A list of so many bytes.
pub fn list(len: usize) -> Vec<u8> {
    let mut bytes: Vec<u8> = (0..len.div_ceil(16) as u32).flat_map(block_bytes).collect();
    bytes.truncate(len);
    bytes
}

/// The option as a sender by the RFC writes it.
fn option(num: u32, more: bool, size_exponent: u8) -> Vec<u8> {
    let scalar = num * 16 + u32::from(more) * 8 + u32::from(size_exponent);
    scalar.to_be_bytes().into_iter().skip_while(|&byte| byte == 0).collect()
}

fn handler(mode: Mode, max_upload: usize) -> BlockHandler {
    BlockHandler::new(BlockHandlerConfig { mode, max_upload, ..BlockHandlerConfig::default() })
}

/// A block of the long list, under its own key.
fn request<'a>(time: u64, block1: &'a [u8], payload: &'a [u8]) -> Request<'a> {
    Request { time, key: b"lane 1 PUT /prices", bare: 20, block1: Some(block1), payload, ..Request::default() }
}

/// A block with more to come: it is answered with its own num.
fn taken(handler: &mut BlockHandler, time: u64, num: u32, size_exponent: u8, payload: &[u8]) {
    let block1 = BlockValue { num, more: false, size_exponent };
    let more = option(num, true, size_exponent);
    assert_eq!(handler.intercept_request(&request(time, &more, payload)), Ok(RequestAnswer::Continue { block1 }));
}

/// The last block: the whole list is handed on.
fn handed(handler: &mut BlockHandler, time: u64, num: u32, size_exponent: u8, payload: &[u8], list: &[u8]) {
    let last = option(num, false, size_exponent);
    let RequestAnswer::Handed { block1, body } = handler.intercept_request(&request(time, &last, payload)).expect("it is the next block")
    else {
        panic!("the last block hands the list on");
    };
    assert_eq!((block1, body.len()), (BlockValue { num, more: false, size_exponent }, list.len()));
    assert!(body == list, "what is handed on is the list");
}

/// Three lanes whose calls stand between the blocks of a list in strict mode, at the time of the call before. Each call's answer is known.
#[derive(Default)]
pub struct Others {
    turn: usize,
    refused: u64,
}

impl Others {
    pub fn call(&mut self, handler: &mut BlockHandler, time: u64) {
        let (lane, step) = (self.turn % 3, self.turn / 3);
        self.turn += 1;
        match lane {
            0 => self.push(handler, time, step),
            1 => self.fetch(handler, time, step),
            _ => self.odd(handler, time, step),
        }
    }

    fn refuse(&mut self, answer: Result<RequestAnswer, Refusal>, refusal: Refusal) {
        assert_eq!(answer, Err(refusal));
        self.refused += 1;
    }

    /// Lists of 200 bytes in blocks of 64, each list another; now and then a block is skipped first.
    fn push(&mut self, handler: &mut BlockHandler, time: u64, step: usize) {
        let (num, whole) = (step % 4, vec![(step / 4) as u8; 200]);
        let sent = |num: usize| whole.chunks(64).nth(num).unwrap_or_default();
        let lane = Request { time, key: b"lane 2 PUT /prices", bare: 20, ..Request::default() };
        if step % 7 == 3 {
            let skipped = option(num as u32 + 1, false, 2);
            self.refuse(handler.intercept_request(&Request { block1: Some(&skipped), ..lane }), Refusal::NotNext);
        }
        let block1 = BlockValue { num: num as u32, more: false, size_exponent: 2 };
        let meant = if num < 3 { RequestAnswer::Continue { block1 } } else { RequestAnswer::Handed { block1, body: &whole } };
        let block = Request { block1: Some(&option(num as u32, num < 3, 2)), payload: sent(num), ..lane };
        assert_eq!(handler.intercept_request(&block), Ok(meant));
    }

    /// Pages of 300 bytes, each page another, in chunks of 128. One chunk is asked for that is past the end.
    fn fetch(&mut self, handler: &mut BlockHandler, time: u64, step: usize) {
        let page = vec![(step / 4) as u8; 300];
        let screen = Request { time, key: b"screen 3 GET /offers", bare: 20, ..Request::default() };
        let served = |num: u32, chunk| {
            let block2 = BlockValue { num, more: num < 2, size_exponent: 3 };
            Ok(RequestAnswer::Served { block1: None, block2, head: b"2.05", chunk })
        };
        match step % 4 {
            0 => {
                assert_eq!(handler.intercept_request(&screen), Ok(RequestAnswer::Pass { body: &[] }));
                let response = Response { time, key: screen.key, bare: 1000, head: b"2.05", payload: &page, ..Response::default() };
                let block2 = BlockValue { num: 0, more: true, size_exponent: 3 };
                assert_eq!(handler.intercept_response(&response), Ok(ResponseAnswer::First { block2, chunk: &page[..128] }));
            }
            1 => assert_eq!(handler.intercept_request(&Request { block2: Some(&[0x13]), ..screen }), served(1, &page[128..256])),
            2 => self.refuse(handler.intercept_request(&Request { block2: Some(&[0x33]), ..screen }), Refusal::PastTheEnd),
            _ => assert_eq!(handler.intercept_request(&Request { block2: Some(&[0x23]), ..screen }), served(2, &page[256..])),
        }
    }

    /// Nothing that this lane sends is taken.
    fn odd(&mut self, handler: &mut BlockHandler, time: u64, step: usize) {
        let far = option(70_000, true, 0);
        let lane = Request { time, key: b"lane 4 PUT /prices", bare: 20, block1: Some(&far), payload: &[4; 16], ..Request::default() };
        let (request, refusal) = match step % 5 {
            0 => (lane, Refusal::NotNext),
            1 => (Request { payload: &[4; 15], ..lane }, Refusal::BadForm),
            2 => (Request { bare: 1141, ..lane }, Refusal::TooLargeToEncode),
            3 => (Request { time: time - 1, ..lane }, Refusal::ClockBack),
            _ => (Request { bare: 65_536, ..lane }, Refusal::OffLimits),
        };
        self.refuse(handler.intercept_request(&request), refusal);
    }
}

/// The least time of some slices, in milliseconds.
fn least(slices: &[Duration]) -> f64 {
    slices.iter().min().expect("there are slices").as_secs_f64() * 1000.0
}

/// The longest list that there is: 16 MiB in blocks of 16 bytes. A block is appended as fast at its end as at its start.
#[test]
fn sixteen_mebibytes() {
    let list = list(16_777_216);
    let (mut handler, mut others) = (handler(Mode::Strict, list.len()), Others::default());
    let mut slices = Vec::new();
    let start = Instant::now();
    for slice in 0..SLICES {
        let start = Instant::now();
        for num in slice * (BLOCKS / SLICES)..((slice + 1) * (BLOCKS / SLICES)).min(BLOCKS - 1) {
            let time = 1 + u64::from(num);
            taken(&mut handler, time, num, 0, &block_bytes(num));
            if num % 4 == 0 {
                others.call(&mut handler, time);
            }
        }
        slices.push(start.elapsed());
    }
    handed(&mut handler, u64::from(BLOCKS), BLOCKS - 1, 0, &block_bytes(BLOCKS - 1), &list);
    let (first, last) = (least(&slices[..256]), least(&slices[768..]));
    println!(
        "long upload: {BLOCKS} blocks of 16 bytes, {:.1} s; {} blocks in {first:.3} ms at the start and {last:.3} ms at the end; \
         {} turns of three other lanes, {} refusals",
        start.elapsed().as_secs_f64(),
        BLOCKS / SLICES,
        others.turn,
        others.refused,
    );
    assert!(last <= 3.0 * first, "a block takes no longer at the end: {slices:?}");
}

/// As many blocks, the last of them empty, into a piece that has no byte to spare: a last block with any bytes is refused. A block whose num
/// takes four bytes counts as a message of its own.
#[test]
fn an_empty_last_block() {
    let list = list(16_777_200);
    let mut handler = handler(Mode::Strict, list.len());
    for num in 0..BLOCKS - 1 {
        taken(&mut handler, 0, num, 0, &block_bytes(num));
    }
    for more in [true, false] {
        let full = option(BLOCKS - 1, more, 0);
        assert_eq!(handler.intercept_request(&request(0, &full, &[1; 16])), Err(Refusal::NoRoom));
    }
    assert_eq!(handler.intercept_request(&request(0, &option(BLOCKS - 1, false, 0), &[1])), Err(Refusal::NoRoom));
    let four = option(BLOCKS, false, 0);
    assert_eq!(four, [1, 0, 0, 0]);
    assert_eq!(handler.intercept_request(&request(0, &four, &[1; 16])), Ok(RequestAnswer::Pass { body: &[1; 16] }));
    assert_eq!(handler.bytes_held(), 16_777_200);
    handed(&mut handler, 0, BLOCKS - 1, 0, &[], &list);
    assert_eq!(handler.bytes_held(), 0);
}

/// A list of 4,097 blocks of 64 bytes.
#[test]
fn past_block_4095() {
    let list = list(4097 * 64);
    let mut handler = handler(Mode::Strict, list.len());
    for (num, block) in (0..4096).zip(list.chunks(64)) {
        taken(&mut handler, 0, num, 2, block);
    }
    handed(&mut handler, 0, 4096, 2, &list[4096 * 64..], &list);
}

/// The same list in plain mode, which reads no option of three bytes: its last block counts as a message of its own, and stays out of the
/// assembly.
#[test]
fn past_block_4095_in_plain_mode() {
    let list = list(4097 * 64);
    let mut handler = handler(Mode::Plain, list.len());
    for (num, block) in (0..4096).zip(list.chunks(64)) {
        taken(&mut handler, 0, num, 2, block);
    }
    let before = handler.clone();
    let last = &list[4096 * 64..];
    for more in [true, false] {
        let block1 = option(4096, more, 2);
        assert_eq!(block1.len(), 3);
        assert_eq!(handler.intercept_request(&request(0, &block1, last)), Ok(RequestAnswer::Pass { body: last }));
        assert_eq!(handler.table, before.table);
        assert!(handler.upload == before.upload);
    }
}

/// One block more than the piece has room for.
#[test]
fn one_block_more() {
    for (blocks, spare) in [(4096, 0), (4096, 15), (5000, 0), (5000, 1)] {
        let list = list(blocks as usize * 16);
        let mut handler = handler(Mode::Strict, list.len() + spare);
        for num in 0..blocks {
            taken(&mut handler, 0, num, 0, &block_bytes(num));
        }
        for more in [true, false] {
            let block1 = option(blocks, more, 0);
            assert_eq!(handler.intercept_request(&request(0, &block1, &[1; 16])), Err(Refusal::NoRoom));
        }
        assert_eq!(handler.bytes_held(), list.len() as u64);
        handed(&mut handler, 0, blocks, 0, &[], &list);
    }
}

/// A block whose message leaves room for one byte is taken, and answered with a num that counts in bytes: in strict mode alone one above 65,535.
#[test]
fn a_num_that_only_strict_mode_makes() {
    let list = list(4097 * 16);
    let mut handler = handler(Mode::Strict, list.len());
    for num in 0..4096 {
        taken(&mut handler, 0, num, 0, &block_bytes(num));
    }
    let (block1, payload) = (option(4096, true, 0), block_bytes(4096));
    let tight = Request { bare: 1152 - 12 - 1, ..request(0, &block1, &payload) };
    let answered = BlockValue { num: 65_536, more: false, size_exponent: 0 };
    assert_eq!(handler.intercept_request(&tight), Ok(RequestAnswer::Continue { block1: answered }));
    handed(&mut handler, 0, 4097, 0, &[], &list);
}
