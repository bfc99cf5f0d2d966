//! The bytes held, of a table with every entry in use. coap-lite has no such function: beside ours stands what a caller would do without it,
//! a walk over sixteen records of its own.

use std::hint::black_box;

use block_handler::{BlockHandler, BlockHandlerConfig, Mode, RequestAnswer, Response, ResponseAnswer};

use crate::inputs::{block, Call, BARE, KEYS};
use crate::sides::{per_call, Times};
use crate::{row, KIB, REPETITIONS};

/// How many times each side is asked between two looks at the clock, which take longer than one answer.
const ASKED: usize = 16_384;

/// What a caller would note of a key.
struct Noted {
    used: bool,
    assembled: u32,
    cached: bool,
    head: u8,
    payload: u32,
}

pub fn print() {
    let (handler, noted) = full();
    assert_eq!(handler.bytes_held(), walk(&noted));

    let mut times = Vec::new();
    for repetition in 0..REPETITIONS {
        let mut both = Times::default();
        for ours in [repetition % 2 == 0, repetition % 2 == 1] {
            if ours {
                both.ours = per_call(ASKED, || (0..ASKED).for_each(|_| _ = black_box(black_box(&handler).bytes_held())));
            } else {
                both.theirs = per_call(ASKED, || (0..ASKED).for_each(|_| _ = black_box(walk(black_box(&noted)))));
            }
        }
        times.push(both);
    }
    println!("# coap-lite has no function for the bytes held: here RUST_NS is a walk over {KEYS} records in plain Rust, as a caller would do without it.");
    row("bytes-held-16-live", &times);
}

fn walk(noted: &[Noted]) -> u64 {
    let mut sum = 0;
    for key in noted {
        if key.used {
            sum += u64::from(key.assembled);
            if key.cached {
                sum += u64::from(key.head) + u64::from(key.payload);
            }
        }
    }
    sum
}

/// Each key has a part of an upload assembled and a response cached, no two of the same lengths.
fn full() -> (BlockHandler, Vec<Noted>) {
    let mut handler = BlockHandler::new(BlockHandlerConfig { mode: Mode::Plain, ..BlockHandlerConfig::default() });
    let mut noted = Vec::new();
    for i in 0..KEYS {
        let asking = Call::new(i, None, Some(block(0, false)), Vec::new());
        assert!(matches!(handler.intercept_request(&asking.request()), Ok(RequestAnswer::Pass { .. })));
        let (head, page) = (vec![1; 8 + i], vec![2; (60 - i) * KIB]);
        let response = Response { key: asking.request().key, bare: BARE, head: &head, payload: &page, ..Response::default() };
        assert!(matches!(handler.intercept_response(&response), Ok(ResponseAnswer::First { .. })));
        for num in 0..=i {
            let part = Call::new(i, Some(block(num, true)), None, vec![3; KIB]);
            assert!(matches!(handler.intercept_request(&part.request()), Ok(RequestAnswer::Continue { .. })));
        }
        let assembled = (i as u32 + 1) * KIB as u32;
        noted.push(Noted { used: true, assembled, cached: true, head: head.len() as u8, payload: page.len() as u32 });
    }
    (handler, noted)
}
