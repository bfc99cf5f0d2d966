//! How far a call of ours gets, and what it costs up to there: refused by its first check, after the table was held to its limits, after
//! no place was found in it, and passed.

use std::hint::black_box;

use block_handler::{BlockHandler, BlockHandlerConfig, Request};

use crate::inputs::{Call, KEYS};
use crate::timed;

const LATER: u64 = 100;

pub fn print() {
    println!("# Ours by how far a call gets, with {KEYS} keys live, nanoseconds:");
    let off = BlockHandlerConfig { max_total_message_size: 0, ..BlockHandlerConfig::default() };
    let calls: Vec<Call> = (0..=KEYS).map(|i| Call::new(i, None, None, vec![7; 16])).collect();
    let request = |i: usize, time: u64| Request { time, ..calls[i].request() };

    print_one("refusal 1, by its configuration", BlockHandler::new(off), request(0, LATER));
    let mut full = BlockHandler::new(BlockHandlerConfig::default());
    for i in 0..KEYS {
        full.intercept_request(&request(i, LATER)).expect("a free entry");
    }
    print_one("refusal 2, the table being within its limits", full.clone(), request(0, LATER - 1));
    print_one("refusal 3, no entry being the key's or free", full.clone(), request(KEYS, LATER));
    print_one("passed, by the first entry", full.clone(), request(0, LATER));
    print_one("passed, by the last entry", full, request(KEYS - 1, LATER));
}

fn print_one(what: &str, mut handler: BlockHandler, request: Request) {
    let nanos = timed(|| _ = black_box(handler.intercept_request(black_box(&request))));
    println!("#   {what}: {nanos:.0}");
}
