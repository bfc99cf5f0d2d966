//! Off the limits: refusal 1, and nothing is changed. Nobody has to check first.

use std::collections::BTreeMap;
use std::time::Duration;

use super::calls::{Calls, Random};
use super::edges::Edges;
use super::model::held;
use super::Pair;
use crate::ffi::{fresh, Entry, Table};
use crate::{BlockHandler, BlockHandlerConfig, BlockValue, Mode, Refusal, Request, RequestAnswer, Response, ResponseAnswer};

const CONFIG: BlockHandlerConfig = BlockHandlerConfig {
    max_total_message_size: 100,
    cache_expiry_duration: Duration::from_millis(1000),
    mode: Mode::Plain,
    max_upload: 64,
    max_response: 48,
};

const REQUEST: Request = Request { time: 5, key: b"lane 1", bare: 20, block1: None, block2: None, payload: b"16 bytes of page" };
const RESPONSE: Response = Response { time: 5, key: b"lane 1", bare: 20, own_block2: false, head: b"head", payload: b"page" };

fn refused(handler: &mut BlockHandler, request: &Request) {
    let before = handler.clone();
    assert_eq!(handler.intercept_request(request), Err(Refusal::OffLimits));
    let response = Response { time: request.time, key: request.key, bare: request.bare, payload: request.payload, ..RESPONSE };
    assert_eq!(handler.intercept_response(&response), Err(Refusal::OffLimits));
    assert_eq!(handler.table, before.table);
    assert!(handler.upload == before.upload && handler.response == before.response);
}

fn taken(handler: &mut BlockHandler, request: &Request) {
    assert_eq!(handler.intercept_request(request), Ok(RequestAnswer::Pass { body: request.payload }));
}

#[test]
fn memories_of_another_length() {
    for (upload, response) in [(64, 48), (63, 48), (65, 48), (64, 47), (64, 49), (48, 64), (0, 48), (64, 0), (0, 0)] {
        for more in [0, 1] {
            let (upload, response) = (vec![7; 16 * upload + more], vec![7; 16 * response + more]);
            let right = upload.len() == 16 * 64 && response.len() == 16 * 48;
            let mut handler = BlockHandler::with_memories(CONFIG, upload, response);
            if right {
                taken(&mut handler, &REQUEST);
            } else {
                refused(&mut handler, &REQUEST);
            }
        }
    }
}

#[test]
fn configurations() {
    let millis = Duration::from_millis;
    let off = [
        BlockHandlerConfig { max_total_message_size: 0, ..CONFIG },
        BlockHandlerConfig { max_total_message_size: 65_536, ..CONFIG },
        BlockHandlerConfig { max_total_message_size: usize::MAX, ..CONFIG },
        BlockHandlerConfig { cache_expiry_duration: Duration::from_micros(999), ..CONFIG },
        BlockHandlerConfig { cache_expiry_duration: millis(4_294_967_296), ..CONFIG },
        BlockHandlerConfig { cache_expiry_duration: Duration::MAX, ..CONFIG },
        BlockHandlerConfig { max_upload: 15, ..CONFIG },
        BlockHandlerConfig { max_upload: 16_777_217, ..CONFIG },
        BlockHandlerConfig { max_upload: usize::MAX, ..CONFIG },
        BlockHandlerConfig { max_upload: 1 << 60, max_response: 1 << 60, ..CONFIG },
        BlockHandlerConfig { max_response: 15, ..CONFIG },
        BlockHandlerConfig { max_response: 65_537, ..CONFIG },
    ];
    for config in off {
        for mode in [Mode::Plain, Mode::Strict] {
            refused(&mut BlockHandler::new(BlockHandlerConfig { mode, ..config }), &REQUEST);
        }
    }
    let within = [
        BlockHandlerConfig { max_total_message_size: 65_535, ..CONFIG },
        BlockHandlerConfig { cache_expiry_duration: millis(1), ..CONFIG },
        BlockHandlerConfig { cache_expiry_duration: millis(4_294_967_295), ..CONFIG },
        BlockHandlerConfig { max_upload: 16, max_response: 16, ..CONFIG },
        BlockHandlerConfig { max_upload: 65_536, max_response: 65_536, ..CONFIG },
        BlockHandlerConfig { max_upload: 65_537, ..CONFIG },
    ];
    for config in within {
        for mode in [Mode::Plain, Mode::Strict] {
            taken(&mut BlockHandler::new(BlockHandlerConfig { mode, ..config }), &REQUEST);
        }
    }
}

/// Pieces of the largest size are taken, and a byte more is refused although the memory is as long as it should be. The memories are never
/// read here, so they take no room.
#[test]
fn the_largest_pieces() {
    for mode in [Mode::Plain, Mode::Strict] {
        for (max_upload, max_response, within) in [(16_777_216, 65_536, true), (16_777_217, 65_536, false), (16_777_216, 65_537, false)] {
            let config = BlockHandlerConfig { mode, max_upload, max_response, ..CONFIG };
            let mut handler = BlockHandler::with_memories(config, vec![0; 16 * max_upload], vec![0; 16 * max_response]);
            if within {
                taken(&mut handler, &REQUEST);
            } else {
                assert_eq!(handler.intercept_request(&REQUEST), Err(Refusal::OffLimits));
                assert_eq!(handler.intercept_response(&RESPONSE), Err(Refusal::OffLimits));
                assert_eq!(handler.table, fresh());
            }
        }
        let config = BlockHandlerConfig { mode, max_upload: 16_777_216, max_response: 65_536, ..CONFIG };
        let handler = BlockHandler::new(config);
        assert_eq!((handler.upload.len(), handler.response.len()), (268_435_456, 1_048_576));
    }
}

#[test]
fn messages() {
    let long = vec![1; 70_000];
    let mut handler = BlockHandler::new(BlockHandlerConfig { max_total_message_size: 65_535, ..CONFIG });
    for key in [&long[..0], &long[..65], &long] {
        refused(&mut handler, &Request { key, ..REQUEST });
    }
    for bare in [65_536, usize::MAX - 12, usize::MAX] {
        refused(&mut handler, &Request { bare, ..REQUEST });
    }
    for payload in [&long[..65_536], &long] {
        refused(&mut handler, &Request { payload, ..REQUEST });
    }
    for head in [&long[..129], &long] {
        assert_eq!(handler.intercept_response(&Response { head, ..RESPONSE }), Err(Refusal::OffLimits));
    }
    assert_eq!(handler.table, fresh());
    for key in [&long[..1], &long[..64]] {
        taken(&mut handler, &Request { key, ..REQUEST });
    }
    assert!(handler.intercept_response(&Response { head: &long[..128], ..RESPONSE }).is_ok());
    taken(&mut handler, &Request { payload: &long[..65_000], ..REQUEST });
}

#[test]
fn options_of_any_length() {
    let long = vec![0; 5000];
    for (mode, most) in [(Mode::Plain, 2), (Mode::Strict, 3)] {
        let mut handler = BlockHandler::new(BlockHandlerConfig { mode, ..CONFIG });
        for option in [&long[..most + 1], &long] {
            taken(&mut handler, &Request { block1: Some(option), block2: Some(option), ..REQUEST });
        }
        let read = Request { block1: Some(&long[..most]), ..REQUEST };
        let handed = RequestAnswer::Handed { block1: BlockValue::default(), body: REQUEST.payload };
        assert_eq!(handler.intercept_request(&read), Ok(handed));
    }
}

/// A block of 16 bytes assembled, and a page cached with its head: 16 + 4 + 40 bytes.
fn holding() -> BlockHandler {
    let mut handler = BlockHandler::new(CONFIG);
    let asked = Request { block2: Some(&[0x00]), ..REQUEST };
    taken(&mut handler, &asked);
    let page = Response { payload: &[7; 40], ..RESPONSE };
    assert!(matches!(handler.intercept_response(&page), Ok(ResponseAnswer::First { .. })));
    let block = Request { block1: Some(&[0x08]), ..REQUEST };
    assert!(matches!(handler.intercept_request(&block), Ok(RequestAnswer::Continue { .. })));
    assert_eq!(handler.bytes_held(), 60);
    handler
}

/// Any figure but the right one is off the limits, and it is read as it stands.
#[test]
fn another_figure() {
    let mut handler = holding();
    let bits = (0..64).map(|bit| 60 ^ (1 << bit));
    for figure in [0, 16, 44, 59, 61, 120, 60 + (1 << 32), u64::MAX].into_iter().chain(bits) {
        handler.table.held = figure;
        refused(&mut handler, &REQUEST);
        assert_eq!(handler.bytes_held(), figure);
    }
    handler.table.held = 60;
    taken(&mut handler, &REQUEST);

    let mut handler = BlockHandler::new(CONFIG);
    handler.table.held = 1;
    refused(&mut handler, &REQUEST);
    handler.table.held = 0;
    taken(&mut handler, &REQUEST);
}

/// Changed lengths are off the limits with the old figure. With the right one they are within them as far as the pieces go.
#[test]
fn other_lengths() {
    for (assembled, head, payload, within) in [
        (16, 4, 40, true),
        (64, 4, 40, true),
        (65, 4, 40, false),
        (u32::MAX, 4, 40, false),
        (16, 8, 40, true),
        (16, 9, 40, false),
        (16, 4, 44, true),
        (16, 4, 45, false),
        (16, 4, u32::MAX, false),
        (64, 48, 0, true),
        (64, 0, 48, true),
        // The figure stays 60.
        (17, 4, 39, true),
        (16, 5, 39, true),
    ] {
        let mut handler = holding();
        let state = &mut handler.table.entries[0].state;
        state.assembled.len = assembled;
        (state.cached.head, state.cached.payload) = (head, payload);
        let figure = u64::from(assembled) + u64::from(head) + u64::from(payload);
        if figure != 60 {
            refused(&mut handler, &REQUEST);
        }
        handler.table.held = figure;
        if within {
            taken(&mut handler, &REQUEST);
            assert_eq!(handler.bytes_held(), figure);
        } else {
            refused(&mut handler, &REQUEST);
        }
    }
}

/// Changes one field of one entry, the clock or the bytes held. Some of what comes out is still within the limits.
fn damage(random: &mut Random, table: &mut Table) {
    let number = random.one_of(&[0, 1, 16, 48, 49, 64, 65, 65_535, 65_536, 1_048_575, 1_048_576, u32::MAX]);
    let byte = random.one_of(&[0, 1, 7, 8, 64, 65, 128, 129, 255]);
    let (i, j) = (random.below(16) as usize, random.below(16) as usize);
    let twin = table.entries[j];
    let e: &mut Entry = &mut table.entries[i];
    match random.below(17) {
        0 => e.used = !e.used,
        1 => e.key.len = byte,
        2 => e.key.bytes[usize::from(byte % 64)] ^= 1,
        3 => e.key = twin.key,
        4 => e.touched = e.touched.wrapping_add(number.into()),
        5 => e.state.assembled.len = number,
        6 => e.state.assembled.exponent = byte,
        7 => e.state.cached.held = !e.state.cached.held,
        8 => e.state.cached.head = byte,
        9 => e.state.cached.payload = number,
        10 => e.state.recorded.given = !e.state.recorded.given,
        11 => e.state.recorded.more = !e.state.recorded.more,
        12 => e.state.recorded.exponent = byte,
        13 => e.state.recorded.num = number,
        14 => *e = twin,
        15 => table.clock = random.one_of(&[0, table.clock.saturating_sub(1), table.clock + 1, u64::MAX]),
        _ => {
            table.held = random.one_of(&[0, table.held.wrapping_sub(1), table.held + 1, table.held + (1 << 32), u64::MAX]);
            return;
        }
    }
    // With the old figure other lengths are always refused: with the right one they are tried at their own limits.
    if random.percent(75) {
        table.held = held(&table.entries);
    }
}

/// A table may come from anywhere. The model says which ones are off the limits, and what follows if one is not.
#[test]
fn damaged_tables() {
    let mut random = Random(4);
    let mut seen = BTreeMap::new();
    // Of the tables whose lengths count otherwise: whether the figure was set right, and whether the call was refused by 1.
    let mut recounted = BTreeMap::new();
    for seed in 0..100 {
        let mode = if seed % 2 == 0 { Mode::Strict } else { Mode::Plain };
        let config = BlockHandlerConfig { mode, ..CONFIG };
        let mut calls = Calls::new(seed, config, random.one_of(&[3, 15, 16]));
        let mut pair = Pair::new(config);
        pair.run(&mut calls, 200);
        for _ in 0..100 {
            let call = calls.next(&pair.model.table);
            let mut damaged = Pair { ours: pair.ours.clone(), model: pair.model.clone(), seen, edges: Edges::default() };
            damage(&mut random, &mut damaged.ours.table);
            damaged.model.table = damaged.ours.table;
            let Table { held: figure, entries, .. } = damaged.ours.table;
            let name = damaged.call(&calls, &call);
            if held(&entries) != pair.ours.table.held {
                *recounted.entry((figure == held(&entries), name == "1")).or_insert(0) += 1;
            }
            seen = damaged.seen;
            pair.call(&calls, &call);
        }
    }
    println!("damaged tables: {seen:?}; other lengths, by figure right and refused by 1: {recounted:?}");
    let within: u64 = seen.iter().filter(|(name, _)| **name != "1").map(|(_, n)| n).sum();
    assert!(seen["1"] > 1000 && within > 1000);
    assert!(recounted[&(true, false)] > 100 && recounted[&(true, true)] > 100 && recounted[&(false, true)] > 100);
    assert!(!recounted.contains_key(&(false, false)));
}
