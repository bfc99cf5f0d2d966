//! Random calls on both sides, under many configurations, and a soak.

use std::collections::BTreeMap;
use std::env;
use std::time::{Duration, Instant};

use super::calls::{Calls, Random, What};
use super::edges::Edges;
use super::model::held;
use super::Pair;
use crate::ffi::Assembled;
use crate::{BlockHandlerConfig, Mode, Request, Response};

fn some_mode(random: &mut Random) -> Mode {
    random.one_of(&[Mode::Plain, Mode::Strict])
}

fn some_config(random: &mut Random) -> BlockHandlerConfig {
    BlockHandlerConfig {
        max_total_message_size: random.one_of(&[1, 12, 13, 40, 64, 64, 100, 300, 1152, 1152, 5000, 65_535]),
        cache_expiry_duration: Duration::from_millis(random.one_of(&[1, 2, 50, 3000, 120_000, 4_294_967_295])),
        mode: some_mode(random),
        max_upload: random.one_of(&[16, 17, 40, 64, 200, 1024, 4096]),
        max_response: random.one_of(&[16, 33, 64, 200, 300, 1024]),
    }
}

const ANSWERS: [&str; 18] =
    ["1", "10", "2", "3", "4", "5", "6", "7", "8", "9", "Continue", "First", "Handed", "Pass", "Plain", "Served", "TooLarge", "Whole"];

#[test]
fn random_calls() {
    let mut random = Random(1);
    let mut seen = BTreeMap::new();
    let mut edges = [Edges::default(), Edges::default()];
    for seed in 0..300 {
        let config = some_config(&mut random);
        let mut pair = Pair::new(config);
        let keys = random.one_of(&[1, 4, 16, 17, 40]);
        pair.run(&mut Calls::new(seed, config, keys), 1000);
        for (name, n) in pair.seen {
            *seen.entry(name).or_insert(0) += n;
        }
        edges[usize::from(config.mode == Mode::Strict)].add(&pair.edges);
    }
    println!("random calls: {seen:?}, edges in plain mode {:?}, in strict mode {:?}", edges[0], edges[1]);
    assert!(seen.keys().eq(&ANSWERS), "each answer and each refusal was given: {seen:?}");
    for edges in edges {
        assert_eq!(edges.missing(), [], "each edge was reached in each mode");
    }
}

/// Pieces of 64 KiB, whose every byte is compared after each call.
#[test]
fn large_pieces() {
    let config = BlockHandlerConfig { max_total_message_size: 3000, mode: Mode::Plain, ..BlockHandlerConfig::default() };
    let mut pair = Pair::new(config);
    pair.run(&mut Calls::new(2, config, 16), 2000);
    println!("large pieces: {:?}", pair.seen);
}

/// Uploads that stand just before the block whose option is longer, in pieces with room for a few blocks more. Strict mode takes three, past
/// the edge, and plain mode two.
#[test]
fn uploads_at_an_edge() {
    let (plain, strict) = (Mode::Plain, Mode::Strict);
    for (mode, blocks, exponent) in [(plain, 4094, 0), (plain, 4094, 3), (strict, 4094, 0), (strict, 4094, 3), (strict, 65_534, 0)] {
        let size = 16 << exponent;
        let (before, taken) = (blocks * size, if mode == strict { 3 } else { 2 });
        let config =
            BlockHandlerConfig { mode, max_upload: (before + 6 * size) as usize, max_response: 64, ..BlockHandlerConfig::default() };
        let (mut pair, mut calls) = (Pair::new(config), Calls::new(5, config, 2));
        let mut past = 0;
        for _ in 0..300 {
            let call = calls.next(&pair.model.table);
            pair.call(&calls, &call);
            past = past.max(pair.model.table.entries[0].state.assembled.len);
            set_assembled(&mut pair, Assembled { len: before, exponent });
        }
        println!("uploads at block {blocks}, {mode:?}: {before} bytes, then up to {past}; {:?}", pair.seen);
        assert!(past >= before + taken * size, "blocks were taken past the edge");
    }
}

/// The first key's upload, if it was handed on or begun anew, has that length once more.
fn set_assembled(pair: &mut Pair, assembled: Assembled) {
    let table = &mut pair.model.table;
    let entry = &mut table.entries[0];
    if entry.used && entry.state.assembled.len < assembled.len {
        entry.state.assembled = assembled;
        table.held = held(&table.entries);
        pair.ours.table = *table;
    }
}

/// The mode is that of the call: the same table and memories go on in the other mode now and then.
#[test]
fn modes_in_turn() {
    let mut random = Random(6);
    let mut met = 0;
    for seed in 0..60 {
        let config =
            BlockHandlerConfig { max_total_message_size: 128, max_upload: 512, max_response: 256, ..BlockHandlerConfig::default() };
        let (mut pair, mut calls) = (Pair::new(config), Calls::new(seed, config, 8));
        for _ in 0..2000 {
            if random.percent(20) {
                let mode = some_mode(&mut random);
                pair.turn(mode);
                calls.turn(mode);
            }
            let call = calls.next(&pair.model.table);
            let recorded = calls.state(&pair.model.table, call.key).recorded;
            let name = pair.call(&calls, &call);
            let response = matches!(call.what, What::Response { .. });
            met += u64::from(response && recorded.num > 65_535 && pair.ours.mode() == Mode::Plain && name == "5");
        }
    }
    println!("modes in turn: {met} times a num above 65,535 was recorded in strict mode and refused in plain mode");
    assert!(met > 10);
}

/// A Block2 of a num above 65,535 that was recorded in strict mode is refusal 5 in plain mode. In strict mode it is past the page's end.
#[test]
fn recorded_in_strict_mode() {
    let config = BlockHandlerConfig { max_upload: 64, max_response: 64, ..BlockHandlerConfig::default() };
    for (num, in_plain) in [(65_535_u32, "8"), (65_536, "5"), (70_000, "5"), (1_048_575, "5")] {
        let mut pair = Pair::new(config);
        let asked = &(num * 16).to_be_bytes()[1..];
        let request = Request { key: b"screen", block2: Some(asked), ..Request::default() };
        let response = Response { key: b"screen", payload: &[9; 40], ..Response::default() };
        assert_eq!(pair.request(&request), "Pass");
        for (mode, name) in [(Mode::Strict, "8"), (Mode::Plain, in_plain), (Mode::Strict, "8")] {
            pair.turn(mode);
            assert_eq!(pair.response(&response), name, "{num} {mode:?}");
        }
        // A plain request reads no option of three bytes, and so records none.
        pair.turn(Mode::Plain);
        assert_eq!((pair.request(&request), pair.response(&response)), ("Pass", "Plain"));
    }
}

/// How many calls a soak makes: SOAK_CALLS says fewer, where a program is emulated.
fn soak_calls() -> u64 {
    env::var("SOAK_CALLS").map_or(5_000_000, |n| n.parse().expect("SOAK_CALLS is a number"))
}

/// Calls for sixteen keys, on one handler.
fn soak(mode: Mode) {
    let config = BlockHandlerConfig {
        max_total_message_size: 128,
        cache_expiry_duration: Duration::from_secs(5),
        mode,
        max_upload: 512,
        max_response: 256,
    };
    let mut pair = Pair::new(config);
    let calls = soak_calls();
    let start = Instant::now();
    pair.run(&mut Calls::new(3, config, 16), calls);
    println!("soak, {mode:?}: {calls} calls, 0 differences, {:.1} s: {:?}, {:?}", start.elapsed().as_secs_f64(), pair.seen, pair.edges);
    assert_eq!(pair.edges.missing(), [], "each edge was reached");
}

// A test of its own for each mode, so that the two run side by side.
#[test]
#[ignore = "ten seconds in a release build: cargo test --release -- --ignored --nocapture soak"]
fn soak_plain() {
    soak(Mode::Plain);
}

#[test]
#[ignore = "ten seconds in a release build: cargo test --release -- --ignored --nocapture soak"]
fn soak_strict() {
    soak(Mode::Strict);
}
