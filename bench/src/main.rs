//! Times the proved handler, as a Rust caller has it, and the unchanged Rust module on the same inputs, in one process.

mod held;
mod inputs;
mod sides;
mod standins;
mod steps;

use std::hint::black_box;

use block_handler::RequestAnswer;

use self::inputs::{block, Call, KEYS};
use self::sides::{per_call, Sides, Times};

const KIB: usize = 1024;
const BLOCKS: usize = 64;
const CHUNKS: usize = 60;
const REPETITIONS: usize = 400;

/// How many calls are timed together where one is too short for the clock.
const CALLS: usize = 256;

fn main() {
    println!("# NAME OURS_NS RUST_NS RATIO: medians of {REPETITIONS} repetitions, nanoseconds for each call; RATIO is ours by the Rust's");
    println!("# Plain mode, T 1152, {KEYS} keys whose calls take turns; each repetition times both sides, first one and then the other.");
    println!("# Buffers: no memory is cleared between repetitions; the Rust allocates a vector for each upload and each chunk served.");
    println!("# The Rust's packets are cloned before the clock starts and dropped after it stops, since a call changes them.");
    longest();
    uploads();
    serving();
    plain(KEYS);
    plain(1);
    middle();
    held::print();
    steps::print();
    standins::print();
}

/// Not timed: both sides hand on the same where two keys push as many blocks of 1 KiB as plain mode can number, 4 MiB each.
fn longest() {
    let last = 4095;
    let mut sides = Sides::with_upload((last + 1) * KIB);
    (0..=last).for_each(|num| sides.agree(&upload_round(num, num < last)[..2]));
}

/// Rows a and e: uploads of 64 KiB, a block of each key at a time.
fn uploads() {
    let mut sides = Sides::new();
    let rounds: Vec<Vec<Call>> = (0..BLOCKS).map(|num| upload_round(num, num + 1 < BLOCKS)).collect();
    rounds.iter().for_each(|round| sides.agree(round));

    let mut whole = Vec::new();
    let mut at = vec![Vec::new(); BLOCKS];
    for repetition in 0..REPETITIONS {
        let mut packets: Vec<Vec<_>> = rounds.iter().map(|round| round.iter().map(Call::packet).collect()).collect();
        let mut sum = Times::default();
        for (num, round) in rounds.iter().enumerate() {
            let times = sides.time(round, &mut packets[num], repetition % 2 == 0);
            sum.ours += times.ours / BLOCKS as f64;
            sum.theirs += times.theirs / BLOCKS as f64;
            at[num].push(times);
        }
        whole.push(sum);
    }
    row("append-1KiB-to-64KiB-uploads", &whole);
    println!(
        "# The same calls by what was assembled before; the Rust's vector grows at 1, 8 and 32 KiB, and the block at 63 KiB is the last."
    );
    for num in [1, 3, 8, 15, 32, 62, 63] {
        row(&format!("append-1KiB-at-{num}KiB"), &at[num]);
    }
}

fn upload_round(num: usize, more: bool) -> Vec<Call> {
    let payload = |key: usize| (0..KIB).map(|i| (i * 7 + num + key) as u8).collect();
    (0..KEYS).map(|key| Call::new(key, Some(block(num, more)), None, payload(key))).collect()
}

/// Row b: all chunks of cached responses but the first, which is sent at once, and the last, which ends the cache.
fn serving() {
    let mut sides = Sides::new();
    let page: Vec<u8> = (0..CHUNKS * KIB).map(|i| (i / 5) as u8).collect();
    for call in asking(0) {
        sides.agree(std::slice::from_ref(&call));
        sides.cache(&call, &page);
    }
    let rounds: Vec<Call> = (1..CHUNKS - 1).flat_map(asking).collect();
    sides.agree(&rounds);

    let (mut lent, mut copied) = (Vec::new(), Vec::new());
    let mut message = Vec::with_capacity(2 * KIB);
    for repetition in 0..REPETITIONS {
        let mut packets = rounds.iter().map(Call::packet).collect();
        let times = sides.time(&rounds, &mut packets, repetition % 2 == 0);
        let ours = sides.time_ours(&rounds, |answer| {
            let RequestAnswer::Served { chunk, .. } = answer else { return };
            message.clear();
            message.extend_from_slice(chunk);
            black_box(&message);
        });
        lent.push(times);
        copied.push(Times { ours, ..times });
    }
    println!("# Ours lends the chunk; the second row has it copied into a message of the caller's, as the Rust copies it into its packet.");
    row("serve-1KiB-of-60KiB-lent", &lent);
    row("serve-1KiB-of-60KiB-copied", &copied);
}

fn asking(num: usize) -> Vec<Call> {
    (0..KEYS).map(|key| Call::new(key, None, Some(block(num, false)), Vec::new())).collect()
}

/// Row c: requests that are passed on, with so many keys live. The Rust leaves such a packet as it was, so it is used again.
fn plain(keys: usize) {
    let mut sides = Sides::new();
    let calls: Vec<Call> = (0..CALLS).map(|i| Call::new(i % keys, None, None, vec![7; 16])).collect();
    sides.agree(&calls);
    let mut packets = calls.iter().map(Call::packet).collect();
    let times: Vec<Times> = (0..REPETITIONS).map(|i| sides.time(&calls, &mut packets, i % 2 == 0)).collect();
    row(&format!("plain-16-bytes-{keys}-live"), &times);
}

/// Row d: a block of 1 KiB sent again, in the middle of 64 KiB assembled.
fn middle() {
    let mut sides = Sides::new();
    (0..BLOCKS).for_each(|num| sides.agree(&upload_round(num, true)));
    let calls: Vec<Call> = (0..8).flat_map(|_| upload_round(BLOCKS / 2, true)).collect();
    sides.agree(&calls);
    let mut times = Vec::new();
    for repetition in 0..REPETITIONS {
        let mut packets = calls.iter().map(Call::packet).collect();
        times.push(sides.time(&calls, &mut packets, repetition % 2 == 0));
    }
    row("again-1KiB-amid-64KiB", &times);
}

fn row(name: &str, times: &[Times]) {
    let ours = median(times.iter().map(|t| t.ours).collect());
    let theirs = median(times.iter().map(|t| t.theirs).collect());
    println!("{name} {ours:.0} {theirs:.0} {:.2}", ours / theirs);
}

/// Nanoseconds for one of many, all the same.
fn timed(mut one: impl FnMut()) -> f64 {
    median((0..REPETITIONS).map(|_| per_call(CALLS, || (0..CALLS).for_each(|_| one()))).collect())
}

fn median(mut times: Vec<f64>) -> f64 {
    times.sort_by(f64::total_cmp);
    times[times.len() / 2]
}
