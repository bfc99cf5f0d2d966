//! The edges that longer lists and other sizes bring, counted by name: lengths of options, nums at which they get longer or end, replies'
//! nums just within the mode's limit and just above it, and blocks of another size than the one before.

use std::cmp::Ordering;
use std::collections::BTreeMap;

use super::calls::{Call, What};
use super::model::{last_num, read, size, start};
use crate::ffi::{Assembled, Config};
use crate::BlockValue;

/// What a run has to reach for each of the two options.
const EDGES: [&str; 10] = [
    "3 bytes",
    "3 bytes, the first 0",
    "4 bytes",
    "num 4095",
    "num 4096",
    "num 65535",
    "num 65536",
    "num 1048575",
    "reply's num within the limit",
    "reply's num above it, refusal 5",
];

/// What it has to reach of Block1 alone, in an upload of which something is assembled. At its end means: where the assembly ends.
const SIZES: [&str; 7] = [
    "smaller at its end",
    "smaller at its end, the last",
    "smaller at its end, the last and empty",
    "smaller elsewhere",
    "larger at its end",
    "num 0, smaller",
    "num 0, larger",
];

#[derive(Debug, Clone, Default)]
pub struct Edges(BTreeMap<(&'static str, &'static str), u64>);

impl Edges {
    /// Notes what a call reached that was answered so. `met` is what was assembled before it, and `recorded` its key's Block2 value, from
    /// which a response's block is made.
    pub fn note(&mut self, config: &Config, call: &Call, met: Assembled, recorded: Option<BlockValue>, answer: &str) {
        let reply = |block: Option<BlockValue>| block.and_then(|b| reply_edge(config, b, call.bare, answer));
        match &call.what {
            What::Request { block1, block2, payload: (_, len) } => {
                for (name, option) in [("Block1", block1), ("Block2", block2)] {
                    let bytes = option.as_ref().map_or(&[][..], |o| o.bytes());
                    self.count(name, [length_edge(bytes), num_edge(bytes)]);
                }
                let block = read(config.mode(), block1.as_ref().map(|o| o.bytes()));
                self.count("Block1", [reply(block), block.and_then(|b| size_edge(met, b, *len, answer))]);
            }
            What::Response { own_block2: false, .. } => self.count("Block2", [reply(recorded)]),
            What::Response { .. } => {}
        }
    }

    fn count<const N: usize>(&mut self, option: &'static str, edges: [Option<&'static str>; N]) {
        for edge in edges.into_iter().flatten() {
            *self.0.entry((option, edge)).or_default() += 1;
        }
    }

    pub fn add(&mut self, other: &Edges) {
        for (&edge, n) in &other.0 {
            *self.0.entry(edge).or_default() += n;
        }
    }

    /// What was never reached.
    pub fn missing(&self) -> Vec<(&'static str, &'static str)> {
        let both = ["Block1", "Block2"].into_iter().flat_map(|option| EDGES.map(|edge| (option, edge)));
        let all = both.chain(SIZES.map(|edge| ("Block1", edge)));
        all.filter(|edge| !self.0.contains_key(edge)).collect()
    }
}

fn length_edge(option: &[u8]) -> Option<&'static str> {
    match option {
        [0, _, _] => Some("3 bytes, the first 0"),
        [_, _, _] => Some("3 bytes"),
        [_, _, _, _] => Some("4 bytes"),
        _ => None,
    }
}

fn num_edge(option: &[u8]) -> Option<&'static str> {
    match option.iter().fold(0, |n, &byte| n * 256 + u64::from(byte)) / 16 {
        4095 => Some("num 4095"),
        4096 => Some("num 4096"),
        65_535 => Some("num 65535"),
        65_536 => Some("num 65536"),
        1_048_575 => Some("num 1048575"),
        _ => None,
    }
}

/// Whether the reply's num is the last within the limit, so that the next block's would not be, or the first above it.
fn reply_edge(config: &Config, block: BlockValue, bare: usize, answer: &str) -> Option<&'static str> {
    if ["1", "2", "3", "4"].contains(&answer) {
        return None;
    }
    let (k, s, last) = (u64::from(block.num), size(block), last_num(config.mode()));
    let g = s.min((config.limit - bare - 12) as u64);
    if g == 0 {
        return None;
    }
    let within = |k: u64| k * s / g <= last;
    match answer == "5" {
        false => (within(k) && !within(k + 1)).then_some("reply's num within the limit"),
        true => (k > 0 && within(k - 1) && !within(k)).then_some("reply's num above it, refusal 5"),
    }
}

/// Which block of another size than the last one's it is, if its place was looked at: all checks before that were passed.
fn size_edge(met: Assembled, block: BlockValue, len: usize, answer: &str) -> Option<&'static str> {
    if met.len == 0 || ["1", "2", "3", "4", "5", "10"].contains(&answer) {
        return None;
    }
    let at_end = start(block) == u64::from(met.len);
    match block.size_exponent.cmp(&met.exponent) {
        Ordering::Less if block.num == 0 => Some("num 0, smaller"),
        Ordering::Greater if block.num == 0 => Some("num 0, larger"),
        Ordering::Less if !at_end => Some("smaller elsewhere"),
        Ordering::Less if block.more => Some("smaller at its end"),
        Ordering::Less if len > 0 => Some("smaller at its end, the last"),
        Ordering::Less => Some("smaller at its end, the last and empty"),
        Ordering::Greater if at_end => Some("larger at its end"),
        _ => None,
    }
}
