//! What the stand-ins of oracle/ cost within the Rust's times: its packet and its cache are not to be had, and these take their place.

use std::hint::black_box;
use std::net::SocketAddr;
use std::time::Duration;

use coap_lite::block_handler::BlockValue;
use coap_lite::{CoapOption, MessageClass, Packet, ResponseType};
use lru_time_cache::LruCache;

use crate::inputs::{block, Call, BARE, KEYS};
use crate::sides::per_call;
use crate::{median, timed, CALLS, REPETITIONS};

pub fn print() {
    println!("# Stand-ins within the Rust's times, nanoseconds for each use:");
    print_one("encoding a bare message, once a call", encoding());
    print_one("reading an option that is there", reading(Some(block(3, true))));
    print_one("looking for an option that is not there", reading(None));
    print_one("adding an option to a response that has none", adding());
    print_one("finding a key among 16 in the cache", finding());
}

fn print_one(what: &str, nanos: f64) {
    println!("#   {what}: {nanos:.0}");
}

fn response() -> Packet {
    Packet::new(MessageClass::Response(ResponseType::Content), BARE)
}

fn encoding() -> f64 {
    let message = Call::new(1, None, None, Vec::new()).packet().message;
    timed(|| _ = black_box(black_box(&message).to_bytes()))
}

fn reading(option: Option<Vec<u8>>) -> f64 {
    let message = Call::new(1, option, None, Vec::new()).packet().message;
    timed(|| _ = black_box(black_box(&message).get_first_option_as::<BlockValue>(CoapOption::Block1)))
}

fn adding() -> f64 {
    let value = BlockValue::new(3, true, 1024).expect("a block of 1 KiB");
    let one_set = || {
        let mut packets: Vec<Packet> = (0..CALLS).map(|_| response()).collect();
        per_call(CALLS, || packets.iter_mut().for_each(|packet| packet.add_option_as(CoapOption::Block1, value.clone())))
    };
    median((0..REPETITIONS).map(|_| one_set()).collect())
}

fn finding() -> f64 {
    let sender = |i: usize| Call::new(i % KEYS, None, None, Vec::new()).packet().source.expect("there is a sender");
    let senders: Vec<SocketAddr> = (0..KEYS).map(sender).collect();
    let mut cache = LruCache::with_expiry_duration(Duration::from_secs(120));
    let mut turn = senders.iter().cycle();
    timed(|| *cache.entry(*turn.next().expect("it goes round")).or_insert(0) += 1)
}
