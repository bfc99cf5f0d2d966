//! Both handlers, given the same calls and timed over batches of them.

use std::hint::black_box;
use std::net::SocketAddr;
use std::time::{Duration, Instant};

use block_handler::{BlockHandler, BlockHandlerConfig, Mode, Request, RequestAnswer, Response, ResponseAnswer};
use coap_lite::{CoapRequest, MessageClass, ResponseType};

use crate::inputs::{Call, BARE};

type Packets = Vec<CoapRequest<SocketAddr>>;

pub struct Sides {
    ours: BlockHandler,
    theirs: coap_lite::BlockHandler<SocketAddr>,
    clock: u64,
}

/// Nanoseconds for each call of a batch.
#[derive(Clone, Copy, Default)]
pub struct Times {
    pub ours: f64,
    pub theirs: f64,
}

impl Sides {
    /// Plain mode, coap-lite's defaults, pieces of 64 KiB.
    pub fn new() -> Self {
        Self::with_upload(BlockHandlerConfig::default().max_upload)
    }

    /// The same with uploads of up to so many bytes.
    pub fn with_upload(max_upload: usize) -> Self {
        let config = BlockHandlerConfig { mode: Mode::Plain, max_upload, ..BlockHandlerConfig::default() };
        let theirs = coap_lite::BlockHandlerConfig {
            max_total_message_size: config.max_total_message_size,
            cache_expiry_duration: config.cache_expiry_duration,
        };
        Self { ours: BlockHandler::new(config), theirs: coap_lite::BlockHandler::new(theirs), clock: 0 }
    }

    /// Makes the calls on both sides, untimed, and holds the answers to be the same.
    pub fn agree(&mut self, calls: &[Call]) {
        for call in calls {
            let mut packet = call.packet();
            let handled = self.theirs.intercept_request(&mut packet).expect("the Rust takes it");
            let response = &packet.response.as_ref().expect("there is a response").message;
            match self.ours.intercept_request(&call.request()).expect("ours takes it") {
                RequestAnswer::Continue { .. } => {
                    assert!(handled && response.header.code == MessageClass::Response(ResponseType::Continue))
                }
                RequestAnswer::Handed { body, .. } | RequestAnswer::Pass { body } => {
                    assert!(!handled && packet.message.payload == body)
                }
                RequestAnswer::Served { chunk, .. } => assert!(handled && response.payload == chunk),
                RequestAnswer::TooLarge { .. } => panic!("no input is too large"),
            }
        }
    }

    /// Answers the call with this page on both sides, so that it is cached.
    pub fn cache(&mut self, call: &Call, page: &[u8]) {
        let mut packet = call.packet();
        packet.response.as_mut().expect("there is a response").message.payload = page.to_vec();
        assert!(self.theirs.intercept_response(&mut packet).expect("the Rust takes it"));
        let response = Response { key: call.request().key, bare: BARE, payload: page, ..Response::default() };
        let answer = self.ours.intercept_response(&response).expect("ours takes it");
        assert!(matches!(answer, ResponseAnswer::First { .. }));
    }

    /// Times a batch on both sides, ours first or the Rust first. The Rust's packets were built before.
    pub fn time(&mut self, calls: &[Call], packets: &mut Packets, ours_first: bool) -> Times {
        let mut times = Times::default();
        for ours in [ours_first, !ours_first] {
            if ours {
                times.ours = per_call(calls.len(), || self.call_ours(calls, |answer| _ = black_box(answer)));
            } else {
                times.theirs = per_call(packets.len(), || self.call_theirs(packets));
            }
        }
        times
    }

    /// Times ours alone with what a caller does with the answer.
    pub fn time_ours(&mut self, calls: &[Call], then: impl FnMut(RequestAnswer)) -> f64 {
        per_call(calls.len(), || self.call_ours(calls, then))
    }

    fn call_ours(&mut self, calls: &[Call], mut then: impl FnMut(RequestAnswer)) {
        for call in calls {
            self.clock += 1;
            let request = Request { time: self.clock / 1000, ..call.request() };
            then(self.ours.intercept_request(black_box(&request)).expect("ours takes it"));
        }
    }

    fn call_theirs(&mut self, packets: &mut Packets) {
        for packet in packets {
            black_box(self.theirs.intercept_request(black_box(packet))).expect("the Rust takes it");
        }
    }
}

/// Nanoseconds for each of n calls.
pub fn per_call(n: usize, calls: impl FnOnce()) -> f64 {
    let start = Instant::now();
    calls();
    nanos(start.elapsed()) / n as f64
}

fn nanos(time: Duration) -> f64 {
    time.as_nanos() as f64
}
