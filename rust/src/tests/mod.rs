//! The archive's answers, table and memories against a plain model of document 01, call by call.

mod calls;
mod edges;
mod held;
mod lengths;
mod long;
mod messages;
mod model;
mod parts;
mod runs;
mod smaller;
mod values;

use std::collections::BTreeMap;
use std::fmt::Debug;

use self::calls::{Call, Calls};
use self::edges::Edges;
use self::model::Model;
use crate::{BlockHandler, BlockHandlerConfig, Mode, Refusal, Request, RequestAnswer, Response, ResponseAnswer};

/// A memory between two fences, which no call may touch.
#[derive(Clone)]
struct Fenced(Vec<u8>);

const FENCE: [u8; 64] = [0xa5; 64];

impl Fenced {
    fn new(memory: &[u8]) -> Self {
        Self([&FENCE, memory, &FENCE].concat())
    }

    fn stands(&self) -> bool {
        self.0.starts_with(&FENCE) && self.0.ends_with(&FENCE)
    }
}

impl AsRef<[u8]> for Fenced {
    fn as_ref(&self) -> &[u8] {
        &self.0[FENCE.len()..self.0.len() - FENCE.len()]
    }
}

impl AsMut<[u8]> for Fenced {
    fn as_mut(&mut self) -> &mut [u8] {
        let end = self.0.len() - FENCE.len();
        &mut self.0[FENCE.len()..end]
    }
}

/// Both sides, given the same calls.
struct Pair {
    ours: BlockHandler<Fenced>,
    model: Model,
    /// How often each answer was given.
    seen: BTreeMap<&'static str, u64>,
    /// How often each edge was reached.
    edges: Edges,
}

impl Pair {
    fn new(config: BlockHandlerConfig) -> Self {
        let BlockHandler { config: numbers, table, upload, response } = BlockHandler::new(config);
        let ours = BlockHandler::with_memories(config, Fenced::new(&upload), Fenced::new(&response));
        let model = Model { config: numbers, table, upload, response };
        Self { ours, model, seen: BTreeMap::new(), edges: Edges::default() }
    }

    /// The same tables and memories go on in this mode.
    fn turn(&mut self, mode: Mode) {
        self.ours.config.strict = mode == Mode::Strict;
        self.model.config.strict = mode == Mode::Strict;
    }

    /// Makes the call on both sides. The answers, the tables with the bytes held, and every byte of the memories have to be the same.
    /// Gives the answer's name.
    fn call(&mut self, calls: &Calls, call: &Call) -> &'static str {
        let met = calls.met(&self.model.table, call);
        let name = match calls.request(call) {
            Some(request) => self.request(&request),
            None => self.response(&calls.response(call).expect("a call is a request or a response")),
        };
        *self.seen.entry(name).or_default() += 1;
        let recorded = calls.state(&self.model.table, call.key).recorded.value();
        self.edges.note(&self.model.config, call, met, recorded, name);
        name
    }

    fn request(&mut self, request: &Request) -> &'static str {
        let ours = self.ours.intercept_request(request);
        assert_eq!(ours, self.model.intercept_request(request), "{request:?}");
        let name = ours.map_or_else(refusal_name, request_name);
        self.same_state(request);
        name
    }

    fn response(&mut self, response: &Response) -> &'static str {
        let ours = self.ours.intercept_response(response);
        assert_eq!(ours, self.model.intercept_response(response), "{response:?}");
        let name = ours.map_or_else(refusal_name, response_name);
        self.same_state(response);
        name
    }

    fn same_state(&self, call: &dyn Debug) {
        let (ours, model) = (&self.ours, &self.model);
        assert_eq!(ours.table, model.table, "{call:?}");
        assert_eq!(ours.bytes_held(), model.table.held, "bytes held, {call:?}");
        assert!(ours.upload.as_ref() == model.upload, "upload memory, {call:?}");
        assert!(ours.response.as_ref() == model.response, "response memory, {call:?}");
        assert!(ours.upload.stands() && ours.response.stands(), "fences, {call:?}");
    }

    fn run(&mut self, calls: &mut Calls, n: u64) {
        for _ in 0..n {
            let call = calls.next(&self.model.table);
            self.call(calls, &call);
        }
    }
}

fn request_name(answer: RequestAnswer) -> &'static str {
    match answer {
        RequestAnswer::Continue { .. } => "Continue",
        RequestAnswer::TooLarge { .. } => "TooLarge",
        RequestAnswer::Handed { .. } => "Handed",
        RequestAnswer::Pass { .. } => "Pass",
        RequestAnswer::Served { .. } => "Served",
    }
}

fn response_name(answer: ResponseAnswer) -> &'static str {
    match answer {
        ResponseAnswer::Plain => "Plain",
        ResponseAnswer::Whole { .. } => "Whole",
        ResponseAnswer::First { .. } => "First",
    }
}

fn refusal_name(refusal: Refusal) -> &'static str {
    ["1", "2", "3", "4", "5", "6", "7", "8", "9", "10"][usize::from(refusal.number()) - 1]
}
