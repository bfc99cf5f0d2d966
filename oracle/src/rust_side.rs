//! The Rust module's answers, taken from what a call leaves in the request and its response, and from nothing else.

use std::panic::{self, AssertUnwindSafe};
use std::time::Duration;

use coap_lite::block_handler::BlockValue;
use coap_lite::error::HandlingError;
use coap_lite::{BlockHandler, BlockHandlerConfig, CoapOption, CoapRequest, CoapResponse, MessageClass, Packet, RequestType, ResponseType};

use crate::script::{Answer, Call, Config, Shown, What};

/// The code that a response has before a request call.
const FRESH: MessageClass = MessageClass::Response(ResponseType::Content);

/// The code that the application's responses have: one that is served from the cache shows it.
const FILLED: MessageClass = MessageClass::Response(ResponseType::Changed);

/// A response's own Block2 option. The handler could not write it, so it is seen if the handler has put another in its place.
const OWN: [u8; 3] = [1, 2, 3];

pub struct RustSide {
    handler: BlockHandler<Vec<u8>>,
}

impl RustSide {
    /// The Rust has no piece sizes, and no strict mode.
    pub fn new(config: Config) -> Self {
        assert!(!config.strict, "the Rust has no strict mode");
        Self {
            handler: BlockHandler::new(BlockHandlerConfig {
                max_total_message_size: config.t as usize,
                cache_expiry_duration: Duration::from_millis(config.lifetime),
            }),
        }
    }

    /// Makes the call. A panic is outside the domain; it is shown as `panicked`.
    pub fn call(&mut self, call: &Call) -> Answer {
        panic::catch_unwind(AssertUnwindSafe(|| match &call.what {
            What::Request { block1, block2, payload } => self.request(call, block1, block2, payload),
            What::Response { own, payload, .. } => self.response(call, *own, payload),
        }))
        .unwrap_or_else(|_| Answer::named("panicked"))
    }

    fn request(&mut self, call: &Call, block1: &Option<Vec<u8>>, block2: &Option<Vec<u8>>, payload: &[u8]) -> Answer {
        let mut request = message(call, Packet::new(FRESH, 0));
        for (option, value) in [(CoapOption::Block1, block1), (CoapOption::Block2, block2)] {
            if let Some(value) = value {
                request.message.add_option(option, value.clone());
            }
        }
        request.message.payload = payload.to_vec();

        let handled = match self.handler.intercept_request(&mut request) {
            Ok(handled) => handled,
            Err(e) => return refusal(&e),
        };
        let response = request.response.unwrap().message;
        let answer = |name: &str, bytes: Option<Vec<u8>>| Answer {
            name: name.to_owned(),
            block1: shown(&response, CoapOption::Block1),
            block2: shown(&response, CoapOption::Block2),
            bytes,
        };
        match (handled, response.header.code) {
            (true, MessageClass::Response(ResponseType::Continue)) => answer("Continue", None),
            (true, MessageClass::Response(ResponseType::RequestEntityTooLarge)) => answer("TooLarge", None),
            (true, FILLED) => answer("Served", Some(response.payload.clone())),
            (false, FRESH) if response.get_option(CoapOption::Block1).is_some() => answer("Handed", Some(request.message.payload)),
            (false, FRESH) => answer("Pass", Some(request.message.payload)),
            _ => answer("odd-code", None),
        }
    }

    fn response(&mut self, call: &Call, own: bool, payload: &[u8]) -> Answer {
        let mut filled = Packet::new(FILLED, call.bare as usize);
        filled.payload = payload.to_vec();
        if own {
            filled.add_option(CoapOption::Block2, OWN.to_vec());
        }
        let mut request = message(call, filled);

        let cached = match self.handler.intercept_response(&mut request) {
            Ok(cached) => cached,
            Err(e) => return refusal(&e),
        };
        let response = request.response.unwrap().message;
        let untouched = match response.get_option(CoapOption::Block2) {
            None => true,
            Some(values) => values.iter().eq([&OWN.to_vec()]),
        };
        if untouched {
            return Answer::named(if cached || response.payload != payload { "odd-plain" } else { "Plain" });
        }
        Answer {
            name: if cached { "First" } else { "Whole" }.to_owned(),
            block1: shown(&response, CoapOption::Block1),
            block2: shown(&response, CoapOption::Block2),
            bytes: Some(response.payload),
        }
    }
}

/// A request of the call's key, with the response to fill. The length is for request calls; a response has its own.
fn message(call: &Call, response: Packet) -> CoapRequest<Vec<u8>> {
    CoapRequest {
        message: Packet::new(MessageClass::Request(RequestType::Get), call.bare as usize),
        response: Some(CoapResponse { message: response }),
        source: Some(call.key.clone()),
    }
}

/// The number that document 01 gives to an error. The texts are the only thing that tells three of them apart.
fn refusal(e: &HandlingError) -> Answer {
    let begins = |text: &str| e.message.starts_with(text);
    match e.code {
        Some(ResponseType::InternalServerError) if begins("Message too large to encode") => Answer::refused(4),
        Some(ResponseType::InternalServerError) if begins("size ") => Answer::refused(5),
        Some(ResponseType::InternalServerError) if begins("extend_len=") => Answer::refused(6),
        Some(ResponseType::BadRequest) if begins("num=") => Answer::refused(8),
        _ => Answer::named("odd-error"),
    }
}

/// A Block option of a response, as the Rust itself reads it back. Its num has 12 bits: the Rust writes it modulo 4096, while our
/// side's answer holds it whole. So a comparison takes nums modulo 4096.
fn shown(response: &Packet, option: CoapOption) -> Option<Shown> {
    let values = response.get_option(option)?;
    assert_eq!(values.len(), 1, "one value of the option");
    let read = response.get_first_option_as::<BlockValue>(option)?.expect("an option that the Rust wrote");
    let shown = Shown { num: u64::from(read.num), more: read.more, size: read.size() as u64 };

    // The bytes written are the shortest form of these values.
    let number = shown.num * 16 + u64::from(shown.more) * 8 + u64::from(shown.size.trailing_zeros() - 4);
    let shortest: Vec<u8> = number.to_be_bytes().into_iter().skip_while(|&b| b == 0).collect();
    assert_eq!(values.front(), Some(&shortest), "the shortest form");
    Some(shown)
}
