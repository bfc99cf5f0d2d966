//! Block-wise transfers for CoAP (RFC 7959): a safe crate over the proved block handler.
//!
//! The handler is the module `block_handler` of the crate coap-lite 0.13.3, ported to Rattle and proved there: no call with any bytes
//! or numbers reads or writes outside its memory, and what is refused gets one of ten numbers ([`Refusal`]). This crate links its
//! static library and gives it a Rust face, with coap-lite's names where they fit. It has no dependencies, and it copies nothing:
//! bodies, chunks and heads are borrowed from the handler's memories or from the message itself.
//!
//! Sockets and clocks stay with the caller. A call is told the time, a key that tells transfers apart (as sender, method and path), the
//! bytes of the two Block options and the payload.
//!
//! [`Message`] reads a CoAP message (RFC 7252) where it stands, and [`Draft`] writes one into a lent buffer: written from
//! the RFC and proved likewise, under the names of coap-lite's `Packet` where they fit. What is no message is refused ([`Malformed`]), and so is what has no encoding ([`NotWritten`]).
//!
//! # A price list, pushed in blocks
//!
//! The sender cuts its list into blocks of 64 bytes. All but the last are answered 2.31 Continue; the last one hands the whole list on.
//!
//! ```
//! use block_handler::{BlockHandler, BlockHandlerConfig, BlockValue, Request, RequestAnswer};
//!
//! let mut handler = BlockHandler::new(BlockHandlerConfig::default());
//! let list = b"milk 1.19\nbread 2.49\n".repeat(10);
//!
//! let last = (list.len() - 1) / 64;
//! for (num, block) in list.chunks(64).enumerate() {
//!     let block1 = BlockValue::new(handler.mode(), num, num < last, 64)?.write(handler.mode());
//!     let request = Request {
//!         time: 1000 + num as u64,
//!         key: b"lane 7 PUT /prices",
//!         bare: 20, // the length of the message without its payload
//!         block1: Some(&block1),
//!         payload: block,
//!         ..Request::default()
//!     };
//!     match handler.intercept_request(&request)? {
//!         RequestAnswer::Continue { block1 } => assert_eq!(block1.num as usize, num), // send 2.31 with this Block1 option
//!         RequestAnswer::Handed { body, .. } => assert_eq!(body, list),               // the application takes the list
//!         other => panic!("not expected: {other:?}"),
//!     }
//! }
//! # Ok::<(), Box<dyn std::error::Error>>(())
//! ```
//!
//! # The same, from the bytes of a message
//!
//! ```
//! use block_handler::{BlockHandler, BlockHandlerConfig, Message, Request, RequestAnswer};
//!
//! let mut handler = BlockHandler::new(BlockHandlerConfig::default());
//! let datagram = b"\x41\x03\x12\x34\x07\xb6prices\xd1\x03\x02\xffmilk 1.19"; // PUT /prices, block 0 of 64 bytes, the last
//!
//! let message = Message::from_bytes(datagram)?;
//! let request = Request {
//!     key: b"lane 7 PUT /prices",
//!     bare: message.bare(),
//!     block1: message.option(27, 0),
//!     block2: message.option(23, 0),
//!     payload: message.payload(),
//!     ..Request::default()
//! };
//! assert_eq!(handler.intercept_request(&request)?.body(), b"milk 1.19");
//! # Ok::<(), Box<dyn std::error::Error>>(())
//! ```
//!
//! # A page, fetched in blocks
//!
//! The application answers a request with a page that is too long for one message. Its first chunk goes out, and the handler keeps the
//! page and serves the other chunks itself.
//!
//! ```
//! use block_handler::{BlockHandler, BlockHandlerConfig, BlockValue, Request, RequestAnswer, Response, ResponseAnswer};
//!
//! let mut handler = BlockHandler::new(BlockHandlerConfig { max_total_message_size: 100, ..BlockHandlerConfig::default() });
//! let page = b"three for two! ".repeat(20);
//! let request = Request { time: 1000, key: b"screen 3 GET /offers", bare: 24, ..Request::default() };
//!
//! // The request passes to the application, whose response is cut.
//! assert_eq!(handler.intercept_request(&request)?, RequestAnswer::Pass { body: b"" });
//! let response = Response { time: 1001, key: request.key, bare: 20, head: b"2.05", payload: &page, ..Response::default() };
//! let ResponseAnswer::First { block2, chunk } = handler.intercept_response(&response)? else { panic!("the page is long") };
//!
//! // The screen asks for the other chunks, one by one.
//! let mut fetched = chunk.to_vec();
//! let mut more = block2.more;
//! while more {
//!     let asked = BlockValue::new(handler.mode(), fetched.len() / block2.size(), false, block2.size())?.write(handler.mode());
//!     let request = Request { time: 1002, block2: Some(&asked), ..request };
//!     let RequestAnswer::Served { block2, head, chunk, .. } = handler.intercept_request(&request)? else { panic!("it is cached") };
//!     assert_eq!(head, b"2.05");
//!     fetched.extend_from_slice(chunk);
//!     more = block2.more;
//! }
//! assert_eq!(fetched, page);
//! # Ok::<(), Box<dyn std::error::Error>>(())
//! ```
//!
//! # How much is held
//!
//! [`BlockHandler::bytes_held`] says how many bytes the uploads and the cached responses have, for a screen that asks every second: the
//! calls keep the figure, so it is read and not counted.
//!
//! # Messages that come twice
//!
//! A client whose acknowledgement is lost sends the same message again, under the same message ID. RFC 7252 (section 4.5) has the stack
//! answer such a copy with the reply that it stored, and make no call. The handler sees no message IDs, so a copy that gets through is a
//! new call. In strict mode a middle block then gets [`Refusal::NotNext`] (4.08), at which a client gives up or starts again; the last of
//! two or more gets it too, though its list was handed on; a list of one block is handed on again, the same. In plain mode a middle block
//! is written over itself, and the last one hands on the corrupt body that [`BlockHandlerConfig::mode`] tells of. In either mode a late
//! copy of a block of one list can be taken into the next list of the key.
//!
//! # Long lists
//!
//! In strict mode a list has up to 1,048,576 blocks, as RFC 7959 says, if `max_upload` has room for them. Plain mode reads options of two
//! bytes, and a Block1 option of three counts as absent: block 4096 and every later one is taken for a whole message, and
//! [`RequestAnswer::Pass`] gives it to the application as the list. In plain mode, take zero bytes off the option's front before the call;
//! if three bytes remain, send 4.13 and make no call. An option of more than three bytes counts as absent in either mode. RFC 7959 has
//! none: send 4.02 and make no call.
//!
//! # Smaller blocks on the way
//!
//! Where a message has room for 16 bytes or more, but not for its block's size, block 0 is taken and a smaller size comes back. RFC 7959
//! has the client go on at that size from where the block ended, with its num counted anew: after one block of 1,024 bytes, num 2 of 512.
//! Strict mode takes that, as often as the size falls; a larger block gets [`Refusal::NotNext`], but for block 0, which starts afresh at
//! any size.
//!
//! # Building
//!
//! The build script looks for `libhandler_c.a` and `libmessage_c.a` in `../target/staticlib`, where `tests/archive handler_c` and
//! `tests/archive message_c` write them, or in the folder that the environment variable `BLOCK_HANDLER_LIB` names. The archives are for
//! x86-64 Linux.

#![deny(unsafe_code)]
#![warn(missing_docs)]

mod block_value;
#[allow(unsafe_code)]
mod ffi;
mod handler;
mod message;
mod mode;
mod refusal;
#[cfg(test)]
mod tests;

pub use block_value::{BlockOption, BlockValue, InvalidBlockValue};
pub use handler::{BlockHandler, BlockHandlerConfig, Request, RequestAnswer, Response, ResponseAnswer, ENTRIES};
pub use message::{length_allowed, Draft, Malformed, Message, MessageType, NotWritten, Options};
pub use mode::Mode;
pub use refusal::Refusal;
