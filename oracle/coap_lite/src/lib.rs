//! The module `block_handler` of coap-lite 0.13.3, compiled unchanged from the folder that COAP_LITE_SRC names, over stand-ins of
//! our own for the files of the crate that are not to be had.
//!
//! This file stands for the crate's lib.rs: it has the same `alloc`, the same module names and the same names at the root, as far
//! as the module asks for them.

// The given text is compiled as it is, with what newer compilers say of it.
#![allow(mismatched_lifetime_syntaxes)]

#[macro_use]
extern crate alloc;

// error, option_value and block_handler (with block_value).
include!(concat!(env!("OUT_DIR"), "/given.rs"));

mod header;
mod packet;
mod request;

pub use block_handler::{BlockHandler, BlockHandlerConfig};
pub use header::{Header, MessageClass, MessageType, RequestType, ResponseType};
pub use packet::{CoapOption, Packet};
pub use request::{CoapRequest, CoapResponse};
