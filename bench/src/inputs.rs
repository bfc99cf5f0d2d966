//! The inputs: each call once, in the form that each side takes.

use std::net::{Ipv4Addr, SocketAddr};

use block_handler::{BlockValue, Mode, Request};
use coap_lite::{CoapOption, CoapRequest, CoapResponse, MessageClass, Packet, RequestType, ResponseType};

pub const KEYS: usize = 16;

/// The length of each message without its payload.
pub const BARE: usize = 20;

/// A request. The Rust is told its sender; ours gets method, path and sender in one key.
pub struct Call {
    sender: SocketAddr,
    key: Vec<u8>,
    block1: Option<Vec<u8>>,
    block2: Option<Vec<u8>>,
    payload: Vec<u8>,
}

/// The option for a block of 1 KiB, as both sides read it.
pub fn block(num: usize, more: bool) -> Vec<u8> {
    BlockValue::new(Mode::Plain, num, more, 1024).expect("a block of 1 KiB").write(Mode::Plain).to_vec()
}

impl Call {
    pub fn new(sender: usize, block1: Option<Vec<u8>>, block2: Option<Vec<u8>>, payload: Vec<u8>) -> Self {
        let sender = SocketAddr::from((Ipv4Addr::new(192, 168, 7, sender as u8), 5683));
        let key = format!("GET /prices {sender}").into_bytes();
        Self { sender, key, block1, block2, payload }
    }

    /// The form for ours, which borrows.
    pub fn request(&self) -> Request<'_> {
        Request {
            time: 0,
            key: &self.key,
            bare: BARE,
            block1: self.block1.as_deref(),
            block2: self.block2.as_deref(),
            payload: &self.payload,
        }
    }

    /// The form for the Rust, which owns. A call changes it, so each call gets one of its own.
    pub fn packet(&self) -> CoapRequest<SocketAddr> {
        let mut message = Packet::new(MessageClass::Request(RequestType::Get), BARE);
        for (option, value) in [(CoapOption::Block1, &self.block1), (CoapOption::Block2, &self.block2)] {
            if let Some(value) = value {
                message.add_option(option, value.clone());
            }
        }
        message.payload = self.payload.clone();
        let response = Packet::new(MessageClass::Response(ResponseType::Content), BARE);
        CoapRequest { message, response: Some(CoapResponse { message: response }), source: Some(self.sender) }
    }
}
