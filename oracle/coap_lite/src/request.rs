//! Stands for the crate's request.rs and response.rs: a request, its sender and the response being filled.
//!
//! What rests on it: two requests have the same key exactly if method, path and sender are the same. Here method and path are always
//! the same and the sender is the script's key, so equal bytes are the same key. The response is always there to fill: document 01
//! leaves requests without one to the caller.

use crate::error::IncompatibleOptionValueFormat;
use crate::{Packet, RequestType};

#[derive(Debug, Clone)]
pub struct CoapResponse {
    pub message: Packet,
}

#[derive(Debug, Clone)]
pub struct CoapRequest<Endpoint> {
    pub message: Packet,
    pub response: Option<CoapResponse>,
    pub source: Option<Endpoint>,
}

impl<Endpoint> CoapRequest<Endpoint> {
    pub fn get_method(&self) -> &RequestType {
        &RequestType::Get
    }

    pub fn get_path_as_vec(&self) -> Result<Vec<String>, IncompatibleOptionValueFormat> {
        Ok(Vec::new())
    }
}
