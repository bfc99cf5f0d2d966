//! Stands for the crate's header.rs: version, type and code of a message.
//!
//! What rests on it: the handler sets the codes 2.31 and 4.13, and copies version, type and code of a cached response. It reads no
//! code but the request's, as a part of the key.

/// The methods of RFC 7252. One is enough here: a key of the script is the endpoint, and all calls have the same method.
#[derive(Debug, Clone, Copy, PartialEq, Eq)]
pub enum RequestType {
    Get,
}

/// The response codes that the given files name, and the two that our calls begin with (`Content`, `Changed`).
#[derive(Debug, Clone, Copy, PartialEq, Eq)]
pub enum ResponseType {
    Changed,
    Content,
    Continue,
    BadRequest,
    NotFound,
    MethodNotAllowed,
    RequestEntityTooLarge,
    InternalServerError,
}

/// What the code byte of a message says.
#[derive(Debug, Clone, Copy, PartialEq, Eq)]
pub enum MessageClass {
    Request(RequestType),
    Response(ResponseType),
}

/// The code byte, class * 32 + detail (RFC 7252, section 3; 2.31 is of RFC 7959). The handler keeps it in the key.
impl From<MessageClass> for u8 {
    fn from(class: MessageClass) -> u8 {
        let (class, detail) = match class {
            MessageClass::Request(RequestType::Get) => (0, 1),
            MessageClass::Response(code) => match code {
                ResponseType::Changed => (2, 4),
                ResponseType::Content => (2, 5),
                ResponseType::Continue => (2, 31),
                ResponseType::BadRequest => (4, 0),
                ResponseType::NotFound => (4, 4),
                ResponseType::MethodNotAllowed => (4, 5),
                ResponseType::RequestEntityTooLarge => (4, 13),
                ResponseType::InternalServerError => (5, 0),
            },
        };
        class * 32 + detail
    }
}

/// The type field of RFC 7252; only copied here.
#[derive(Debug, Clone, Copy, PartialEq, Eq)]
pub enum MessageType {
    Confirmable,
}

/// The header's fields that the handler touches. Its message id and token are left out: the handler never reads them.
#[derive(Debug, Clone)]
pub struct Header {
    version: u8,
    kind: MessageType,
    pub code: MessageClass,
}

impl Header {
    pub fn new(code: MessageClass) -> Self {
        Self { version: 1, kind: MessageType::Confirmable, code }
    }

    pub fn get_version(&self) -> u8 {
        self.version
    }

    pub fn set_version(&mut self, version: u8) {
        self.version = version;
    }

    pub fn get_type(&self) -> MessageType {
        self.kind
    }

    pub fn set_type(&mut self, kind: MessageType) {
        self.kind = kind;
    }
}
