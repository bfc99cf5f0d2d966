use std::time::Duration;

use crate::ffi::{self, Reply, Table};
use crate::refusal::{CONTINUE, REQUEST_ENTITY_TOO_LARGE};
use crate::{BlockValue, Mode, Refusal};

/// How many keys can be live at once.
pub const ENTRIES: usize = 16;

/// The largest piece of the upload memory that a key can have.
const MAX_UPLOAD: usize = 16_777_216;

/// The largest piece of the response memory that a key can have.
const MAX_RESPONSE: usize = 65_536;

/// The pieces of the default configuration. Sixteen of the largest uploads would be 256 MiB, which is too much for a default.
const DEFAULT_PIECE: usize = 65_536;

/// The configuration for [`BlockHandler`].
#[derive(Debug, Clone, Copy, PartialEq, Eq)]
pub struct BlockHandlerConfig {
    /// The largest message, encoded, to offer to the peer: 1 to 65,535 bytes.
    pub max_total_message_size: usize,
    /// How long a key's state lives without a call, in whole milliseconds: 1 to 4,294,967,295 of them.
    pub cache_expiry_duration: Duration,
    /// In strict mode an upload is its blocks in order from block 0, and nothing else; their size may fall on the way and never rises. Plain
    /// mode answers as coap-lite does, and takes blocks in any order: a push that is sent again, and is shorter, keeps the old one's tail;
    /// and the last block of a push, sent twice, hands on a corrupt body the second time, zeros in place of all blocks but that one. The
    /// last block that it can take is block 4095, since it reads no option of three bytes. A lane should be strict.
    pub mode: Mode,
    /// The longest upload: the length of each key's piece of the upload memory, 16 to 16,777,216.
    pub max_upload: usize,
    /// The longest cached response, head and payload: the length of each key's piece of the response memory, 16 to 65,536.
    pub max_response: usize,
}

/// coap-lite's numbers, pieces of 64 KiB, and strict mode.
impl Default for BlockHandlerConfig {
    fn default() -> Self {
        Self {
            max_total_message_size: 1152,
            cache_expiry_duration: Duration::from_secs(120),
            mode: Mode::Strict,
            max_upload: DEFAULT_PIECE,
            max_response: DEFAULT_PIECE,
        }
    }
}

/// A request, as far as the handler looks at it.
#[derive(Debug, Clone, Copy, PartialEq, Eq, Default)]
pub struct Request<'a> {
    /// The time in milliseconds, of any clock that never goes back.
    pub time: u64,
    /// What tells transfers apart, as sender, method and path: 1 to 64 bytes.
    pub key: &'a [u8],
    /// The length of the message encoded without its payload, at most 65,535.
    pub bare: usize,
    /// The bytes of its Block1 option. More than two, in strict mode more than three, count as no option.
    pub block1: Option<&'a [u8]>,
    /// The bytes of its Block2 option. More than two, in strict mode more than three, count as no option.
    pub block2: Option<&'a [u8]>,
    /// At most 65,535 bytes.
    pub payload: &'a [u8],
}

/// A response, as far as the handler looks at it.
#[derive(Debug, Clone, Copy, PartialEq, Eq, Default)]
pub struct Response<'a> {
    /// The time in milliseconds, of any clock that never goes back.
    pub time: u64,
    /// The key of the request that it answers.
    pub key: &'a [u8],
    /// The length of the message encoded without its payload, at most 65,535.
    pub bare: usize,
    /// Whether it has a Block2 option of its own, so that the application does the blocks itself.
    pub own_block2: bool,
    /// Its header and options in any encoding of the caller's, to be shown again with each chunk: at most 128 bytes.
    pub head: &'a [u8],
    /// At most 65,535 bytes.
    pub payload: &'a [u8],
}

/// What to do with a request.
#[derive(Debug, Clone, Copy, PartialEq, Eq)]
pub enum RequestAnswer<'a> {
    /// Send 2.31: the block was taken, and more are to come.
    Continue {
        /// For the Block1 option of the 2.31.
        block1: BlockValue,
    },
    /// Send 4.13: the request has to come in blocks.
    TooLarge {
        /// For the Block1 option of the 4.13: the size to use.
        block1: BlockValue,
    },
    /// To the application, with the body that the blocks made.
    Handed {
        /// For the Block1 option of its response.
        block1: BlockValue,
        /// The whole body, a part of the upload memory.
        body: &'a [u8],
    },
    /// To the application, as it came.
    Pass {
        /// The request's own payload.
        body: &'a [u8],
    },
    /// Send a chunk of the cached response.
    Served {
        /// For a Block1 option, if the request also completed an upload. Its body is lost.
        block1: Option<BlockValue>,
        /// For the Block2 option.
        block2: BlockValue,
        /// The cached response's head, a part of the response memory.
        head: &'a [u8],
        /// The chunk, a part of the response memory.
        chunk: &'a [u8],
    },
}

impl<'a> RequestAnswer<'a> {
    /// The body that the application sees; empty if it sees none.
    pub fn body(self) -> &'a [u8] {
        match self {
            RequestAnswer::Handed { body, .. } | RequestAnswer::Pass { body } => body,
            _ => &[],
        }
    }

    /// The code of the response to send, class * 32 + detail, where the handler decides it.
    pub fn response_code(self) -> Option<u8> {
        match self {
            RequestAnswer::Continue { .. } => Some(CONTINUE),
            RequestAnswer::TooLarge { .. } => Some(REQUEST_ENTITY_TOO_LARGE),
            _ => None,
        }
    }
}

/// What to send of a response.
#[derive(Debug, Clone, Copy, PartialEq, Eq)]
pub enum ResponseAnswer<'a> {
    /// The response as it is.
    Plain,
    /// Its last chunk. Nothing was cached.
    Whole {
        /// For the Block2 option.
        block2: BlockValue,
        /// What to send of the payload.
        chunk: &'a [u8],
    },
    /// A chunk after which more follow. The response is cached, and requests for the other chunks are served from there.
    First {
        /// For the Block2 option.
        block2: BlockValue,
        /// What to send of the payload.
        chunk: &'a [u8],
    },
}

/// Does block-wise transfers by intercepting requests and responses.
///
/// `Memory` is what it keeps bodies in: vectors of its own after [`new`](BlockHandler::new), or anything that lends bytes, as
/// `&mut [u8]`, after [`with_memories`](BlockHandler::with_memories).
#[derive(Debug, Clone)]
pub struct BlockHandler<Memory = Vec<u8>> {
    pub(crate) config: ffi::Config,
    pub(crate) table: Table,
    pub(crate) upload: Memory,
    pub(crate) response: Memory,
}

impl BlockHandler {
    /// A handler with memories of its own, sixteen pieces each. Under a configuration off the limits every call is refused.
    pub fn new(config: BlockHandlerConfig) -> Self {
        let memory = |piece: usize, most: usize| vec![0; if piece <= most { ENTRIES * piece } else { 0 }];
        Self::with_memories(config, memory(config.max_upload, MAX_UPLOAD), memory(config.max_response, MAX_RESPONSE))
    }
}

impl<Memory: AsRef<[u8]> + AsMut<[u8]>> BlockHandler<Memory> {
    /// A handler over these memories. If they are not sixteen pieces long, every call is refused.
    pub fn with_memories(config: BlockHandlerConfig, upload: Memory, response: Memory) -> Self {
        Self { config: ffi::Config::from(config), table: ffi::fresh(), upload, response }
    }

    /// Its mode, in which a caller reads and writes the options of its messages.
    ///
    /// ```
    /// use block_handler::{BlockHandler, BlockHandlerConfig, Request, RequestAnswer};
    ///
    /// let mut handler = BlockHandler::new(BlockHandlerConfig::default());
    /// let lane = Request { key: b"lane 7 PUT /prices", bare: 20, ..Request::default() };
    /// let block = Request { block1: Some(&[0x08]), payload: b"milk 1.19, bread", ..lane }; // block 0 of 16 bytes
    /// let RequestAnswer::Continue { block1 } = handler.intercept_request(&block)? else { panic!("more are to come") };
    /// assert_eq!(block1.write(handler.mode())[..], []); // the Block1 option of the 2.31: num 0, no more, size 16
    /// # Ok::<(), block_handler::Refusal>(())
    /// ```
    pub fn mode(&self) -> Mode {
        self.config.mode()
    }

    /// The bytes held: over the keys that have an entry, what is assembled of an upload, and head and payload of a cached response. At
    /// most sixteen times `max_upload` and `max_response` together.
    ///
    /// The calls keep this figure, and here it is read and not counted, in the same short time whatever is held: a screen may ask every
    /// second. A key whose time has run out counts until a call frees its entry, which any call does that is not refused by
    /// [`OffLimits`](Refusal::OffLimits), [`ClockBack`](Refusal::ClockBack) or [`TableFull`](Refusal::TableFull).
    ///
    /// ```
    /// use block_handler::{BlockHandler, BlockHandlerConfig, Request};
    ///
    /// let mut handler = BlockHandler::new(BlockHandlerConfig::default());
    /// assert_eq!(handler.bytes_held(), 0);
    ///
    /// let lane = Request { key: b"lane 7 PUT /prices", bare: 20, ..Request::default() };
    /// handler.intercept_request(&Request { block1: Some(&[0x08]), payload: b"milk 1.19, bread", ..lane })?; // block 0 of 16 bytes
    /// assert_eq!(handler.bytes_held(), 16);
    /// handler.intercept_request(&Request { block1: Some(&[0x10]), payload: b" 2.49", ..lane })?; // the last block: all is handed on
    /// assert_eq!(handler.bytes_held(), 0);
    /// # Ok::<(), block_handler::Refusal>(())
    /// ```
    pub fn bytes_held(&self) -> u64 {
        ffi::bytes_held(&self.table)
    }

    /// Takes a request before the application sees it.
    pub fn intercept_request<'a>(&'a mut self, request: &Request<'a>) -> Result<RequestAnswer<'a>, Refusal> {
        let reply = ffi::request(&mut self.table, self.config, self.upload.as_mut(), self.response.as_ref(), request);
        let block1 = reply.block1.into();
        match reply.kind {
            ffi::CONTINUE => Ok(RequestAnswer::Continue { block1 }),
            ffi::TOO_LARGE => Ok(RequestAnswer::TooLarge { block1 }),
            ffi::HANDED => Ok(RequestAnswer::Handed { block1, body: reply.part.of(self.upload.as_ref()) }),
            ffi::PASS => Ok(RequestAnswer::Pass { body: request.payload }),
            ffi::SERVED => Ok(self.served(reply)),
            _ => Err(reply.refusal()),
        }
    }

    fn served(&self, reply: Reply) -> RequestAnswer<'_> {
        let memory = self.response.as_ref();
        RequestAnswer::Served {
            block1: reply.block1.value(),
            block2: reply.block2.into(),
            head: reply.head.of(memory),
            chunk: reply.part.of(memory),
        }
    }

    /// Takes a response before it is sent. A chunk is a part of the response's own payload.
    pub fn intercept_response<'a>(&mut self, response: &Response<'a>) -> Result<ResponseAnswer<'a>, Refusal> {
        let reply = ffi::response(&mut self.table, self.config, self.upload.as_ref(), self.response.as_mut(), response);
        let (block2, chunk) = (reply.block2.into(), reply.part.of(response.payload));
        match reply.kind {
            ffi::PLAIN => Ok(ResponseAnswer::Plain),
            ffi::WHOLE => Ok(ResponseAnswer::Whole { block2, chunk }),
            ffi::FIRST => Ok(ResponseAnswer::First { block2, chunk }),
            _ => Err(reply.refusal()),
        }
    }
}
