use std::error::Error;
use std::fmt;
use std::iter::FusedIterator;

use crate::ffi::{self, ReadMessage};

/// A message's type.
#[derive(Debug, Clone, Copy, PartialEq, Eq, Hash, Default)]
pub enum MessageType {
    /// CON
    #[default]
    Confirmable = 0,
    /// NON
    NonConfirmable = 1,
    /// ACK
    Acknowledgement = 2,
    /// RST
    Reset = 3,
}

/// A CoAP message (RFC 7252), read where it stands: its parts are borrowed, never copied.
///
/// ```
/// use block_handler::{Message, MessageType};
///
/// let message = Message::from_bytes(b"\x64\x45\x5d\x1f\x00\x00\x39\x74\xffHello World!")?;
/// assert_eq!(message.message_type(), MessageType::Acknowledgement);
/// assert_eq!((message.code(), message.message_id()), (0x45, 0x5d1f));
/// assert_eq!(message.token(), [0, 0, 0x39, 0x74]);
/// assert_eq!(message.payload(), b"Hello World!");
/// assert_eq!(message.bare(), 8); // for a Response of this crate
/// # Ok::<(), block_handler::Malformed>(())
/// ```
#[derive(Debug, Clone, Copy, PartialEq, Eq)]
pub struct Message<'a> {
    bytes: &'a [u8],
    read: ReadMessage,
}

impl<'a> Message<'a> {
    /// Reads a whole message. It is judged before any part of it is shown.
    pub fn from_bytes(bytes: &'a [u8]) -> Result<Self, Malformed> {
        let read = ffi::message_read(bytes);
        if read.refusal == 0 {
            Ok(Self { bytes, read })
        } else {
            Err(Malformed)
        }
    }

    /// Its type.
    pub fn message_type(&self) -> MessageType {
        match self.read.message_type {
            0 => MessageType::Confirmable,
            1 => MessageType::NonConfirmable,
            2 => MessageType::Acknowledgement,
            _ => MessageType::Reset,
        }
    }

    /// Its code in one byte: class * 32 + detail.
    pub fn code(&self) -> u8 {
        self.read.code
    }

    /// Its message ID.
    pub fn message_id(&self) -> u16 {
        self.read.message_id
    }

    /// Its token, of at most 8 bytes.
    pub fn token(&self) -> &'a [u8] {
        self.read.token.of(self.bytes)
    }

    /// Its options, in order: numbers, which never fall, and values.
    pub fn options(&self) -> Options<'a> {
        Options { bytes: self.bytes, at: self.read.options.from, before: 0 }
    }

    /// The value of its n-th option of this number, the first being 0.
    pub fn option(&self, number: u16, n: usize) -> Option<&'a [u8]> {
        let (_, value) = ffi::nth_option(self.bytes, self.read.options.from, number, n).option()?;
        Some(value.of(self.bytes))
    }

    /// Its payload; empty if it has none.
    pub fn payload(&self) -> &'a [u8] {
        self.read.payload.of(self.bytes)
    }

    /// Its length with the payload taken out: the `bare` of a [`Request`](crate::Request) or a [`Response`](crate::Response).
    pub fn bare(&self) -> usize {
        self.read.bare
    }
}

/// The options of a [`Message`]: each number with its value.
#[derive(Debug, Clone)]
pub struct Options<'a> {
    bytes: &'a [u8],
    at: usize,
    before: u16,
}

impl<'a> Iterator for Options<'a> {
    type Item = (u16, &'a [u8]);

    fn next(&mut self) -> Option<Self::Item> {
        let (number, value) = ffi::next_option(self.bytes, self.at, self.before).option()?;
        self.at = value.to;
        self.before = number;
        Some((number, value.of(self.bytes)))
    }
}

/// Past the last one there is never another.
impl FusedIterator for Options<'_> {}

/// What to write: a message in parts.
///
/// ```
/// use block_handler::{Draft, Message};
///
/// let draft = Draft {
///     code: 0x01, // GET
///     message_id: 0x5d1f,
///     token: &[0, 0, 0x39, 0x74],
///     numbers: &[3, 11], // Uri-Host, Uri-Path
///     lengths: &[9, 3],
///     values: b"localhosttv1",
///     ..Draft::default()
/// };
/// let mut out = [0; 64];
/// let len = draft.to_bytes(&mut out)?;
/// let message = Message::from_bytes(&out[..len])?;
/// assert_eq!(message.option(11, 0), Some(&b"tv1"[..]));
/// # Ok::<(), Box<dyn std::error::Error>>(())
/// ```
#[derive(Debug, Clone, Copy, PartialEq, Eq, Default)]
pub struct Draft<'a> {
    /// Its type.
    pub message_type: MessageType,
    /// Its code in one byte: class * 32 + detail. 0 is an empty message's, which has no token, no options and no payload.
    pub code: u8,
    /// Its message ID.
    pub message_id: u16,
    /// At most 8 bytes.
    pub token: &'a [u8],
    /// The options' numbers, which never fall: at most 65,535.
    pub numbers: &'a [u32],
    /// The lengths of their values: as many as there are numbers, each at most 65,804.
    pub lengths: &'a [u32],
    /// The values, one after another: as many bytes as the lengths add up to.
    pub values: &'a [u8],
    /// Empty for none.
    pub payload: &'a [u8],
}

impl Draft<'_> {
    /// Writes the message to the start of `out` and says how many bytes it has. If it is not written, `out` is as it was.
    pub fn to_bytes(&self, out: &mut [u8]) -> Result<usize, NotWritten> {
        let written = ffi::message_write(out, self);
        if written.refusal == 0 {
            Ok(written.len)
        } else {
            Err(NotWritten)
        }
    }
}

/// Whether the value of an option may have this length; none if RFC 7252, 7641 and 7959 register no such option. Neither reading nor
/// writing asks this.
///
/// ```
/// assert_eq!(block_handler::length_allowed(35, 1034), Some(true)); // Proxy-Uri
/// assert_eq!(block_handler::length_allowed(35, 0), Some(false));
/// assert_eq!(block_handler::length_allowed(36, 0), None);
/// ```
pub fn length_allowed(number: u16, len: usize) -> Option<bool> {
    match ffi::option_length(number, len) {
        0 => None,
        answer => Some(answer == 1),
    }
}

/// Refusal 11: the bytes are no message, or one with an option number above 65,535.
#[derive(Debug, Clone, Copy, PartialEq, Eq, Hash)]
pub struct Malformed;

/// Refusal 21: no such message has an encoding, what is given describes none, or the output is too small for it.
#[derive(Debug, Clone, Copy, PartialEq, Eq, Hash)]
pub struct NotWritten;

impl fmt::Display for Malformed {
    fn fmt(&self, f: &mut fmt::Formatter<'_>) -> fmt::Result {
        write!(f, "refusal 11: the message is malformed")
    }
}

impl fmt::Display for NotWritten {
    fn fmt(&self, f: &mut fmt::Formatter<'_>) -> fmt::Result {
        write!(f, "refusal 21: the message has no encoding, or the output is too small")
    }
}

impl Error for Malformed {}

impl Error for NotWritten {}
