use std::error::Error;
use std::fmt;

/// Why a call was refused: the ten numbers, in the order of their numbers.
///
/// A refusal up to [`TableFull`](Refusal::TableFull) leaves everything as it was. A later one only touches the key's entry, but for
/// [`PastTheEnd`](Refusal::PastTheEnd), which in a request also records Block2 and ends an assembly that the call completed.
#[derive(Debug, Clone, Copy, PartialEq, Eq, Hash)]
pub enum Refusal {
    /// A number, a length or a memory is off the limits.
    OffLimits = 1,
    /// The time is before the last one recorded.
    ClockBack = 2,
    /// The key is not live, and sixteen others are.
    TableFull = 3,
    /// The message leaves no room for a payload at any block size.
    TooLargeToEncode = 4,
    /// No block value can be made, as for a size of 0, or for a num above 65,535 (in strict mode above 1,048,575).
    NoBlockValue = 5,
    /// Plain mode: the block would extend the assembly by more than 16,384 bytes.
    Jump = 6,
    /// The key's piece of memory is too small.
    NoRoom = 7,
    /// The chunk asked for begins past the end.
    PastTheEnd = 8,
    /// Strict mode: not the next block of the upload. It does not start where the assembly ends, or it is larger than the block before.
    NotNext = 9,
    /// Strict mode: the block's form is bad, a payload too long or too short for it or the reserved exponent.
    BadForm = 10,
}

impl Refusal {
    const ALL: [Refusal; 10] = [
        Refusal::OffLimits,
        Refusal::ClockBack,
        Refusal::TableFull,
        Refusal::TooLargeToEncode,
        Refusal::NoBlockValue,
        Refusal::Jump,
        Refusal::NoRoom,
        Refusal::PastTheEnd,
        Refusal::NotNext,
        Refusal::BadForm,
    ];

    /// Its number, 1 to 10.
    pub fn number(self) -> u8 {
        self as u8
    }

    /// The refusal of that number.
    pub fn from_number(number: u8) -> Option<Refusal> {
        let index = usize::from(number).checked_sub(1)?;
        Refusal::ALL.get(index).copied()
    }

    /// The code of the response to send, class * 32 + detail: 4.08, 4.00 or 5.00.
    pub fn response_code(self) -> u8 {
        match self {
            Refusal::NotNext => REQUEST_ENTITY_INCOMPLETE,
            Refusal::PastTheEnd | Refusal::BadForm => BAD_REQUEST,
            _ => INTERNAL_SERVER_ERROR,
        }
    }
}

/// A response code in one byte, as CoAP writes it.
const fn code(class: u8, detail: u8) -> u8 {
    class * 32 + detail
}

pub(crate) const CONTINUE: u8 = code(2, 31);
const BAD_REQUEST: u8 = code(4, 0);
const REQUEST_ENTITY_INCOMPLETE: u8 = code(4, 8);
pub(crate) const REQUEST_ENTITY_TOO_LARGE: u8 = code(4, 13);
const INTERNAL_SERVER_ERROR: u8 = code(5, 0);

impl fmt::Display for Refusal {
    fn fmt(&self, f: &mut fmt::Formatter<'_>) -> fmt::Result {
        let reason = match self {
            Refusal::OffLimits => "a number, length or memory is off the limits",
            Refusal::ClockBack => "the time is before the last one recorded",
            Refusal::TableFull => "sixteen other keys are live",
            Refusal::TooLargeToEncode => "the message is too large to encode at any block size",
            Refusal::NoBlockValue => "no block value can be made",
            Refusal::Jump => "the block would extend the assembly too far",
            Refusal::NoRoom => "the key's piece of memory is too small",
            Refusal::PastTheEnd => "the chunk asked for begins past the end",
            Refusal::NotNext => "not the next block",
            Refusal::BadForm => "the block's form is bad",
        };
        write!(f, "refusal {}: {reason}", self.number())
    }
}

impl Error for Refusal {}
