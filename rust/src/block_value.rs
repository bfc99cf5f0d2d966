use std::error::Error;
use std::fmt;
use std::ops::Deref;

use crate::{ffi, Mode};

/// The value of a Block1 or Block2 option.
#[derive(Debug, Clone, Copy, PartialEq, Eq, Hash, Default)]
pub struct BlockValue {
    /// The block's number, in blocks of this size.
    pub num: u32,
    /// Whether more blocks follow.
    pub more: bool,
    /// The size's exponent, less 4. Only its low three bits count.
    pub size_exponent: u8,
}

impl BlockValue {
    /// The value with the largest size that is a power of two and not above `size`, and 16 at least. Its num is at most 65,535, and in
    /// strict mode at most 1,048,575.
    ///
    /// ```
    /// use block_handler::{BlockValue, Mode};
    ///
    /// assert_eq!(BlockValue::new(Mode::Strict, 2, true, 100).unwrap().size(), 64);
    /// assert_eq!(BlockValue::new(Mode::Strict, 2, true, 15).unwrap().size(), 16);
    /// assert!(BlockValue::new(Mode::Strict, 2, true, 0).is_err());
    /// assert!(BlockValue::new(Mode::Strict, 2, true, 4096).is_err());
    /// assert!(BlockValue::new(Mode::Strict, 65_536, true, 64).is_ok());
    /// assert!(BlockValue::new(Mode::Plain, 65_536, true, 64).is_err());
    /// ```
    pub fn new(mode: Mode, num: usize, more: bool, size: usize) -> Result<Self, InvalidBlockValue> {
        let power = size.checked_ilog2().filter(|&power| power < 12).ok_or(InvalidBlockValue::Size(size))?;
        let last = match mode {
            Mode::Plain => 65_535,
            Mode::Strict => 1_048_575,
        };
        if num > last {
            return Err(InvalidBlockValue::Num(num));
        }
        Ok(Self { num: num as u32, more, size_exponent: power.saturating_sub(4) as u8 })
    }

    /// The size of the block in bytes, 16 to 2048.
    pub fn size(self) -> usize {
        16 << (self.size_exponent % 8)
    }

    /// Reads an option. One of more than two bytes, in strict mode of more than three, cannot be read, and the handler takes it for
    /// absent.
    pub fn read(mode: Mode, option: &[u8]) -> Option<Self> {
        ffi::read(mode, option)
    }

    /// Its option in the fewest bytes. In plain mode a num above 4095 is taken modulo 4096. In strict mode every num that is made or read
    /// is written as it is; one above 1,048,575 is taken modulo 1,048,576.
    ///
    /// ```
    /// use block_handler::{BlockValue, Mode};
    ///
    /// let block = BlockValue::new(Mode::Strict, 4099, true, 64)?;
    /// let option = block.write(Mode::Strict);
    /// assert_eq!(option[..], [0x01, 0x00, 0x3a]);
    /// assert_eq!(BlockValue::read(Mode::Strict, &option), Some(block));
    ///
    /// assert_eq!(BlockValue::read(Mode::Plain, &option), None);
    /// assert_eq!(block.write(Mode::Plain)[..], [0x3a]);
    /// # Ok::<(), block_handler::InvalidBlockValue>(())
    /// ```
    pub fn write(self, mode: Mode) -> BlockOption {
        let (len, bytes) = ffi::write(mode, self);
        BlockOption { len, bytes }
    }
}

/// The bytes of a Block option, none to three: a slice, and nothing on the heap.
#[derive(Debug, Clone, Copy, PartialEq, Eq)]
pub struct BlockOption {
    len: usize,
    bytes: [u8; 3],
}

impl Deref for BlockOption {
    type Target = [u8];

    fn deref(&self) -> &[u8] {
        &self.bytes[..self.len]
    }
}

/// Why [`BlockValue::new`] makes no value.
#[derive(Debug, Clone, Copy, PartialEq, Eq)]
pub enum InvalidBlockValue {
    /// The size is 0, or above 4095.
    Size(usize),
    /// The num is above the mode's limit: 65,535, in strict mode 1,048,575.
    Num(usize),
}

impl fmt::Display for InvalidBlockValue {
    fn fmt(&self, f: &mut fmt::Formatter<'_>) -> fmt::Result {
        match self {
            InvalidBlockValue::Size(size) => write!(f, "no block has a size of {size}"),
            InvalidBlockValue::Num(num) => write!(f, "no block has the number {num}"),
        }
    }
}

impl Error for InvalidBlockValue {}
