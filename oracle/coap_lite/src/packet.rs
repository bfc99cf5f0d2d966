//! Stands for the crate's packet.rs: a message as header, options by number, and payload.
//!
//! What rests on it: an option that is not there is `None`, one that cannot be read is `Some(Err(..))`; `add` appends to an option's
//! list, `set` replaces it; `options` gives all of them. The signatures follow from the calls in block_handler.

use std::collections::{btree_map, BTreeMap, LinkedList};

use crate::error::{IncompatibleOptionValueFormat, MessageError};
use crate::option_value::OptionValueType;
use crate::{Header, MessageClass};

/// The options that the handler names, with their numbers of RFC 7959, and any other by its number.
#[derive(Debug, Clone, Copy, PartialEq, Eq)]
pub enum CoapOption {
    Block1,
    Block2,
    Unknown(u16),
}

const BLOCK2: u16 = 23;
const BLOCK1: u16 = 27;

impl From<u16> for CoapOption {
    fn from(number: u16) -> Self {
        match number {
            BLOCK1 => CoapOption::Block1,
            BLOCK2 => CoapOption::Block2,
            other => CoapOption::Unknown(other),
        }
    }
}

impl From<CoapOption> for u16 {
    fn from(option: CoapOption) -> u16 {
        match option {
            CoapOption::Block1 => BLOCK1,
            CoapOption::Block2 => BLOCK2,
            CoapOption::Unknown(number) => number,
        }
    }
}

/// A message. `bare` is not the crate's: the length of the message encoded with its payload taken out, given by the script.
#[derive(Debug, Clone)]
pub struct Packet {
    pub header: Header,
    options: BTreeMap<u16, LinkedList<Vec<u8>>>,
    pub payload: Vec<u8>,
    bare: usize,
}

impl Packet {
    /// A message with no options and no payload, of the length given.
    pub fn new(code: MessageClass, bare: usize) -> Self {
        Self { header: Header::new(code), options: BTreeMap::new(), payload: Vec::new(), bare }
    }

    /// Stands for the encoder. Only the length is looked at, and only with the payload taken out: it is `bare`, whatever options the
    /// handler adds later. It never fails, where the crate's own may (`MessageError`), and the handler would then panic.
    pub fn to_bytes(&self) -> Result<Vec<u8>, MessageError> {
        Ok(vec![0; self.bare + self.payload.len()])
    }

    pub fn options(&self) -> btree_map::Iter<'_, u16, LinkedList<Vec<u8>>> {
        self.options.iter()
    }

    pub fn get_option(&self, option: CoapOption) -> Option<&LinkedList<Vec<u8>>> {
        self.options.get(&option.into())
    }

    pub fn get_first_option_as<T: OptionValueType>(&self, option: CoapOption) -> Option<Result<T, IncompatibleOptionValueFormat>> {
        let first = self.get_option(option)?.front()?;
        Some(T::try_from(first.clone()))
    }

    pub fn set_option(&mut self, option: CoapOption, values: LinkedList<Vec<u8>>) {
        self.options.insert(option.into(), values);
    }

    pub fn set_options_as<T: OptionValueType>(&mut self, option: CoapOption, values: LinkedList<T>) {
        self.set_option(option, values.into_iter().map(Into::into).collect());
    }

    pub fn add_option(&mut self, option: CoapOption, value: Vec<u8>) {
        self.options.entry(option.into()).or_default().push_back(value);
    }

    pub fn add_option_as<T: OptionValueType>(&mut self, option: CoapOption, value: T) {
        self.add_option(option, value.into());
    }
}
