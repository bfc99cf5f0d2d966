//! Messages, read and written, against a plain reader and writer of RFC 7252.

use std::thread;

use super::calls::Random;
use super::Fenced;
use crate::{length_allowed, Draft, Malformed, Message, MessageType, NotWritten};

const TYPES: [MessageType; 4] = [MessageType::Confirmable, MessageType::NonConfirmable, MessageType::Acknowledgement, MessageType::Reset];

/// The two messages of coap-lite's documentation.
const REQUEST: &[u8] = b"\x44\x01\x5d\x1f\x00\x00\x39\x74\x39localhost\x83tv1";
const RESPONSE: &[u8] = b"\x64\x45\x5d\x1f\x00\x00\x39\x74\xffHello World!";

/// A message in parts of its own.
#[derive(Debug, Clone, PartialEq, Eq, Default)]
struct Plain {
    message_type: MessageType,
    code: u8,
    message_id: u16,
    token: Vec<u8>,
    options: Vec<(u32, Vec<u8>)>,
    payload: Vec<u8>,
}

fn nibble(n: usize) -> (u8, Vec<u8>) {
    match n {
        0..=12 => (n as u8, vec![]),
        13..=268 => (13, vec![(n - 13) as u8]),
        _ => (14, ((n - 269) as u16).to_be_bytes().to_vec()),
    }
}

/// The first byte and the rest.
fn byte(rest: &mut &[u8]) -> Option<u8> {
    let (first, left) = rest.split_first()?;
    *rest = left;
    Some(*first)
}

fn bytes(rest: &mut &[u8], n: usize) -> Option<Vec<u8>> {
    let (first, left) = rest.split_at_checked(n)?;
    *rest = left;
    Some(first.to_vec())
}

fn extended(rest: &mut &[u8], nibble: u8) -> Option<u32> {
    match nibble {
        0..=12 => Some(nibble.into()),
        13 => Some(u32::from(byte(rest)?) + 13),
        14 => Some(u32::from(u16::from_be_bytes([byte(rest)?, byte(rest)?])) + 269),
        _ => None,
    }
}

impl Plain {
    fn encode(&self) -> Vec<u8> {
        let mut out = vec![0x40 | (self.message_type as u8) << 4 | self.token.len() as u8, self.code];
        out.extend(self.message_id.to_be_bytes());
        out.extend(&self.token);
        let mut before = 0;
        for (number, value) in &self.options {
            let (delta, more) = nibble((number - before) as usize);
            let (len, most) = nibble(value.len());
            out.push(delta << 4 | len);
            out.extend([more, most, value.clone()].concat());
            before = *number;
        }
        if !self.payload.is_empty() {
            out.push(0xff);
            out.extend(&self.payload);
        }
        out
    }

    fn decode(message: &[u8]) -> Option<Self> {
        let mut rest = message;
        let (first, code) = (byte(&mut rest)?, byte(&mut rest)?);
        let message_id = u16::from_be_bytes([byte(&mut rest)?, byte(&mut rest)?]);
        if first >> 6 != 1 || first & 15 > 8 || (code == 0 && message.len() > 4) {
            return None;
        }
        let token = bytes(&mut rest, (first & 15).into())?;
        let mut plain = Self { message_type: TYPES[usize::from(first >> 4 & 3)], code, message_id, token, ..Self::default() };
        let mut number = 0;
        while let Some(head) = byte(&mut rest) {
            if head == 0xff {
                plain.payload = rest.to_vec();
                return (!rest.is_empty()).then_some(plain);
            }
            number += extended(&mut rest, head >> 4)?;
            let len = extended(&mut rest, head & 15)?;
            plain.options.push((number, bytes(&mut rest, len as usize)?));
            if number > 65_535 {
                return None;
            }
        }
        Some(plain)
    }

    fn of(message: Message) -> Self {
        Self {
            message_type: message.message_type(),
            code: message.code(),
            message_id: message.message_id(),
            token: message.token().to_vec(),
            options: message.options().map(|(number, value)| (number.into(), value.to_vec())).collect(),
            payload: message.payload().to_vec(),
        }
    }

    /// Writes it by the library, where there is so much room. Every other byte is as it was.
    fn written(&self, room: usize) -> Result<Vec<u8>, NotWritten> {
        let numbers: Vec<u32> = self.options.iter().map(|(number, _)| *number).collect();
        let lengths: Vec<u32> = self.options.iter().map(|(_, value)| value.len() as u32).collect();
        let values: Vec<u8> = self.options.iter().flat_map(|(_, value)| value.clone()).collect();
        let draft = Draft {
            message_type: self.message_type,
            code: self.code,
            message_id: self.message_id,
            token: &self.token,
            numbers: &numbers,
            lengths: &lengths,
            values: &values,
            payload: &self.payload,
        };
        write(draft, room)
    }

    /// Written as by `encode`, and read back the same.
    fn round_trip(&self) {
        let message = self.encode();
        for room in [message.len(), message.len() + 1, message.len() + 100] {
            assert_eq!(self.written(room).as_ref(), Ok(&message));
        }
        assert_eq!(self.written(message.len() - 1), Err(NotWritten));
        assert_eq!(Message::from_bytes(&message).map(Plain::of).as_ref(), Ok(self));
        assert!(same_reading(&message));
    }
}

fn write(draft: Draft, room: usize) -> Result<Vec<u8>, NotWritten> {
    let mut out = Fenced::new(&vec![0x5a; room]);
    let answer = draft.to_bytes(out.as_mut());
    let (written, left) = out.as_ref().split_at(answer.unwrap_or(0));
    assert!(out.stands() && left.iter().all(|&byte| byte == 0x5a));
    answer.map(|_| written.to_vec())
}

/// Whether it is a message. The library and the plain reader say the same, and what is read is written to the same bytes.
fn same_reading(message: &[u8]) -> bool {
    let Ok(read) = Message::from_bytes(message) else {
        assert_eq!(Plain::decode(message), None, "{message:02x?}");
        return false;
    };
    let plain = Plain::of(read);
    assert_eq!(Plain::decode(message).as_ref(), Some(&plain), "{message:02x?}");
    assert_eq!(read.bare(), Plain { payload: vec![], ..plain.clone() }.encode().len());
    assert_eq!(plain.written(message.len()).as_deref(), Ok(message));
    for (number, value) in &plain.options {
        let same: Vec<_> = plain.options.iter().filter(|(other, _)| other == number).map(|(_, value)| &value[..]).collect();
        let nth = |n| read.option(*number as u16, n);
        assert!(same.contains(&&value[..]) && (0..same.len()).all(|n| nth(n) == Some(same[n])) && nth(same.len()).is_none());
    }
    true
}

fn options(list: &[(u32, usize)]) -> Plain {
    let options = list.iter().map(|&(number, len)| (number, (0..len).map(|i| (i * 7 + i / 251) as u8).collect())).collect();
    Plain { code: 0x45, options, ..Plain::default() }
}

#[test]
fn documented() {
    let request = Message::from_bytes(REQUEST).unwrap();
    assert_eq!((request.message_type(), request.code(), request.message_id()), (MessageType::Confirmable, 1, 0x5d1f));
    assert_eq!((request.token(), request.payload(), request.bare()), (&[0, 0, 0x39, 0x74][..], &[][..], 22));
    assert!(request.options().eq([(3, &b"localhost"[..]), (11, b"tv1")]));
    assert_eq!((request.option(11, 0), request.option(11, 1), request.option(4, 0)), (Some(&b"tv1"[..]), None, None));

    let response = Message::from_bytes(RESPONSE).unwrap();
    assert_eq!((response.message_type(), response.code()), (MessageType::Acknowledgement, 0x45));
    assert_eq!((response.payload(), response.bare(), response.options().next()), (&b"Hello World!"[..], 8, None));
    assert!(same_reading(REQUEST) && same_reading(RESPONSE));
}

#[test]
fn parts_are_borrowed() {
    let request = Message::from_bytes(REQUEST).unwrap();
    assert_eq!(request.token().as_ptr_range(), REQUEST[4..8].as_ptr_range());
    assert_eq!(request.option(3, 0).unwrap().as_ptr_range(), REQUEST[9..18].as_ptr_range());
    assert_eq!(Message::from_bytes(RESPONSE).unwrap().payload().as_ptr_range(), RESPONSE[9..].as_ptr_range());
}

#[test]
fn boundaries() {
    const SIZES: [usize; 12] = [0, 1, 12, 13, 14, 267, 268, 269, 270, 525, 1034, 65_535];
    for delta in SIZES {
        for len in SIZES {
            options(&[(delta as u32, len)]).round_trip();
            options(&[(delta as u32, len), (65_535, 0), (65_535, 3)]).round_trip();
        }
    }
    options(&[(1, 65_804)]).round_trip();
    for token in 0..=8 {
        Plain { code: 255, message_type: TYPES[token % 4], token: vec![9; token], payload: vec![8; token % 2], ..Plain::default() }
            .round_trip();
    }
}

#[test]
fn heads() {
    for first in 0..=255 {
        for code in 0..3 {
            for len in 0..16 {
                same_reading(&[&[first, code][..], &[0; 14]].concat()[..len]);
            }
        }
    }
    assert_eq!(Message::from_bytes(b"\x40\x01\0\0\xff"), Err(Malformed));
    assert!(Message::from_bytes(b"\x40\x01\0\0\xff\xff").is_ok());
}

#[test]
fn cut_at_every_byte() {
    let list = [(1, 0), (12, 12), (25, 13), (25, 14), (293, 268), (562, 269), (562, 3), (65_535, 300)];
    let message = Plain { token: vec![1, 2, 3, 4, 5], payload: vec![6; 6], ..options(&list) }.encode();
    let taken = (0..message.len()).filter(|&n| same_reading(&message[..n])).count();
    assert!(taken > list.len());
}

#[test]
fn not_written() {
    let refused = |plain: Plain| assert_eq!(plain.written(70_000), Err(NotWritten), "{plain:?}");
    refused(options(&[(1, 65_805)]));
    refused(options(&[(2, 1), (1, 1)]));
    refused(options(&[(65_536, 1)]));
    refused(options(&[(u32::MAX, 1)]));
    refused(Plain { token: vec![0; 9], ..options(&[]) });
    refused(Plain { token: vec![0; 1], ..Plain::default() });
    refused(Plain { payload: vec![0; 1], ..Plain::default() });
    refused(Plain { code: 0, ..options(&[(1, 0)]) });
    Plain::default().round_trip();
    let draft = Draft { code: 1, numbers: &[1, 2], lengths: &[2, 2], values: b"abcd", ..Draft::default() };
    assert_eq!(write(draft, 10), Ok(b"\x40\x01\0\0\x12ab\x12cd".to_vec()));
    for wrong in [
        Draft { numbers: &[1], ..draft },
        Draft { numbers: &[1, 2, 3], ..draft },
        Draft { lengths: &[2, 1], ..draft },
        Draft { lengths: &[2, 3], ..draft },
        Draft { lengths: &[u32::MAX, 5], ..draft },
        Draft { values: b"", ..draft },
    ] {
        assert_eq!(write(wrong, 100), Err(NotWritten), "{wrong:?}");
    }
}

/// Mostly small, often near where an encoding changes.
fn some_size(random: &mut Random, most: usize) -> usize {
    let end = random.one_of(&[1, 12, 13, 268, 269, 65_535]);
    let size = if random.percent(30) { end + random.up_to(2) - 1 } else { random.up_to(20) };
    size.min(most)
}

fn some_bytes(random: &mut Random, len: usize) -> Vec<u8> {
    (0..len).map(|_| random.next() as u8).collect()
}

fn some_message(random: &mut Random) -> Plain {
    let mut number = 0;
    let (token, payload) = (random.up_to(8), random.one_of(&[0, 1, 2, 50]));
    let mut plain = Plain {
        message_type: random.one_of(&TYPES),
        code: 1 + random.below(255) as u8,
        message_id: random.next() as u16,
        token: some_bytes(random, token),
        options: vec![],
        payload: some_bytes(random, payload),
    };
    for _ in 0..random.below(8) {
        number += some_size(random, 65_535 - number);
        let len = some_size(random, 600);
        plain.options.push((number as u32, some_bytes(random, len)));
    }
    plain
}

#[test]
fn random_messages() {
    let mut random = Random(7252);
    for _ in 0..3000 {
        some_message(&mut random).round_trip();
    }
}

/// Messages with a few bytes changed, and bytes after a good head.
#[test]
fn random_bytes() {
    let mut random = Random(21);
    let mut taken = 0;
    for n in 0..30_000 {
        let mut message = if n % 2 == 0 {
            some_message(&mut random).encode()
        } else {
            let len = random.up_to(30);
            [b"\x42\x01\0\0".to_vec(), (0..len).map(|_| random.one_of(&[0, 0, 1, 2, 3, 0x13, 0xd1, 0xff])).collect()].concat()
        };
        for _ in 0..random.up_to(2) {
            let at = random.up_to(message.len() - 1);
            message[at] = random.next() as u8;
        }
        taken += u64::from(same_reading(&message));
    }
    assert!((5000..25_000).contains(&taken), "{taken}");
}

/// As many options as bytes, on a small stack.
#[test]
fn many_options() {
    for len in [65_535, 1 << 24] {
        let mut message = vec![0; len];
        message[..2].copy_from_slice(&[0x40, 1]);
        let reads = move || {
            let read = Message::from_bytes(&message).unwrap();
            assert_eq!((read.bare(), read.options().count()), (len, len - 4));
            assert_eq!((read.option(0, len - 5), read.option(0, len - 4)), (Some(&[][..]), None));
        };
        thread::Builder::new().stack_size(65_536).spawn(reads).unwrap().join().unwrap();
    }
}

#[test]
fn lengths() {
    let cases = [(1, 0, 8), (3, 1, 255), (4, 1, 8), (5, 0, 0), (6, 0, 3), (27, 0, 3), (35, 1, 1034), (60, 0, 4)];
    for (number, least, most) in cases {
        for len in 0..1100 {
            assert_eq!(length_allowed(number, len), Some((least..=most).contains(&len)), "{number} {len}");
        }
        assert_eq!(length_allowed(number, usize::MAX), Some(false));
    }
    let known = (0..=u16::MAX).filter(|&number| length_allowed(number, 0).is_some()).count();
    assert_eq!(known, 19);
}

#[test]
fn refusals_have_their_numbers() {
    assert_eq!(Malformed.to_string(), "refusal 11: the message is malformed");
    assert_eq!(NotWritten.to_string(), "refusal 21: the message has no encoding, or the output is too small");
}
