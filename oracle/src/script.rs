//! The lines of a script and the lines of its answers (document 01, "The script program"), and two further kinds of line:
//! `C MODE T LIFETIME U V` starts a fresh handler, `S` is for our side alone.

use std::fmt::Write;
use std::io::{self, BufRead};

pub const HEADER: &str = "line answer block1 block2 bytes";

/// How a handler is set up.
#[derive(Debug, Clone, Copy, PartialEq, Eq)]
pub struct Config {
    pub strict: bool,
    pub t: u64,
    pub lifetime: u64,
    pub u: u64,
    pub v: u64,
}

/// What holds until the first `C` line: the set-up of document 01's `blockscript`.
pub const FIRST: Config = Config { strict: false, t: 64, lifetime: 120_000, u: 2048, v: 1024 };

#[derive(Debug, Clone, PartialEq, Eq)]
pub enum What {
    Request { block1: Option<Vec<u8>>, block2: Option<Vec<u8>>, payload: Vec<u8> },
    Response { own: bool, head: Vec<u8>, payload: Vec<u8> },
}

#[derive(Debug, Clone, PartialEq, Eq)]
pub struct Call {
    pub now: u64,
    pub key: Vec<u8>,
    pub bare: u64,
    pub what: What,
}

#[derive(Debug, Clone, PartialEq, Eq)]
pub enum Line {
    Config(Config),
    Show,
    Call(Call),
    Unreadable,
}

/// Digits of any number, of a value below 2^64.
fn decimal(field: &[u8]) -> Option<u64> {
    if field.is_empty() {
        return None;
    }
    field.iter().try_fold(0u64, |n, &c| match c {
        b'0'..=b'9' => n.checked_mul(10)?.checked_add(u64::from(c - b'0')),
        _ => None,
    })
}

fn digit(c: u8) -> Option<u8> {
    match c {
        b'0'..=b'9' => Some(c - b'0'),
        b'a'..=b'f' => Some(c - b'a' + 10),
        _ => None,
    }
}

/// Lower-case hex in pairs; `.` is zero bytes.
fn hex(field: &[u8]) -> Option<Vec<u8>> {
    if field == b"." {
        return Some(Vec::new());
    }
    if field.is_empty() || field.len() % 2 == 1 {
        return None;
    }
    field.chunks(2).map(|c| Some(digit(c[0])? * 16 + digit(c[1])?)).collect()
}

/// An option: hex, or `-` if it is absent. The outer `None` is a field that cannot be read.
fn option(field: &[u8]) -> Option<Option<Vec<u8>>> {
    if field == b"-" {
        Some(None)
    } else {
        hex(field).map(Some)
    }
}

/// Reads a line without its line end. Fields stand apart by one space.
pub fn read(line: &[u8]) -> Line {
    let fields: Vec<&[u8]> = line.split(|&c| c == b' ').collect();
    read_fields(&fields).unwrap_or(Line::Unreadable)
}

fn read_fields(fields: &[&[u8]]) -> Option<Line> {
    match *fields {
        [b"Q", now, key, bare, block1, block2, payload] => Some(Line::Call(Call {
            now: decimal(now)?,
            key: hex(key)?,
            bare: decimal(bare)?,
            what: What::Request { block1: option(block1)?, block2: option(block2)?, payload: hex(payload)? },
        })),
        [b"P", now, key, bare, own, head, payload] => {
            let own = match decimal(own)? {
                0 => false,
                1 => true,
                _ => return None,
            };
            Some(Line::Call(Call {
                now: decimal(now)?,
                key: hex(key)?,
                bare: decimal(bare)?,
                what: What::Response { own, head: hex(head)?, payload: hex(payload)? },
            }))
        }
        [b"C", mode, t, lifetime, u, v] => {
            let strict = match mode {
                b"plain" => false,
                b"strict" => true,
                _ => return None,
            };
            Some(Line::Config(Config { strict, t: decimal(t)?, lifetime: decimal(lifetime)?, u: decimal(u)?, v: decimal(v)? }))
        }
        [b"S"] => Some(Line::Show),
        _ => None,
    }
}

fn put_hex(text: &mut String, bytes: &[u8]) {
    const DIGITS: &[u8; 16] = b"0123456789abcdef";
    if bytes.is_empty() {
        text.push('.');
    }
    for b in bytes {
        text.push(char::from(DIGITS[usize::from(b >> 4)]));
        text.push(char::from(DIGITS[usize::from(b & 15)]));
    }
}

fn put_option(text: &mut String, bytes: &Option<Vec<u8>>) {
    text.push(' ');
    match bytes {
        Some(b) => put_hex(text, b),
        None => text.push('-'),
    }
}

/// The line as text, without its line end.
pub fn write(line: &Line) -> String {
    let mut text = String::new();
    match line {
        Line::Config(c) => {
            let mode = if c.strict { "strict" } else { "plain" };
            write!(text, "C {mode} {} {} {} {}", c.t, c.lifetime, c.u, c.v).unwrap();
        }
        Line::Show => text.push('S'),
        Line::Unreadable => text.push('?'),
        Line::Call(call) => {
            let letter = match call.what {
                What::Request { .. } => 'Q',
                What::Response { .. } => 'P',
            };
            write!(text, "{letter} {} ", call.now).unwrap();
            put_hex(&mut text, &call.key);
            write!(text, " {}", call.bare).unwrap();
            let payload = match &call.what {
                What::Request { block1, block2, payload } => {
                    put_option(&mut text, block1);
                    put_option(&mut text, block2);
                    payload
                }
                What::Response { own, head, payload } => {
                    write!(text, " {} ", u8::from(*own)).unwrap();
                    put_hex(&mut text, head);
                    payload
                }
            };
            text.push(' ');
            put_hex(&mut text, payload);
        }
    }
    text
}

/// The answers that calls within demand 2's domain may get.
pub const IN_DOMAIN: [&str; 12] =
    ["Continue", "TooLarge", "Served", "Handed", "Pass", "Plain", "Whole", "First", "refused-4", "refused-5", "refused-6", "refused-8"];

/// A block value as an answer shows it.
#[derive(Debug, Clone, Copy, PartialEq, Eq)]
pub struct Shown {
    pub num: u64,
    pub more: bool,
    pub size: u64,
}

/// What a line is answered.
#[derive(Debug, Clone, PartialEq, Eq)]
pub struct Answer {
    pub name: String,
    pub block1: Option<Shown>,
    pub block2: Option<Shown>,
    pub bytes: Option<Vec<u8>>,
}

impl Answer {
    /// An answer of a name alone.
    pub fn named(name: impl Into<String>) -> Self {
        Self { name: name.into(), block1: None, block2: None, bytes: None }
    }

    pub fn refused(number: u8) -> Self {
        Self::named(format!("refused-{number}"))
    }

    /// The answer's line, without its line end.
    pub fn line(&self, number: u64) -> String {
        let mut text = format!("{number} {}", self.name);
        for block in [self.block1, self.block2] {
            match block {
                Some(b) => write!(text, " {}/{}/{}", b.num, u8::from(b.more), b.size).unwrap(),
                None => text.push_str(" -"),
            }
        }
        put_option(&mut text, &self.bytes);
        text
    }
}

/// Reads a script line by line and writes the header and each line's answer. `answer` gives `None` where nothing is printed.
pub fn run(input: &mut impl BufRead, output: &mut impl io::Write, mut answer: impl FnMut(Line) -> Option<Answer>) -> io::Result<()> {
    writeln!(output, "{HEADER}")?;
    let mut line = Vec::new();
    let mut number = 0;
    loop {
        line.clear();
        if input.read_until(b'\n', &mut line)? == 0 {
            return output.flush();
        }
        if line.last() == Some(&b'\n') {
            line.pop();
        }
        number += 1;
        if let Some(a) = answer(read(&line)) {
            writeln!(output, "{}", a.line(number))?;
        }
    }
}

#[cfg(test)]
mod tests {
    use super::*;

    #[test]
    fn lines_come_back() {
        for text in ["C plain 64 1 16 65536", "C strict 0 0 0 0", "S", "Q 0 01 20 - . ff", "P 7 . 0 1 . 00ff"] {
            assert_eq!(write(&read(text.as_bytes())), text);
        }
    }

    #[test]
    fn unreadable() {
        for text in [
            "",
            " ",
            "Q",
            "Q 0 01 20 - - .\r",
            "Q 0 01 20 - - . ",
            "Q 0  01 20 - - .",
            "Q 0 - 20 - - .",
            "Q 0 01 20 - - -",
            "Q 0 01 20 - - A0",
            "Q 0 01 20 - - 0",
            "Q 0 01 20 - -  ",
            "Q 18446744073709551616 01 20 - - .",
            "Q -1 01 20 - - .",
            "P 0 01 20 2 . .",
            "P 0 01 20 - . .",
            "C 64 1 16 16",
            "C Plain 64 1 16 16",
            "S ",
            "q 0 01 20 - - .",
        ] {
            assert_eq!(read(text.as_bytes()), Line::Unreadable, "{text:?}");
        }
        assert_ne!(read(b"Q 00018446744073709551615 01 020 - - ."), Line::Unreadable);
        assert_ne!(read(b"P 0 01 20 01 . ."), Line::Unreadable);
    }
}
