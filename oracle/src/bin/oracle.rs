//! Reads a script on standard input and prints what the unchanged Rust module answers. Lines `S` print nothing.

use std::io::{self, BufReader, BufWriter};
use std::panic;

use oracle::rust_side::RustSide;
use oracle::script::{self, Answer, Line};

fn main() -> io::Result<()> {
    panic::set_hook(Box::new(|_| ()));
    let mut side = RustSide::new(script::FIRST);
    let mut input = BufReader::new(io::stdin());
    let mut output = BufWriter::new(io::stdout());
    script::run(&mut input, &mut output, |line| match line {
        Line::Config(c) if c.strict => Some(Answer::named("no-strict-mode")),
        Line::Config(c) => {
            side = RustSide::new(c);
            Some(Answer::named("config"))
        }
        Line::Show => None,
        Line::Call(call) => Some(side.call(&call)),
        Line::Unreadable => Some(Answer::named("unreadable")),
    })
}
