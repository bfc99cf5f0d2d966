//! Reads a script on standard input and prints what document 01 answers, in either mode and with all ten refusals. Lines `S` print
//! nothing.

use std::io::{self, BufReader, BufWriter};

use oracle::model::Model;
use oracle::script::{self, Answer, Line};

fn main() -> io::Result<()> {
    let mut model = Model::new(script::FIRST);
    let mut input = BufReader::new(io::stdin());
    let mut output = BufWriter::new(io::stdout());
    script::run(&mut input, &mut output, |line| match line {
        Line::Config(c) => {
            model = Model::new(c);
            Some(Answer::named("config"))
        }
        Line::Show => None,
        Line::Call(call) => Some(model.call(&call)),
        Line::Unreadable => Some(Answer::named("unreadable")),
    })
}
