//! `generate CALLS SEED`: writes scripts of so many calls, as `differ` runs them; `generate strict CALLS SEED`: those of strict mode.
//! `generate sample`: writes the fixed list of calls.

use std::env;

use oracle::generate::{self, Generator};

fn main() {
    let words: Vec<String> = env::args().skip(1).collect();
    let made = |style, calls: &String, seed: &String| {
        let number = |word: &String| word.parse().expect("a number");
        Generator::new(number(seed), style).chunk(usize::MAX, number(calls))
    };
    let lines = match &words[..] {
        [word] if word == "sample" => generate::sample(),
        [word, calls, seed] if word == "strict" => made(generate::STRICT, calls, seed),
        [calls, seed] => made(generate::FULL, calls, seed),
        _ => panic!("generate [strict] CALLS SEED, or generate sample"),
    };
    lines.iter().for_each(|l| println!("{l}"));
}
