//! `differ MODE CALLS SEED FOLDER ORACLE OURS...`: makes scripts of so many calls from the seed, gives each to the program ORACLE and to
//! the program OURS (with its words), and compares what they print line by line. Prints how many calls agreed, by answer. At a difference it
//! prints the smallest script that it finds to show it, and ends with status 1.
//!
//! MODE is `plain`, where ORACLE is the Rust, nums are compared modulo 4096 and answers are to be within the domain, or `strict`, where it is
//! the model.
//!
//! Scripts are made and run a piece at a time, in FOLDER. CHUNK is the size of a piece in bytes.

use std::collections::BTreeMap;
use std::fs::{self, File};
use std::io::{self, BufRead, BufReader};
use std::path::PathBuf;
use std::process::{Command, ExitCode};
use std::{env, iter};

use oracle::generate::{self, Generator};
use oracle::script;

struct Sides {
    strict: bool,
    folder: PathBuf,
    oracle: Vec<String>,
    ours: Vec<String>,
}

/// A line of the script, counted from 0, and what the two sides say to it.
struct Difference {
    at: usize,
    oracle: String,
    ours: String,
}

impl Sides {
    /// Runs both sides on the script and counts the answers that agree, up to the first that do not.
    fn compare(&self, lines: &[String], counts: &mut BTreeMap<String, u64>) -> io::Result<Option<Difference>> {
        let script = self.folder.join("script");
        fs::write(&script, lines.iter().flat_map(|l| [l.as_str(), "\n"]).collect::<String>())?;
        let start = |words: &[String], out: &str| {
            let out = File::create(self.folder.join(out))?;
            Command::new(&words[0]).args(&words[1..]).stdin(File::open(&script)?).stdout(out).spawn()
        };
        let mut both = [start(&self.oracle, "oracle.out")?, start(&self.ours, "ours.out")?];
        // A program that ends badly has said too little: that is a difference.
        for child in &mut both {
            child.wait()?;
        }
        let mut oracle = BufReader::new(File::open(self.folder.join("oracle.out"))?);
        let mut ours = BufReader::new(File::open(self.folder.join("ours.out"))?);
        // The header, then a line for each line, then nothing.
        let expected = iter::once(None).chain((0..lines.len()).map(Some)).chain(iter::once(Some(lines.len())));
        let (mut a, mut b) = (String::new(), String::new());
        for at in expected {
            a.clear();
            b.clear();
            oracle.read_line(&mut a)?;
            // Our side may write what is no text: seen as a difference.
            let mut bytes = Vec::new();
            ours.read_until(b'\n', &mut bytes)?;
            b.push_str(&String::from_utf8_lossy(&bytes));
            let end = at == Some(lines.len());
            if !self.same(&a, &b) || a.is_empty() != end {
                let at = at.unwrap_or(0).min(lines.len() - 1);
                return Ok(Some(Difference { at, oracle: a.trim_end().to_owned(), ours: b.trim_end().to_owned() }));
            }
            if let (Some(_), Some(name)) = (at, a.split(' ').nth(1)) {
                *counts.entry(name.to_owned()).or_default() += 1;
            }
        }
        Ok(None)
    }

    /// Leaves lines out while the two sides still differ at the last line, and the script stays within the domain.
    fn shrink(&self, mut lines: Vec<String>) -> io::Result<Vec<String>> {
        let mut step = lines.len() / 2;
        while step > 0 {
            let mut from = 0;
            // The last line stays, and so does the first: the set-up.
            while from + 1 < lines.len() - 1 {
                let first = from + 1;
                let to = (first + step).min(lines.len() - 1);
                let fewer = [&lines[..first], &lines[to..]].concat();
                let found =
                    generate::within(&fewer) && self.compare(&fewer, &mut BTreeMap::new())?.is_some_and(|d| d.at == fewer.len() - 1);
                if found {
                    lines = fewer;
                } else {
                    from += step;
                }
            }
            step /= 2;
        }
        Ok(lines)
    }

    fn report(&self, lines: Vec<String>, found: Difference) -> io::Result<()> {
        // From the last set-up on; from the beginning if that does not show it.
        let until = &lines[..=found.at];
        let set_up = until.iter().rposition(|l| l.starts_with('C')).unwrap_or(0);
        let short = until[set_up..].to_vec();
        let shows = self.compare(&short, &mut BTreeMap::new())?.is_some();
        let small = self.shrink(if shows { short } else { until.to_vec() })?;
        let (oracle, ours) = match self.compare(&small, &mut BTreeMap::new())? {
            Some(d) => (d.oracle, d.ours),
            None => (found.oracle, found.ours),
        };
        println!("differ: the two sides differ at the end of this script:");
        small.iter().for_each(|l| println!("{l}"));
        println!("{}: {oracle}\nour side: {ours}", if self.strict { "the model" } else { "the Rust" });
        Ok(())
    }

    /// The same answer line, in plain mode nums modulo 4096.
    fn same(&self, a: &str, b: &str) -> bool {
        a == b || !self.strict && reduced(a) == reduced(b)
    }
}

fn reduced(line: &str) -> Vec<String> {
    let field = |f: &str| match f.split_once('/') {
        Some((num, rest)) => match num.parse::<u64>() {
            Ok(num) => format!("{}/{rest}", num % 4096),
            Err(_) => f.to_owned(),
        },
        None => f.to_owned(),
    };
    line.split(' ').map(field).collect()
}

fn main() -> io::Result<ExitCode> {
    let words: Vec<String> = env::args().skip(1).collect();
    let [mode, calls, seed, folder, oracle, ours @ ..] = &words[..] else { panic!("differ MODE CALLS SEED FOLDER ORACLE OURS...") };
    let (strict, style) = match mode.as_str() {
        "plain" => (false, generate::FULL),
        "strict" => (true, generate::STRICT),
        _ => panic!("MODE is plain or strict"),
    };
    let calls: u64 = calls.parse().expect("CALLS is a number");
    let seed: u64 = seed.parse().expect("SEED is a number");
    let chunk: usize = env::var("CHUNK").map_or(400_000, |c| c.parse().expect("CHUNK is a number"));
    let sides = Sides { strict, folder: PathBuf::from(folder), oracle: vec![oracle.clone()], ours: ours.to_vec() };
    fs::create_dir_all(&sides.folder)?;

    let mut generator = Generator::new(seed, style);
    let mut counts = BTreeMap::new();
    let (mut agreed, mut scripts, mut bytes) = (0, 0, 0);
    while agreed < calls {
        let lines = generator.chunk(chunk, calls - agreed);
        let set_ups = lines.iter().filter(|l| l.starts_with('C')).count();
        if let Some(found) = sides.compare(&lines, &mut counts)? {
            sides.report(lines, found)?;
            return Ok(ExitCode::FAILURE);
        }
        agreed += (lines.len() - set_ups) as u64;
        scripts += set_ups;
        bytes += lines.iter().map(|l| l.len() + 1).sum::<usize>();
    }
    counts.remove("config");
    for (name, count) in &counts {
        println!("{count:>9} {name}");
    }
    let odd: Vec<&String> = counts.keys().filter(|k| !script::IN_DOMAIN.contains(&k.as_str())).collect();
    if !strict && !odd.is_empty() {
        println!("differ: answers from outside the domain: {odd:?}");
        return Ok(ExitCode::FAILURE);
    }
    println!("differ: {agreed} calls agree, {scripts} scripts, {bytes} bytes of script, seed {seed}");
    Ok(ExitCode::SUCCESS)
}
