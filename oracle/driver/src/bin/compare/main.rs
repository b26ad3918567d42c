//! Compares another program with the original: the same inputs go to both, and
//! everything that they answer has to be equal, byte for byte.
//!
//! ```text
//! compare channel [--seed N] [--calls N] -- COMMAND [ARGUMENT ..]
//! compare drivers [--seed N] [--questions N] -- COMMAND [ARGUMENT ..]
//! compare keep channel|drivers [--seed N] FOLDER
//! ```
//!
//! COMMAND reads traces in the form of `deep.rs`, or questions in that of
//! `questions.rs`, on its standard input, and answers on its standard output. It
//! is started once for every batch of some ten thousand lines, so it may hold
//! back what it writes until its input ends. The original runs in this process.
//!
//! The end is a table. Exit status: 0 all equal, 1 a difference, 2 not run.
//! `keep` writes a sample of the inputs to FOLDER/stdin and the original's
//! answers to FOLDER/stdout.

mod channel;
mod child;
mod drivers;
mod probes;
mod twist;
mod walk;

use std::{
    collections::BTreeMap,
    io,
    path::Path,
    process::{exit, ExitCode},
    time::Instant,
};

/// Differences that are shown before a run is given up.
const ENOUGH: usize = 10;

fn main() -> ExitCode {
    let words: Vec<String> = std::env::args().skip(1).collect();
    let (own, command) = match words.iter().position(|w| w == "--") {
        Some(at) => (&words[..at], &words[at + 1..]),
        None => (&words[..], &words[..0]),
    };
    let mut named = BTreeMap::from([
        ("--seed", 1),
        ("--calls", 1_000_000),
        ("--questions", 2_000_000),
    ]);
    let mut plain = Vec::new();
    let mut rest = own.iter();
    while let Some(word) = rest.next() {
        match named.get_mut(word.as_str()) {
            Some(value) => {
                *value = rest
                    .next()
                    .and_then(|n| n.parse().ok())
                    .unwrap_or_else(usage)
            }
            None => plain.push(word.as_str()),
        }
    }
    driver::slot::keep_panics();
    let seed = named["--seed"];
    let equal = match (&plain[..], command) {
        (["channel"], [_, ..]) => channel::run(seed, named["--calls"], command),
        (["drivers"], [_, ..]) => drivers::run(seed, named["--questions"], command),
        (["keep", "channel", folder], []) => channel::keep(seed, Path::new(folder)),
        (["keep", "drivers", folder], []) => drivers::keep(seed, Path::new(folder)),
        _ => usage(),
    };
    match equal {
        Ok(true) => ExitCode::SUCCESS,
        Ok(false) => ExitCode::from(1),
        Err(e) => {
            eprintln!("compare: {e}");
            ExitCode::from(2)
        }
    }
}

fn usage<T>() -> T {
    eprintln!("usage: compare channel [--seed N] [--calls N] -- COMMAND [ARGUMENT ..]");
    eprintln!("       compare drivers [--seed N] [--questions N] -- COMMAND [ARGUMENT ..]");
    eprintln!("       compare keep channel|drivers [--seed N] FOLDER");
    exit(2)
}

/// One line on standard error, rewritten at every hundred thousand.
struct Progress {
    what: &'static str,
    since: Instant,
    done: u64,
}

impl Progress {
    fn new(what: &'static str) -> Self {
        Progress {
            what,
            since: Instant::now(),
            done: 0,
        }
    }

    fn one_more(&mut self) {
        self.done += 1;
        if self.done % 100_000 == 0 {
            self.show();
        }
    }

    fn show(&self) {
        let seconds = self.since.elapsed().as_secs();
        eprint!("\r{} {}, {seconds} s", self.done, self.what);
    }

    fn end(&self) {
        self.show();
        eprintln!();
    }
}

/// A table's counts, by heading and name, in the order of the alphabet.
#[derive(Default)]
struct Table(BTreeMap<&'static str, BTreeMap<String, u64>>);

impl Table {
    fn add(&mut self, heading: &'static str, name: &str, count: u64) {
        let names = self.0.entry(heading).or_default();
        match names.get_mut(name) {
            Some(n) => *n += count,
            None => drop(names.insert(name.into(), count)),
        }
    }

    fn print(&self) {
        for (heading, names) in &self.0 {
            println!("{heading}");
            for (name, count) in names {
                println!("  {name:<26}{count:>12}");
            }
        }
    }
}

fn write_sample(folder: &Path, input: &[u8], answers: &[u8]) -> io::Result<()> {
    std::fs::create_dir_all(folder)?;
    std::fs::write(folder.join("stdin"), input)?;
    std::fs::write(folder.join("stdout"), answers)
}
