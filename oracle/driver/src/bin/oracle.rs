//! Replays a trace on the original: `oracle < trace`. The output is document
//! 01's, `line,answer,state,power,rf,rows`, with CR LF.
//!
//! `oracle --deep` replays one trace after the other and writes more columns;
//! its form stands in `deep.rs`. `oracle --deep --told` adds two that only this
//! side can have: how many replies the call took, and what the original said as
//! it panicked, commas as semicolons. `oracle --compiled` lists the original
//! files in this program.

use driver::{deep, deep::Deep, slot, trace};
use std::io::{self, BufRead, BufWriter, Write};

fn main() -> io::Result<()> {
    let mut out = BufWriter::new(io::stdout().lock());
    let words: Vec<String> = std::env::args().skip(1).collect();
    let words: Vec<&str> = words.iter().map(String::as_str).collect();
    let (deep, told) = match words[..] {
        [] => (false, false),
        ["--deep"] => (true, false),
        ["--deep", "--told"] => (true, true),
        ["--compiled"] => {
            for (file, sum, bytes) in driver::compiled() {
                writeln!(out, "{sum}  {file} ({bytes} bytes)")?;
            }
            return Ok(());
        }
        _ => panic!("unknown: {words:?}"),
    };
    slot::keep_panics();

    if !deep {
        write!(out, "line,answer,state,power,rf,rows\r\n")?;
    }
    let mut replay = Deep::new();
    for (number, text) in io::stdin().lock().split(b'\n').enumerate() {
        let text = text?;
        let text = text.strip_suffix(b"\r").unwrap_or(&text);
        match deep {
            true if text.starts_with(b"tick") => {
                replay = Deep::new();
                continue;
            }
            false if number == 0 => continue, // the header, unchecked
            _ => {}
        }
        let (answer, report) = replay.answer(trace::line(text, deep));
        match report {
            Some(report) if told => {
                let said = report.panic.replace(',', ";").replace(['\r', '\n'], " ");
                write!(out, "{answer},{},{said}", report.taken)?;
            }
            Some(report) if !deep => {
                let columns = deep::columns(&replay.slot, replay.used, &report);
                write!(out, "{number},{columns}")?;
            }
            _ => write!(out, "{answer}")?,
        }
        write!(out, "\r\n")?;
    }
    out.flush()
}
