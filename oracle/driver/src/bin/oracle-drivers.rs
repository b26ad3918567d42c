//! Asks the original drivers one by one: a line in, a line out. The form of a
//! line and of its answer stands in `questions.rs`; one line is only for here:
//!
//! ```text
//! runs FROM TO ad5627 set OUTPUT x       (and so on)
//! ```
//!
//! `runs` asks a question for every pattern from FROM to TO, put in place of
//! each word `x`. For every longest run of patterns with one and the same
//! answer it writes `first,last,result,data,rows`. So all 2^32 patterns of a
//! converter come out as some thousand lines.

use driver::{
    hex,
    questions::{answer, question, Chips, Done, Question},
};
use std::io::{self, BufRead, BufWriter, Write};

fn main() -> io::Result<()> {
    let mut out = BufWriter::new(io::stdout().lock());
    let mut chips = Chips::open();
    for line in io::stdin().lock().lines() {
        let line = line?;
        let words: Vec<&str> = line.split(' ').collect();
        let ["runs", from, to, rest @ ..] = &words[..] else {
            writeln!(out, "{}", answer(&mut chips, &line))?;
            continue;
        };
        match (question(rest), hex::float(from), hex::float(to)) {
            (Some(q), Some(from), Some(to)) => {
                runs(&mut chips, &q, (from.to_bits(), to.to_bits()), &mut out)?
            }
            _ => writeln!(out, "bad")?,
        }
    }
    out.flush()
}

fn runs(
    chips: &mut Chips,
    q: &Question,
    (from, to): (u32, u32),
    out: &mut impl Write,
) -> io::Result<()> {
    let (mut answer, mut next) = (Done::default(), Done::default());
    let mut first = from;
    for bits in from..=to {
        chips.ask(q, f32::from_bits(bits), &mut next);
        if bits > from && next != answer {
            writeln!(out, "{first:08X},{:08X},{}", bits - 1, answer.text())?;
            first = bits;
        }
        std::mem::swap(&mut answer, &mut next);
    }
    writeln!(out, "{first:08X},{to:08X},{}", answer.text())
}
