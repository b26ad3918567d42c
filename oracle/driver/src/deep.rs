//! A replay that is compared call by call. Its form, which the program on the
//! other side has too:
//!
//! - In: a line that begins with `tick` begins a new trace, with an empty slot,
//!   an unused log and a line count of 0, and has no answer. Any other line is a
//!   line of a trace, with three columns more or without (see `trace.rs`).
//! - Out: `N,bad`, or `N,answer,state,power,rf,rows` as in document 01 and then
//!   - cause: beside answer 14, 0 for a panic that document 01 has no cause for
//!   - deadline: of Powerup and Powerdown
//!   - state told: of a status, the state that stands in it
//!   - flags: update: powered, RF disabled, blocked; status: reflected overdrive,
//!     output overdrive, alert
//!   - numbers: of a status, seven f32 patterns in document 01's order
//!   - settings: in force, as a trace writes them
//!   - log: the rows the call added, 32 digits each
//!
//! A column that does not apply is empty. All NaNs are written 7FC00000. There
//! is no header in the output.

use crate::{
    hex,
    slot::{Report, Slot},
    trace,
};

pub struct Deep {
    pub slot: Slot,
    pub used: usize,
    number: usize,
}

impl Deep {
    pub fn new() -> Self {
        Deep {
            slot: Slot::Empty,
            used: 0,
            number: 0,
        }
    }

    /// The answer to a line, without its end; with a report if it was a call.
    pub fn answer(&mut self, line: Option<trace::Line>) -> (String, Option<Report>) {
        self.number += 1;
        let Some(line) = line else {
            return (format!("{},bad", self.number), None);
        };
        let report = self.slot.call(line, &mut self.used);
        if report.answer == 14 && report.cause == 0 {
            let (line, said) = (self.number, &report.panic);
            eprintln!("line {line}: a panic without a cause: {said}");
        }
        let text = format!(
            "{},{},{}",
            self.number,
            columns(&self.slot, self.used, &report),
            more_columns(&self.slot, &report)
        );
        (text, Some(report))
    }
}

/// `answer,state,power,rf,rows`.
pub fn columns(slot: &Slot, used: usize, report: &Report) -> String {
    format!(
        "{},{},{},{},{used}",
        report.answer,
        slot.state(),
        slot.power() as u8,
        slot.rf() as u8,
    )
}

/// `cause,deadline,state told,flags,numbers,settings,log`.
fn more_columns(slot: &Slot, report: &Report) -> String {
    let cause = match report.answer {
        14 => report.cause.to_string(),
        _ => String::new(),
    };
    let flags = report.flags.iter().flatten();
    let flags = flags.map(|f| if *f { '1' } else { '0' });
    let numbers = report.numbers.iter().flatten();
    let numbers = numbers.map(|x| hex::write_float(*x));
    format!(
        "{cause},{},{},{},{},{},{}",
        slot.deadline(),
        report.told.unwrap_or_default(),
        flags.collect::<String>(),
        numbers.collect::<String>(),
        slot.settings(),
        hex::write_rows(&report.rows),
    )
}
