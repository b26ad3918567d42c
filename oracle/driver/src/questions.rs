//! Questions for the original drivers, one by one: a line in, a line out.
//!
//! A line is words parted by spaces. An f32 is the eight hex digits of its
//! pattern, a channel is 0 to 3, an output is A, B or AB. The last word may be
//! left out: it is replies in hex, nine bytes for each transfer, padded with
//! zeros, so that without it everything is acknowledged and all data are 0.
//!
//! ```text
//! map SLOPE OFFSET X
//! invert SLOPE OFFSET Y
//! mcp3221 voltage [REPLIES]
//! dac7571 set VOLTS [REPLIES]
//! ad5627 open [REPLIES]
//! ad5627 set OUTPUT VOLTS [REPLIES]
//! ads7924 open [REPLIES]
//! ads7924 voltage CHANNEL [REPLIES]
//! ads7924 voltages [REPLIES]
//! ads7924 alarm [REPLIES]
//! ads7924 thresholds CHANNEL LOW HIGH [REPLIES]
//! max6642 remote [REPLIES]
//! ```
//!
//! The answer is `result,data,rows`: done, range, bus (a transfer failed) or
//! diode; the f32 patterns or the alarm's byte; the rows of the log. Every chip
//! has been opened before, and that is not shown. A line that is not understood
//! gives `bad`.
//!
//! In place of an f32 a word `x` may stand: one question is then asked for
//! pattern after pattern.

use crate::{hex, trace};
use ad5627::{Ad5627, Dac};
use ads7924::{Ads7924, Channel};
use booster::{
    hardware::delay::AsmDelay, hardware::I2C, linear_transformation::LinearTransformation,
};
use dac7571::Dac7571;
use max6642_original::Max6642;
use mcp3221::Mcp3221;

#[derive(Default, PartialEq)]
pub struct Done {
    pub result: &'static str,
    pub data: Data,
    pub rows: Vec<[u8; 16]>,
}

#[derive(Default, PartialEq)]
pub enum Data {
    #[default]
    Nothing,
    Byte(u8),
    Float(u32),
    Floats([u32; 4]),
}

impl Done {
    pub fn text(&self) -> String {
        let data = match self.data {
            Data::Nothing => String::new(),
            Data::Byte(byte) => format!("{byte:02X}"),
            Data::Float(x) => format!("{x:08X}"),
            Data::Floats(all) => all.map(|x| format!("{x:08X}")).concat(),
        };
        format!("{},{data},{}", self.result, hex::write_rows(&self.rows))
    }
}

/// A question, ready to be asked of any pattern in place of `x`.
pub enum Question {
    Map(Word, Word, Word),
    Invert(Word, Word, Word),
    Mcp3221,
    Dac7571(Word),
    Ad5627Open,
    Ad5627(Output, Word),
    Ads7924Open,
    Ads7924Voltage(Channel),
    Ads7924Voltages,
    Ads7924Alarm,
    Ads7924Thresholds(Channel, Word, Word),
    Max6642,
}

/// The original's `Dac` can be given away once only.
pub enum Output {
    A,
    B,
    Both,
}

/// An f32, or the place of the one that runs.
pub enum Word {
    Is(f32),
    Runs,
}

impl Word {
    fn at(&self, x: f32) -> f32 {
        match self {
            Word::Is(value) => *value,
            Word::Runs => x,
        }
    }
}

/// The answer to a line, as it is written.
pub fn answer(chips: &mut Chips, line: &str) -> String {
    let words: Vec<&str> = line.split(' ').collect();
    match question(&words) {
        Some(question) => {
            let mut done = Done::default();
            chips.ask(&question, 0.0, &mut done);
            done.text()
        }
        None => "bad".into(),
    }
}

/// The question of a line; its replies are put on the bench.
pub fn question(words: &[&str]) -> Option<Question> {
    let word = |text: &str| match text {
        "x" => Some(Word::Runs),
        _ => hex::float(text).map(Word::Is),
    };
    let (question, rest) = match words {
        ["map", slope, offset, x, rest @ ..] => {
            (Question::Map(word(slope)?, word(offset)?, word(x)?), rest)
        }
        ["invert", slope, offset, y, rest @ ..] => (
            Question::Invert(word(slope)?, word(offset)?, word(y)?),
            rest,
        ),
        ["mcp3221", "voltage", rest @ ..] => (Question::Mcp3221, rest),
        ["dac7571", "set", volts, rest @ ..] => (Question::Dac7571(word(volts)?), rest),
        ["ad5627", "open", rest @ ..] => (Question::Ad5627Open, rest),
        ["ad5627", "set", output, volts, rest @ ..] => {
            let output = match *output {
                "A" => Output::A,
                "B" => Output::B,
                "AB" => Output::Both,
                _ => return None,
            };
            (Question::Ad5627(output, word(volts)?), rest)
        }
        ["ads7924", "open", rest @ ..] => (Question::Ads7924Open, rest),
        ["ads7924", "voltage", c, rest @ ..] => (Question::Ads7924Voltage(channel(c)?), rest),
        ["ads7924", "voltages", rest @ ..] => (Question::Ads7924Voltages, rest),
        ["ads7924", "alarm", rest @ ..] => (Question::Ads7924Alarm, rest),
        ["ads7924", "thresholds", c, low, high, rest @ ..] => (
            Question::Ads7924Thresholds(channel(c)?, word(low)?, word(high)?),
            rest,
        ),
        ["max6642", "remote", rest @ ..] => (Question::Max6642, rest),
        _ => return None,
    };
    let replies = match rest {
        [] => [0; 135],
        [replies] => trace::replies(replies)?,
        _ => return None,
    };
    bench::begin(bench::Given {
        replies,
        ..bench::Given::default()
    });
    Some(question)
}

fn channel(text: &str) -> Option<Channel> {
    match text {
        "0" => Some(Channel::Zero),
        "1" => Some(Channel::One),
        "2" => Some(Channel::Two),
        "3" => Some(Channel::Three),
        _ => None,
    }
}

/// The drivers, opened once: none of them keeps anything from one question to
/// the next.
pub struct Chips {
    ad5627: Ad5627<I2C>,
    ads7924: Ads7924<I2C>,
    dac7571: Dac7571<I2C>,
    max6642: Max6642<I2C>,
    mcp3221: Mcp3221<I2C>,
}

impl Chips {
    pub fn open() -> Self {
        bench::begin(bench::Given::default());
        Chips {
            ad5627: Ad5627::default(I2C::on_bench()).ok().unwrap(),
            ads7924: Ads7924::default(I2C::on_bench(), &mut AsmDelay).unwrap(),
            dac7571: Dac7571::default(I2C::on_bench()),
            max6642: Max6642::att94(I2C::on_bench()),
            mcp3221: Mcp3221::default(I2C::on_bench()),
        }
    }

    /// Asks for `x`; what stands in `done` is replaced.
    pub fn ask(&mut self, q: &Question, x: f32, done: &mut Done) {
        bench::again();
        (done.result, done.data) = self.answer(q, x);
        bench::with(|b| std::mem::swap(&mut b.rows, &mut done.rows));
    }

    fn answer(&mut self, q: &Question, x: f32) -> (&'static str, Data) {
        match q {
            Question::Map(slope, offset, v) => {
                done(LinearTransformation::new(slope.at(x), offset.at(x)).map(v.at(x)))
            }
            Question::Invert(slope, offset, v) => {
                done(LinearTransformation::new(slope.at(x), offset.at(x)).invert(v.at(x)))
            }
            Question::Mcp3221 => match self.mcp3221.get_voltage() {
                Ok(volts) => done(volts),
                Err(_) => failed("bus"),
            },
            Question::Dac7571(volts) => match self.dac7571.set_voltage(volts.at(x)) {
                Ok(volts) => done(volts),
                Err(dac7571::Error::Bounds) => failed("range"),
                Err(dac7571::Error::Interface(_)) => failed("bus"),
            },
            Question::Ad5627Open => match Ad5627::default(I2C::on_bench()) {
                Ok(_) => ("done", Data::Nothing),
                Err(_) => failed("bus"),
            },
            Question::Ad5627(output, volts) => {
                let output = match output {
                    Output::A => Dac::A,
                    Output::B => Dac::B,
                    Output::Both => Dac::Both,
                };
                match self.ad5627.set_voltage(volts.at(x), output) {
                    Ok(volts) => done(volts),
                    Err(ad5627::Error::Range) => failed("range"),
                    Err(ad5627::Error::I2c(_)) => failed("bus"),
                }
            }
            Question::Ads7924Open => {
                ads7924(Ads7924::default(I2C::on_bench(), &mut AsmDelay).map(|_| Data::Nothing))
            }
            Question::Ads7924Voltage(c) => ads7924(
                self.ads7924
                    .get_voltage(*c)
                    .map(|v| Data::Float(pattern(v))),
            ),
            Question::Ads7924Voltages => ads7924(
                self.ads7924
                    .get_voltages()
                    .map(|v| Data::Floats(v.map(pattern))),
            ),
            Question::Ads7924Alarm => ads7924(self.ads7924.clear_alarm().map(Data::Byte)),
            Question::Ads7924Thresholds(c, low, high) => ads7924(
                self.ads7924
                    .set_thresholds(*c, low.at(x), high.at(x))
                    .map(|()| Data::Nothing),
            ),
            Question::Max6642 => match self.max6642.get_remote_temperature() {
                Ok(degrees) => done(degrees),
                Err(max6642_original::Error::DiodeFault) => failed("diode"),
                Err(max6642_original::Error::Interface(_)) => failed("bus"),
                Err(max6642_original::Error::InvalidCommand) => failed("command"),
            },
        }
    }
}

fn ads7924<E>(answer: Result<Data, ads7924::Error<E>>) -> (&'static str, Data) {
    match answer {
        Ok(data) => ("done", data),
        Err(ads7924::Error::Bounds) => failed("range"),
        Err(ads7924::Error::Interface(_)) => failed("bus"),
        Err(ads7924::Error::Size) => failed("size"),
    }
}

fn done(x: f32) -> (&'static str, Data) {
    ("done", Data::Float(pattern(x)))
}

fn failed(result: &'static str) -> (&'static str, Data) {
    (result, Data::Nothing)
}

/// All NaNs are one value.
fn pattern(x: f32) -> u32 {
    match x.is_nan() {
        true => 0x7FC0_0000,
        false => x.to_bits(),
    }
}
