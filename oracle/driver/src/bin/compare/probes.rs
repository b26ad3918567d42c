//! Traces chosen by hand, for what a random walk meets seldom or never. They are
//! compared first and kept first; what each is about stands in its header.

use crate::{
    twist::{near, Input, Settings, RESET, SETTINGS, STANDBY, START, STARTUP, STATUS, UPDATE},
    walk::Trace,
};

/// A threshold of 15 dBm is 1.25 V by this output and 30 dBm are 2.0 V of the
/// reflected one; the input passes 20 dBm at 3.0 V.
fn good() -> Settings {
    let x = [15.0, -2.0, 10.0, -10.0, 20.0, -10.0, 20.0, -10.0];
    Settings {
        x: x.map(f32::to_bits),
        state: 2,
    }
}

/// These settings with other patterns at some places.
fn with(changes: &[(usize, u32)]) -> Settings {
    let mut settings = good();
    changes.iter().for_each(|(i, bits)| settings.x[*i] = *bits);
    settings
}

const THRESHOLD: usize = 0;
const BIAS: usize = 1;
const INPUT: usize = 2;
const OUTPUT: usize = 4;

/// Lines that are being written, and the settings of the next one.
struct Sheet {
    lines: Vec<String>,
    settings: Settings,
}

impl Sheet {
    fn new() -> Self {
        Sheet {
            lines: Vec::new(),
            settings: good(),
        }
    }

    /// A call with something out of the ordinary.
    fn but(mut self, tick: u32, call: usize, change: impl FnOnce(&mut Input)) -> Self {
        let mut input = Input::calm(tick, call, self.settings);
        change(&mut input);
        self.settings = input.settings;
        self.lines.push(input.plain());
        self
    }

    fn call(self, tick: u32, call: usize) -> Self {
        self.but(tick, call, |_| {})
    }

    fn set(self, tick: u32, call: usize, settings: Settings) -> Self {
        self.but(tick, call, |i| i.settings = settings)
    }

    /// Started with these settings and on the way to Powered, which is reached
    /// 201 ticks later.
    fn up(self, tick: u32, settings: Settings) -> Self {
        self.set(tick, START, settings).call(tick, STARTUP)
    }

    /// From a start to Enabled, 202 ticks later.
    fn enabled(self, tick: u32, settings: Settings) -> Self {
        let up = self.up(tick, settings);
        up.call(tick + 201, UPDATE).call(tick + 202, UPDATE)
    }

    /// Halted, so that the next start is let in.
    fn end(self, tick: u32) -> Self {
        self.but(tick, UPDATE, |i| i.temperature = None)
    }
}

/// The input's converter at its last code, which is above 20 dBm.
fn overdriven(input: &mut Input) {
    input.replies[1..3].copy_from_slice(&[0x0F, 0xFF]);
}

pub fn all() -> Vec<Trace> {
    let all = [
        ("the watchdog", watchdog()),
        ("equal settings", equal_settings()),
        ("a level that is no number", level_not_a_number()),
        ("which trip comes first", trips()),
        ("an input power that is no number", power_not_a_number()),
        ("20 dBm of input power", input_power()),
        ("each bit of the alarm", alarms()),
        ("a tenth of a volt", tenth_of_a_volt()),
        ("temperatures at their limits", temperatures()),
        ("late or not", lateness()),
        ("the last code of the output", last_code()),
        ("a module with one chip alone", one_chip()),
    ];
    all.map(|(name, sheet)| Trace::of(name, sheet.lines)).into()
}

/// It keeps RF off and does not turn it off.
fn watchdog() -> Sheet {
    let dog = |i: &mut Input| i.pins[3] = true;
    let up = Sheet::new().up(0, good()).but(201, UPDATE, dog);
    let held = up.but(202, UPDATE, dog).but(203, STATUS, dog);
    held.call(204, UPDATE).but(205, UPDATE, dog)
}

/// Settings that are equal leave the old ones, so that a zero keeps its sign.
fn equal_settings() -> Sheet {
    let (plus, minus) = (with(&[(BIAS, 0)]), with(&[(BIAS, 0x8000_0000)]));
    let both = with(&[(BIAS, 0x8000_0000), (THRESHOLD, 16f32.to_bits())]);
    let same = Sheet::new().enabled(0, plus).set(203, SETTINGS, minus);
    let other = same.set(204, SETTINGS, plus).set(205, SETTINGS, both);
    other
        .set(206, SETTINGS, minus)
        .call(207, UPDATE)
        .call(208, STATUS)
}

/// Such settings are refused and stored. The same again are equal, so that
/// nothing is tried and nothing refused, though the level never equals itself;
/// with another field changed it is tried again.
fn level_not_a_number() -> Sheet {
    let infinite = [(OUTPUT, f32::INFINITY), (OUTPUT + 1, f32::NEG_INFINITY)];
    let settings = with(&infinite.map(|(i, x)| (i, x.to_bits())));
    let other = Settings {
        state: 1,
        ..settings
    };
    let refused = Sheet::new().call(0, START).set(1, SETTINGS, settings);
    let same = refused.call(2, SETTINGS).set(3, SETTINGS, other);
    same.call(4, SETTINGS)
}

/// Input, output, reflected.
fn trips() -> Sheet {
    let all = |i: &mut Input| {
        overdriven(i);
        i.pins[1..3].fill(true);
    };
    let two = |i: &mut Input| i.pins[1..3].fill(true);
    let again = |s: Sheet, tick| s.call(tick, RESET).call(tick + 1, UPDATE);
    let sheet = Sheet::new().enabled(0, good()).but(203, UPDATE, all);
    let sheet = again(sheet, 204).but(206, UPDATE, two);
    again(sheet, 207).but(209, UPDATE, |i| i.pins[2] = true)
}

/// It does not trip, and the pins are looked at all the same.
fn power_not_a_number() -> Sheet {
    let settings = with(&[(INPUT, f32::NAN.to_bits())]);
    let up = Sheet::new().enabled(0, settings).call(203, UPDATE);
    let shown = up.but(204, UPDATE, overdriven).call(205, STATUS);
    shown.but(206, UPDATE, |i| i.pins[1] = true)
}

/// Exactly 20.0 and its neighbours, whatever is read.
fn input_power() -> Sheet {
    (0..3).fold(Sheet::new(), |sheet, i| {
        let power = near(20.0, i as i64 - 1);
        let settings = with(&[(INPUT, 0), (INPUT + 1, power)]);
        let sheet = sheet.enabled(300 * i, settings);
        sheet.call(300 * i + 203, UPDATE).end(300 * i + 204)
    })
}

/// At a start: each bit that stands and is enabled, alone, and bits that are not
/// both. An update behind a start that halted is refused.
fn alarms() -> Sheet {
    let bytes = [
        0x11, 0x22, 0x44, 0x88, 0x0F, 0xF0, 0x5A, 0xA5, 0x7B, 0xB7, 0xFF,
    ];
    bytes.into_iter().fold(Sheet::new(), |sheet, byte| {
        let alarm = |i: &mut Input| i.replies[9 * 9 + 1] = byte;
        sheet.but(0, START, alarm).end(1)
    })
}

/// The threshold one pattern below, at and above 100 mV, by a slope of 1.
fn tenth_of_a_volt() -> Sheet {
    (0..3).fold(Sheet::new(), |sheet, i| {
        let level = near(0.1, i as i64 - 1);
        let line = [
            (THRESHOLD, level),
            (OUTPUT, 1f32.to_bits()),
            (OUTPUT + 1, 0),
        ];
        sheet.enabled(300 * i, with(&line)).end(300 * i + 203)
    })
}

fn temperatures() -> Sheet {
    let mut sheet = Sheet::new();
    for (limit, beyond, tick) in [(60.0, 1, 0), (5.0, -1, 10)] {
        sheet = sheet.call(tick, START);
        for (at, by) in [(1, 0), (2, -beyond), (3, beyond)] {
            let degrees = Some(near(limit, by));
            sheet = sheet.but(tick + at, UPDATE, |i| i.temperature = degrees);
        }
        sheet = sheet.end(tick + 4);
    }
    sheet
}

/// Both deadlines, at the clock's beginning, across its middle, at its end and
/// across it: updates that are not late, and then one that is, by 1 tick or by half of
/// the clock's range less 1. At the deadline's own tick and from half the range
/// on the stand-in for the clock decides.
fn lateness() -> Sheet {
    const HALF: u32 = 1 << 31;
    let mut sheet = Sheet::new();
    for from in [0, HALF - 100, u32::MAX - 200, u32::MAX - 100] {
        for (down, wait) in [(false, 200), (true, 500)] {
            for late in [1, HALF - 1] {
                let deadline = u32::wrapping_add(from, wait);
                sheet = sheet.up(from, good());
                if down {
                    sheet = sheet.call(from, STANDBY);
                }
                for by in [u32::MAX, 0, HALF, late] {
                    sheet = sheet.call(deadline.wrapping_add(by), UPDATE);
                }
                sheet = sheet.end(from);
            }
        }
    }
    sheet
}

/// 39.99 dBm are code 4095 by the good line, 40.0 dBm are refused.
fn last_code() -> Sheet {
    let at = |x: f32| with(&[(THRESHOLD, x.to_bits())]);
    let sheet = Sheet::new().set(0, START, at(39.99)).end(1);
    let sheet = sheet.set(2, START, good()).set(3, SETTINGS, at(39.99));
    let sheet = sheet.set(4, SETTINGS, at(40.0)).end(5);
    sheet.set(6, START, at(40.0))
}

/// A start that finds the EEPROM alone, the temperature chip alone, neither, both.
fn one_chip() -> Sheet {
    let sheet = ['E', 'T', '0']
        .into_iter()
        .fold(Sheet::new(), |sheet, who| {
            sheet.but(0, START, |i| i.present = who)
        });
    sheet.call(1, START).but(2, START, |i| i.present = 'E')
}
