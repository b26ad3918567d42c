//! The input of one call, and the ways in which it can be out of the ordinary.

use driver::{hex, random::Random};

pub const CALLS: [&str; 7] = [
    "start", "startup", "update", "reset", "standby", "settings", "status",
];
pub const START: usize = 0;
pub const STARTUP: usize = 1;
pub const UPDATE: usize = 2;
pub const RESET: usize = 3;
pub const STANDBY: usize = 4;
pub const SETTINGS: usize = 5;
pub const STATUS: usize = 6;

/// Places in the settings; of a transform that of the slope, before the offset.
const THRESHOLD: usize = 0;
const BIAS: usize = 1;
const INPUT: usize = 2;
const OUTPUT: usize = 4;
const REFLECTED: usize = 6;

/// Zeros, subnormals, ones, the largest, infinities, NaNs.
pub const EDGES: [u32; 14] = [
    0x0000_0000,
    0x8000_0000,
    0x0000_0001,
    0x8000_0001,
    0x007F_FFFF,
    0x0080_0000,
    0x3F80_0000,
    0xBF80_0000,
    0x7F7F_FFFF,
    0xFF7F_FFFF,
    0x7F80_0000,
    0xFF80_0000,
    0x7FC0_0000,
    0xFF80_0001,
];

/// The pattern that lies so many patterns above, by value.
pub fn near(x: f32, by: i64) -> u32 {
    let size = (x.to_bits() & 0x7FFF_FFFF) as i64;
    let place = by + if x.is_sign_negative() { -size } else { size };
    match place < 0 {
        true => 0x8000_0000 | -place as u32,
        false => place as u32,
    }
}

#[derive(Clone, Copy)]
pub struct Settings {
    pub x: [u32; 8],
    pub state: u8,
}

impl Settings {
    /// Settings with which a channel starts, powers up and enables. The input
    /// power passes 20.0 at one of the codes of its converter, but not at 0, and
    /// half of the time in steps as small as those of an f32 are there.
    pub fn good(random: &mut Random) -> Self {
        let slope = random.between(14.0, 40.0);
        let offset = random.between(-20.0, 10.0);
        // Above 100 mV; with a falling detector that is below it.
        let (slope, volts) = match random.once_in(6) {
            true => (-slope, random.between(0.0, 0.09)),
            false => (slope, random.between(0.11, 2.4)),
        };
        let threshold = volts * slope + offset;
        let reflected = random.between(14.0, 60.0);
        let input = match random.once_in(2) {
            true => random.between(0.001, 0.005),
            false => random.between(1.0, 60.0),
        };
        let code = 1 + random.below(4000);
        let x = [
            threshold,
            random.between(-3.29, 0.0),
            input,
            20.0 - code as f32 / 4096.0 * 3.3 * input,
            slope,
            offset,
            reflected,
            30.0 - reflected * random.between(0.01, 2.48),
        ];
        Settings {
            x: x.map(f32::to_bits),
            state: 2,
        }
    }

    /// As a trace writes them.
    pub fn read(text: &str) -> Option<Self> {
        let mut x = [0; 8];
        for (i, bits) in x.iter_mut().enumerate() {
            *bits = hex::float(text.get(8 * i..8 * i + 8)?)?.to_bits();
        }
        let state = text.as_bytes()[64] - b'0';
        Some(Settings { x, state })
    }

    fn text(&self) -> String {
        let floats = self.x.map(|bits| format!("{bits:08X}")).concat();
        format!("{floats}{}", self.state)
    }

    fn float(&self, i: usize) -> f32 {
        f32::from_bits(self.x[i])
    }

    fn pair(&mut self, i: usize, slope: f32, offset: u32) {
        (self.x[i], self.x[i + 1]) = (slope.to_bits(), offset);
    }
}

/// The columns of a line.
#[derive(Clone)]
pub struct Input {
    pub tick: u32,
    pub call: usize,
    pub temperature: Option<u32>,
    /// Alert, output and reflected pin, watchdog.
    pub pins: [bool; 4],
    pub replies: [u8; 135],
    /// Written for a start and for settings.
    pub settings: Settings,
    /// Which chips answer at a start, as a trace writes it.
    pub present: char,
    pub millivolts: [u16; 2],
}

impl Input {
    pub fn fail(&mut self, place: usize, status: u8) {
        self.replies[9 * place] = status;
    }

    /// Nothing out of the ordinary.
    pub fn calm(tick: u32, call: usize, settings: Settings) -> Self {
        Input {
            tick,
            call,
            temperature: Some(25f32.to_bits()),
            pins: [true, false, false, false],
            replies: [0; 135],
            settings,
            present: '1',
            millivolts: [0, 0],
        }
    }

    /// Bytes of the replies up to the last that is not zero.
    fn needed(&self) -> usize {
        let last = self.replies.iter().rposition(|b| *b != 0);
        last.map_or(0, |last| last + 1)
    }

    /// The line, with no more than is needed.
    pub fn plain(&self) -> String {
        self.written("", self.needed(), false)
    }

    /// The line, now and then with more. What is left out of the replies is read
    /// as zeros: as much as can be, all or some.
    pub fn text(&self, random: &mut Random) -> String {
        let needed = self.needed();
        let written = match random.below(8) {
            0 => 135,
            1 => needed + random.below(136 - needed),
            _ => needed,
        };
        let zeros = if random.once_in(50) { "00" } else { "" };
        self.written(zeros, written, random.once_in(4))
    }

    fn written(&self, zeros: &str, replies: usize, more: bool) -> String {
        let temperature = self.temperature.map(|bits| format!("{bits:08X}"));
        let pins = self.pins.map(|p| if p { ",1" } else { ",0" }).concat();
        let settings = match self.call {
            START | SETTINGS => self.settings.text(),
            _ => String::new(),
        };
        let mut text = format!(
            "{zeros}{},{},{}{pins},{},{settings}",
            self.tick,
            CALLS[self.call],
            temperature.unwrap_or("-".into()),
            hex::write(&self.replies[..replies]),
        );
        if self.present != '1' || self.millivolts != [0, 0] || more {
            let [output, reflected] = self.millivolts;
            text += &format!(",{},{output},{reflected}", self.present);
        }
        text
    }
}

/// What is out of the ordinary.
#[derive(Clone, Copy)]
pub enum Twist {
    /// Nothing; of settings that is: the same again.
    Calm,
    /// A bit each: alert low, output high, reflected high, watchdog.
    Pins(u8),
    Temperature(Option<u32>),
    /// The transfer at this place fails with this status.
    Fails(usize, u8),
    /// All data of all replies at random.
    Data,
    /// The tick, so far from the deadline or, where there is none, the last tick.
    Ahead(i64),
    /// The input power's code, so far from where the power passes 20.0.
    Power(i64),
    Alarm(u8),
    /// Neither chip answers, or one alone.
    Absent(char),
    Millivolts(u16, u16),
    /// One field of the settings, alone.
    Field(usize, u32),
    /// One field, so many patterns further.
    Near(usize, i64),
    /// Slope and offset of one transform.
    Pair(usize, f32, u32),
    /// The output level in volts, by a slope of 1 and an offset of 0.
    Output(u32),
    /// Threshold, reflected offset or bias at some code's edge, and so far from it.
    Code(usize, i64),
    /// The threshold, so far from the 100 mV level.
    Guard(i64),
    Wants(u8),
    Another,
    /// Any patterns.
    Any,
}

/// Those around a call, apart from its settings. Some can't matter to it, which
/// is to be seen too.
pub fn around(call: usize) -> Vec<Twist> {
    let mut all = vec![Twist::Calm, Twist::Data, Twist::Data];
    all.extend(['0', 'E', 'T'].map(Twist::Absent));
    all.extend((1..16).map(Twist::Pins));
    all.extend([-1, 0, 1].map(Twist::Ahead));
    all.extend([None, Some(f32::NAN.to_bits())].map(Twist::Temperature));
    all.push(Twist::Millivolts(1, 2));
    for place in 0..15 {
        let matters = call == START || place < 6;
        let statuses = if matters { 4 } else { 1 };
        let some = [1, 2, 0x80, 0xFF].into_iter().take(statuses);
        all.extend(some.map(|status| Twist::Fails(place, status)));
    }
    if call == UPDATE || call == STATUS {
        all.extend([-2, -1, 0, 1, 2].map(Twist::Power));
        all.extend(EDGES.map(|t| Twist::Temperature(Some(t))));
        for limit in [60.0, 5.0, 130.75, -40.0] {
            all.extend([-1, 0, 1].map(|by| Twist::Temperature(Some(near(limit, by)))));
        }
    }
    if call == STATUS {
        let pairs = [(0, 1), (1, 0), (65_535, 65_535), (1000, 2500), (0, 65_535)];
        all.extend(pairs.map(|(a, b)| Twist::Millivolts(a, b)));
    }
    if call == START {
        let bytes = [0x0F, 0xF0, 0x5A, 0x11, 0x22, 0x44, 0x88, 0x33, 0xFF];
        all.extend(bytes.map(Twist::Alarm));
    }
    all
}

/// Those of the settings of a start and of settings.
pub fn of_settings() -> Vec<Twist> {
    let mut all = vec![Twist::Another, Twist::Any];
    all.extend([0, 1, 2].map(Twist::Wants));
    for i in 0..8 {
        all.extend(EDGES.map(|bits| Twist::Field(i, bits)));
        all.extend([-1, 1].map(|by| Twist::Near(i, by)));
    }
    // The output level where it is refused, and a tenth of a volt.
    all.extend(EDGES.map(Twist::Output));
    for volts in [2.5, 0.1, 0.0] {
        all.extend([-2, -1, 0, 1].map(|by| Twist::Output(near(volts, by))));
    }
    // The reflected level, (30 - offset) / slope, at 2.5 and 0 and at no number.
    for by in [-1, 0, 1] {
        all.push(Twist::Pair(REFLECTED, f32::from_bits(near(12.0, by)), 0));
        all.push(Twist::Pair(
            REFLECTED,
            f32::from_bits(near(-12.0, by)),
            near(60.0, 0),
        ));
        all.push(Twist::Pair(REFLECTED, 1.0, near(30.0, by)));
        all.push(Twist::Pair(REFLECTED, 0.0, near(30.0, by)));
        // Exactly 20.0 dBm and its neighbours, whatever is read.
        all.push(Twist::Pair(INPUT, 0.0, near(20.0, by)));
        all.push(Twist::Guard(by));
        all.push(Twist::Field(BIAS, near(-3.3, by)));
        all.push(Twist::Field(BIAS, near(-3.2, by)));
        all.extend([THRESHOLD, REFLECTED, BIAS].map(|i| Twist::Code(i, by)));
    }
    for slope in [f32::INFINITY, f32::NEG_INFINITY, f32::NAN, -0.0] {
        all.push(Twist::Pair(REFLECTED, slope, 0));
    }
    all
}

/// What a twist may look at.
pub struct Now {
    pub tick: u32,
    pub deadline: Option<u32>,
    /// The settings in force, or good ones.
    pub settings: Settings,
}

impl Input {
    pub fn apply(&mut self, twist: Twist, now: &Now, random: &mut Random) {
        let s = &mut self.settings;
        match twist {
            Twist::Calm => {}
            Twist::Pins(bits) => {
                self.pins = [0, 1, 2, 3].map(|i| bits >> i & 1 == 1);
                self.pins[0] = !self.pins[0];
            }
            Twist::Temperature(t) => self.temperature = t,
            Twist::Fails(place, status) => {
                // Data beside a failure have to be ignored.
                self.replies[9 * place..][..9].fill_with(|| random.byte());
                self.fail(place, status);
            }
            Twist::Data => {
                let data = self.replies.iter_mut().enumerate();
                data.filter(|(i, _)| i % 9 != 0)
                    .for_each(|(_, b)| *b = random.byte());
            }
            Twist::Ahead(by) => {
                let from = now.deadline.unwrap_or(now.tick);
                self.tick = (from as i64 + by) as u32;
            }
            Twist::Power(by) => {
                let volts = (20.0 - now.settings.float(INPUT + 1)) / now.settings.float(INPUT);
                let code = (volts / 3.3 * 4096.0).round() as i32 as i64 + by;
                // The upper four bits do not count.
                let word = (code as u16 & 0xFFF) | (random.bits() as u16) << 12;
                let place = match self.call {
                    START => 12,
                    STATUS => 4,
                    _ => 0,
                };
                self.replies[9 * place + 1..][..2].copy_from_slice(&word.to_be_bytes());
            }
            Twist::Alarm(byte) => self.replies[9 * 9 + 1] = byte,
            Twist::Absent(who) => self.present = who,
            Twist::Millivolts(output, reflected) => self.millivolts = [output, reflected],
            Twist::Field(i, bits) => s.x[i] = bits,
            Twist::Near(i, by) => s.x[i] = near(s.float(i), by),
            Twist::Pair(i, slope, offset) => s.pair(i, slope, offset),
            Twist::Output(volts) => {
                s.pair(OUTPUT, 1.0, 0);
                s.x[THRESHOLD] = volts;
            }
            Twist::Code(i, by) => {
                let code = random.below(4097) as f32 / 4096.0;
                let (place, at) = match i {
                    BIAS => (BIAS, -code * 3.3),
                    REFLECTED => (REFLECTED + 1, 30.0 - code * 2.5 * s.float(REFLECTED)),
                    _ => (
                        THRESHOLD,
                        code * 2.5 * s.float(OUTPUT) + s.float(OUTPUT + 1),
                    ),
                };
                s.x[place] = near(at, by);
            }
            Twist::Guard(by) => {
                s.x[THRESHOLD] = near(0.1 * s.float(OUTPUT) + s.float(OUTPUT + 1), by)
            }
            Twist::Wants(state) => s.state = state,
            Twist::Another => {
                *s = Settings::good(random);
                s.state = random.pick(&[0, 1, 2, 2]);
            }
            Twist::Any => s.x = s.x.map(|_| random.bits()),
        }
    }
}
