//! Traces, made beside the original: every line is asked of it as soon as it is
//! made, so that the next one can be chosen by what the channel does.

use crate::twist::{self, Input, Now, Settings, Twist, CALLS};
use driver::{deep::Deep, random::Random, trace};

/// The states that a trace's line can be met in.
pub const STATES: [&str; 13] = [
    "Empty",
    "Halted",
    "Off",
    "Powerup",
    "Powered",
    "Enabled",
    "Tripped(Input)",
    "Tripped(Output)",
    "Tripped(Reflected)",
    "Powerdown",
    "Blocked(OverTemperature)",
    "Blocked(UnderTemperature)",
    "Blocked(SupplyAlert)",
];

pub const HEADER: &str = "tick,call,temp,alert,out,refl,dog,replies,settings";

pub struct Trace {
    /// Its number, or what it is about if it was chosen by hand.
    pub name: String,
    pub lines: Vec<Line>,
}

pub struct Line {
    /// With their ends.
    pub text: Vec<u8>,
    pub answer: Vec<u8>,
    /// Of a line that fits.
    pub call: Option<Call>,
}

pub struct Call {
    pub before: &'static str,
    /// On demand 2's domain.
    pub domain: bool,
    /// An update at its deadline's own tick, where the stand-in's clock decides.
    pub at_deadline: bool,
}

/// One state, one call and one twist.
type Probe = (&'static str, usize, Twist);

/// All traces of a seed: first every state by every call by every twist of it,
/// in an order of the seed's own, then random walks without end.
pub struct Plan {
    seed: u64,
    /// Lines that end with LF and are of printable letters.
    plain: bool,
    probes: Vec<Vec<Probe>>,
    /// How many of these groups stay on the domain; the others come after them.
    orderly: usize,
}

/// Probes in a trace.
const GROUP: usize = 45;

impl Plan {
    pub fn new(seed: u64, plain: bool) -> Self {
        let (mut orderly, mut wild) = (Vec::new(), Vec::new());
        for state in STATES {
            let live = !matches!(state, "Empty" | "Halted");
            for call in 0..CALLS.len() {
                let mut twists = twist::around(call);
                if call == twist::START || call == twist::SETTINGS {
                    twists.extend(twist::of_settings());
                }
                // What is refused for the slot's sake looks at nothing else.
                if live == (call == twist::START) {
                    twists.truncate(8);
                }
                orderly.extend(twists.into_iter().map(|t| (state, call, t)));
            }
            for by in [0, 1, -1, -2, -600, HALF - 1, HALF, HALF + 1, -HALF] {
                let calls = [twist::UPDATE, twist::STANDBY, twist::STARTUP];
                wild.extend(calls.map(|call| (state, call, Twist::Ahead(by))));
            }
        }
        let mut random = Random::new(seed, u64::MAX);
        let mut groups = |mut all: Vec<Probe>| -> Vec<Vec<Probe>> {
            for i in (1..all.len()).rev() {
                all.swap(i, random.below(i + 1));
            }
            all.chunks(GROUP).map(<[_]>::to_vec).collect()
        };
        let mut probes = groups(orderly);
        let orderly = probes.len();
        probes.extend(groups(wild));
        Plan {
            seed,
            plain,
            probes,
            orderly,
        }
    }

    /// Traces that are probes.
    pub fn directed(&self) -> u64 {
        self.probes.len() as u64
    }

    pub fn trace(&self, number: u64) -> Trace {
        let mut random = Random::new(self.seed, number);
        let probes = self.probes.get(number as usize);
        let wild = match probes {
            Some(_) => number as usize >= self.orderly,
            None => random.once_in(4),
        };
        let tick = match wild {
            true => random.pick(&EDGES_OF_TIME),
            false => match random.below(3) {
                0 => 0,
                1 => random.bits() >> 2,
                _ if probes.is_none() => HALF as u32 - 1 - random.below(9000) as u32,
                _ => 1000,
            },
        };
        let mut walk = Walk::new(random, tick, wild, self.plain);
        match probes {
            Some(probes) => probes.iter().for_each(|p| walk.probe(*p)),
            None => walk.wander(),
        }
        Trace {
            name: number.to_string(),
            lines: walk.lines,
        }
    }
}

/// Half of the clock's range.
const HALF: i64 = 1 << 31;

const EDGES_OF_TIME: [u32; 8] = [
    0,
    0x7FFF_FE00,
    0x7FFF_FF80,
    0x7FFF_FFFF,
    0x8000_0000,
    0xFFFF_FE00,
    0xFFFF_FF80,
    0xFFFF_FFFF,
];

struct Walk {
    random: Random,
    deep: Deep,
    /// Ticks may do as they like.
    wild: bool,
    plain: bool,
    /// Where the next tick starts from, and the last one that was sent.
    tick: u32,
    last: u32,
    /// No tick so far has left the domain.
    orderly: bool,
    lines: Vec<Line>,
}

impl Trace {
    /// Lines that are chosen beforehand, asked one after the other.
    pub fn of(name: &str, lines: Vec<String>) -> Self {
        let mut walk = Walk::new(Random::new(0, 0), 0, true, true);
        lines
            .into_iter()
            .for_each(|l| walk.send_text(l.into_bytes()));
        Trace {
            name: name.into(),
            lines: walk.lines,
        }
    }
}

impl Walk {
    fn new(random: Random, tick: u32, wild: bool, plain: bool) -> Self {
        Walk {
            random,
            deep: Deep::new(),
            wild,
            plain,
            tick,
            last: 0,
            orderly: true,
            lines: Vec::new(),
        }
    }

    fn state(&self) -> &'static str {
        self.deep.slot.state()
    }

    fn live(&self) -> bool {
        !matches!(self.state(), "Empty" | "Halted")
    }

    fn now(&mut self) -> Now {
        let in_force = Settings::read(&self.deep.slot.settings());
        Now {
            tick: self.tick,
            deadline: self.deep.slot.deadline().parse().ok(),
            settings: in_force.unwrap_or_else(|| Settings::good(&mut self.random)),
        }
    }

    /// Nothing out of the ordinary, and a deadline, if there is one, just late.
    fn calm(&mut self, call: usize) -> Input {
        let now = self.now();
        let tick = match now.deadline {
            Some(deadline) => deadline.wrapping_add(1),
            None => self.tick.wrapping_add(self.random.below(3) as u32),
        };
        let settings = match call {
            twist::START => Settings::good(&mut self.random),
            _ => now.settings,
        };
        Input::calm(tick, call, settings)
    }

    fn send(&mut self, input: Input) {
        let text = self.text(input);
        self.send_text(text);
    }

    /// The line of an input, its tick brought back to the domain if it has to be.
    fn text(&mut self, mut input: Input) -> Vec<u8> {
        if !self.wild {
            input.tick = input.tick.clamp(self.tick, HALF as u32 - 1);
        }
        self.tick = input.tick;
        input.text(&mut self.random).into_bytes()
    }

    fn send_text(&mut self, mut text: Vec<u8>) {
        let line = trace::line(&text, true);
        let before = self.state();
        let tick = line.as_ref().map(|l| l.given.tick);
        let update = matches!(
            line,
            Some(trace::Line {
                call: trace::Call::Update,
                ..
            })
        );
        let deadline = self.deep.slot.deadline().parse().ok();
        if let Some(tick) = tick {
            self.orderly &= tick >= self.last && tick < HALF as u32;
            self.last = tick;
        }
        let (answer, report) = self.deep.answer(line);
        let end: &[u8] = match !self.plain && self.random.once_in(20) {
            true => b"\r\n",
            false => b"\n",
        };
        text.extend(end);
        self.lines.push(Line {
            text,
            answer: (answer + "\r\n").into_bytes(),
            call: report.map(|r| Call {
                before,
                domain: self.orderly && !(1..=8).contains(&r.answer),
                at_deadline: update && r.answer == 0 && deadline.is_some() && tick == deadline,
            }),
        });
    }

    /// Ends what is there, reaches a state and tries one thing there; what it has
    /// left behind may show only on the way to Enabled.
    fn probe(&mut self, (state, call, twist): Probe) {
        self.end();
        if self.wild {
            self.tick = self.random.pick(&EDGES_OF_TIME);
        }
        self.reach(state);
        let mut input = self.calm(call);
        input.tick = self.tick;
        let now = self.now();
        if let (twist::SETTINGS, Twist::Fails(..)) = (call, twist) {
            // Settings that stay the same make no transfer that could fail.
            input.apply(Twist::Another, &now, &mut self.random);
        }
        input.apply(twist, &now, &mut self.random);
        self.send(input);
        for _ in 0..self.random.below(5) {
            let input = self.calm(match self.state() {
                "Off" => twist::STARTUP,
                _ => twist::UPDATE,
            });
            self.send(input);
        }
    }

    /// A channel that stands is halted: it can be started anew then.
    fn end(&mut self) {
        if self.live() {
            let mut input = self.calm(twist::UPDATE);
            input.temperature = None;
            self.send(input);
        }
    }

    /// Goes to a state, step by step; it gives up where a step does not lead on,
    /// as when no row is free.
    fn reach(&mut self, wanted: &str) {
        for _ in 0..8 {
            let state = self.state();
            if state == wanted {
                return;
            }
            let live = self.live();
            let mut input = self.calm(match state {
                _ if !live => twist::START,
                "Off" if !wanted.starts_with("Blocked") => twist::STARTUP,
                "Powerup" if wanted == "Powerdown" => twist::STANDBY,
                _ => twist::UPDATE,
            });
            // States that do not hang on what is wanted are met with less, too.
            input.settings.state = match wanted {
                _ if live => input.settings.state,
                "Off" => self.random.pick(&[0, 1, 2]),
                "Powerup" | "Powered" | "Powerdown" => self.random.pick(&[1, 2]),
                _ => 2,
            };
            match wanted {
                "Empty" if !live => input.present = self.random.pick(&['0', 'E', 'T']),
                "Halted" if !live => input.fail(self.random.below(10), 1),
                "Empty" | "Halted" => input.temperature = None,
                "Blocked(OverTemperature)" if live => input.temperature = Some(70f32.to_bits()),
                "Blocked(UnderTemperature)" if live => input.temperature = Some(0),
                "Blocked(SupplyAlert)" if live => input.pins[0] = false,
                "Tripped(Input)" if state == "Enabled" => {
                    input.replies[1..3].copy_from_slice(&[0x0F, 0xFF])
                }
                "Tripped(Output)" if state == "Enabled" => input.pins[1] = true,
                "Tripped(Reflected)" if state == "Enabled" => input.pins[2] = true,
                _ => {}
            }
            self.send(input);
        }
    }

    /// A random walk: calls that suit the state, more or less often with a twist.
    fn wander(&mut self) {
        let mut length = 150 + self.random.below(250);
        if self.random.once_in(12) {
            // 4076 rows are the last that let a call in.
            let rows = self
                .random
                .pick(&[3950, 4000, 4056, 4058, 4075, 4076, 4076, 4077]);
            self.fill(rows);
            length = self.lines.len() + 60 + self.random.below(100);
        }
        let twisted = self.random.pick(&[2, 3, 6, 20]);
        while self.lines.len() < length {
            // Nothing but a halt leads out of Blocked.
            let rounds = if self.state().starts_with("Blocked") {
                6
            } else {
                25
            };
            if self.lines.is_empty() || self.random.once_in(rounds) {
                self.end();
                let state = self.random.pick(&STATES);
                self.reach(state);
            }
            let suits: &[usize] = match self.state() {
                "Empty" | "Halted" => &[0, 0, 0, 0, 0, 0, 0, 0, 0, 0, 1, 2, 3, 4, 5, 6],
                "Powerup" | "Powerdown" => &[2, 2, 2, 2, 2, 2, 2, 1, 3, 4, 5, 5, 6],
                _ => &[
                    0, 1, 1, 2, 2, 2, 2, 2, 2, 2, 2, 3, 3, 4, 5, 5, 5, 5, 6, 6, 6,
                ],
            };
            let call = self.random.pick(suits);
            let mut input = self.calm(call);
            input.tick = self.next_tick();
            let now = self.now();
            if call == twist::STATUS {
                input.apply(Twist::Data, &now, &mut self.random);
                input.millivolts = [(); 2].map(|()| self.random.bits() as u16);
            }
            let changes = call == twist::START || call == twist::SETTINGS;
            let mut twists = Vec::new();
            if call == twist::SETTINGS {
                twists.push(match self.random.below(8) {
                    0 => Twist::Calm,
                    1 | 2 => Twist::Another,
                    3 => Twist::Wants(self.random.below(3) as u8),
                    _ => self.random.pick(&twist::of_settings()),
                });
                if self.random.once_in(8) {
                    twists.push(Twist::Fails(self.random.below(4), 1));
                }
            }
            if call == twist::UPDATE && self.state() == "Enabled" && self.random.once_in(3) {
                twists.push(Twist::Power(self.random.below(5) as i64 - 2));
            }
            if call == twist::START && self.random.once_in(4) {
                input.settings.state = self.random.pick(&[0, 1]);
            }
            while twists.len() < 3 && self.random.once_in(twisted) {
                let all = match changes && self.random.once_in(2) {
                    true => twist::of_settings(),
                    false => twist::around(call),
                };
                twists.push(self.random.pick(&all));
            }
            for twist in twists {
                input.apply(twist, &now, &mut self.random);
            }
            match self.random.once_in(100) {
                true => self.send_spoilt(input),
                false => self.send(input),
            }
        }
    }

    /// Starts that are halted by a failed transfer, 20, 5 and 6 rows each, until
    /// exactly so many rows are used.
    fn fill(&mut self, rows: usize) {
        while self.deep.used < rows {
            let left = rows - self.deep.used;
            let place = match left {
                45.. => 14,
                _ if left % 5 == 0 => 0,
                _ => 1,
            };
            let mut input = self.calm(twist::START);
            input.fail(place, 1);
            self.send(input);
        }
    }

    fn next_tick(&mut self) -> u32 {
        let now = self.now();
        let (tick, deadline) = (now.tick as i64, now.deadline.unwrap_or(now.tick) as i64);
        let beside = self.random.below(3) as i64 - 1;
        let far = self.random.bits();
        let next = match self.random.below(10) {
            0..=2 => tick + far as i64 % 3,
            3..=6 => (deadline + beside).max(if self.wild { 0 } else { tick }),
            7 => tick + far as i64 % 700,
            8 => tick + 1,
            _ if !self.wild => tick + far as i64 % 20_000,
            _ => match self.random.below(5) {
                0 => far as i64,
                1 => tick - far as i64 % 1000,
                2 => self.random.pick(&EDGES_OF_TIME) as i64,
                _ => deadline + HALF + beside,
            },
        };
        next as u32
    }

    /// A line that has a letter changed, put in or taken out, or that is too long
    /// or as long as it may be. Some still fit.
    fn send_spoilt(&mut self, input: Input) {
        let mut text = self.text(input);
        let letters: &[u8] = match self.plain {
            true => b",,0123456789ABCDEFabcf-+. \"x",
            false => b",,0123456789ABCDEFabcf-+. \"x\0\t\x7F\x80\xC3\xFF",
        };
        let at = self.random.below(text.len());
        let letter = self.random.pick(letters);
        match self.random.below(8) {
            0..=2 => text[at] = letter,
            3 | 4 => text.insert(at, letter),
            5 => drop(text.remove(at)),
            6 => text.clear(),
            _ => {
                // Zeros in front of the tick fit, up to 512 bytes.
                let length = self.random.pick(&[510, 511, 512, 513, 514, 700, 5000]);
                let zeros = vec![b'0'; length - text.len()];
                text.splice(0..0, zeros);
            }
        }
        self.send_text(text);
    }
}
