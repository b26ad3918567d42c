//! A slot with a channel of the original, asked by document 01's calls.
//!
//! Whose answer is whose: 2 to 5 and 8 are the bay's and are made here, before
//! the original is asked; 1, 6 and 7 cannot come, since the slot is 0, replies
//! are padded and a status has its seven places. 0 and 9 to 14 are what the
//! original did.

use crate::{
    hex,
    trace::{Call, Line},
    value::{self, Value},
};
use bench::Given;
use booster::{
    hardware::{
        delay::AsmDelay,
        rf_channel::{AdcPin, ChannelPins, RfChannel, RfChannelMachine},
        I2cBusManager, SystemTimer, I2C,
    },
    settings::eeprom::rf_channel::{ChannelSettings, ChannelState, STORED},
    Error,
};
use std::{
    cell::{Cell, RefCell},
    panic::{self, AssertUnwindSafe},
};
use stm32f4xx_hal::{
    adc::Adc,
    gpio::{
        gpioa::{PA0, PA1},
        ErasedPin,
    },
};

/// Rows that a call must find free, and rows of the replay's log.
const ROOM: usize = 20;
const LOG_ROWS: usize = 65_536 / 16;

pub enum Slot {
    Empty,
    Halted,
    Channel(Box<RfChannelMachine>),
}

/// What a call left behind, beside the slot.
#[derive(Default)]
pub struct Report {
    pub answer: u8,
    /// Beside answer 14; 0 is a panic that document 01 has no cause for.
    pub cause: u8,
    /// What the original said as it panicked.
    pub panic: String,
    /// Status: the state that it tells.
    pub told: Option<&'static str>,
    /// Update: powered, RF disabled, blocked. Status: reflected overdrive,
    /// output overdrive, alert.
    pub flags: Option<[bool; 3]>,
    /// Status: in document 01's order.
    pub numbers: Option<[f32; 7]>,
    pub rows: Vec<[u8; 16]>,
    /// Replies taken.
    pub taken: usize,
}

impl Report {
    fn answer(answer: u8) -> Self {
        Report {
            answer,
            ..Report::default()
        }
    }
}

impl Slot {
    /// One call; `used` is the count of rows, which grows by those added.
    pub fn call(&mut self, line: Line, used: &mut usize) -> Report {
        if let Some(answer) = self.refusal(&line, *used) {
            return Report::answer(answer);
        }
        bench::begin(line.given.clone());
        IN_CALL.set(true);
        let asked = panic::catch_unwind(AssertUnwindSafe(|| self.ask(line)));
        IN_CALL.set(false);
        let mut report = asked.unwrap_or_else(|_| self.halt());
        bench::with(|b| {
            report.rows = std::mem::take(&mut b.rows);
            report.taken = b.taken;
        });
        assert!(
            report.rows.len() <= ROOM,
            "a call added more than {ROOM} rows"
        );
        *used += report.rows.len();
        report
    }

    /// The bay's own tests, in document 01's order.
    fn refusal(&self, line: &Line, used: usize) -> Option<u8> {
        let start = matches!(line.call, Call::Start(_));
        let measures = matches!(line.call, Call::Update | Call::Status);
        match self {
            Slot::Empty if !start => return Some(2),
            Slot::Halted if !start => return Some(3),
            Slot::Channel(_) if start => return Some(4),
            _ => {}
        }
        if LOG_ROWS - used < ROOM {
            return Some(5);
        }
        if measures && line.given.temperature.is_some_and(|t| !t.is_finite()) {
            return Some(8);
        }
        None
    }

    fn ask(&mut self, line: Line) -> Report {
        if let Call::Start(settings) = line.call {
            // Left empty if no module is found.
            *self = Slot::Empty;
            return match start(settings, &line.given) {
                Some(channel) => {
                    *self = Slot::Channel(Box::new(RfChannelMachine::new(channel)));
                    Report::answer(0)
                }
                None => Report::answer(13),
            };
        }
        let Slot::Channel(machine) = self else {
            unreachable!()
        };
        match line.call {
            Call::Start(_) => unreachable!(),
            Call::Startup => machine.handle_startup(),
            Call::Standby => machine.standby(),
            Call::Update => {
                let s = machine.update();
                return Report {
                    flags: Some([s.powered, s.rf_disabled, s.blocked]),
                    ..Report::default()
                };
            }
            Call::Reset => {
                if let Err(e) = machine.interlock_reset() {
                    // The error's type is private to the original's module.
                    return Report::answer(match format!("{e:?}").as_str() {
                        "InvalidEvent" => 9,
                        "TransitionsFailed" => 10,
                        other => panic!("reset answered {other}"),
                    });
                }
            }
            Call::Settings(settings) => match machine.handle_settings(&settings) {
                Ok(()) => {}
                Err(Error::Bounds) => return Report::answer(11),
                Err(Error::Interface) => return Report::answer(12),
            },
            Call::Status => {
                let status = value::of(&machine.get_status(&mut Adc::on_bench()));
                let flags = ["reflected_overdrive", "output_overdrive", "alert"];
                let numbers = [
                    "temperature",
                    "p28v_current",
                    "p5v_current",
                    "p5v_voltage",
                    "input_power",
                    "reflected_power",
                    "output_power",
                ];
                return Report {
                    told: Some(status.field("state").name()),
                    flags: Some(flags.map(|f| status.field(f).flag())),
                    numbers: Some(numbers.map(|n| status.field(n).float())),
                    ..Report::default()
                };
            }
        }
        Report::answer(0)
    }

    /// Document 01's halt: both pins low, and the channel is gone.
    fn halt(&mut self) -> Report {
        // A start has no channel before it is done.
        let starting = !matches!(self, Slot::Channel(_));
        *self = Slot::Halted;
        bench::set_pin(bench::SIGNAL_ON, false);
        bench::set_pin(bench::ENABLE_POWER, false);
        let panic = LAST_PANIC.take();
        Report {
            answer: 14,
            cause: cause(&panic, starting),
            panic,
            ..Report::default()
        }
    }

    fn machine(&self) -> Option<&RfChannelMachine> {
        match self {
            Slot::Channel(machine) => Some(machine),
            _ => None,
        }
    }

    pub fn state(&self) -> &'static str {
        match self {
            Slot::Empty => "Empty",
            Slot::Halted => "Halted",
            Slot::Channel(machine) => value::of(machine.state()).name(),
        }
    }

    pub fn power(&self) -> bool {
        self.machine().is_some_and(|m| m.context().is_powered())
    }

    pub fn rf(&self) -> bool {
        self.machine().is_some_and(|m| m.context().is_enabled())
    }

    /// The deadline, where the state has one; else what the state holds is in
    /// its name already.
    pub fn deadline(&self) -> String {
        let held = self.machine().map(|m| m.state().held()).unwrap_or_default();
        match held.parse::<u32>() {
            Ok(_) => held,
            Err(_) => String::new(),
        }
    }

    /// The settings in force, as a trace writes them.
    pub fn settings(&self) -> String {
        let Some(machine) = self.machine() else {
            return String::new();
        };
        let s = machine.context().settings();
        let mut floats = vec![s.output_interlock_threshold, s.bias_voltage];
        for transform in [
            s.input_power_transform,
            s.output_power_transform,
            s.reflected_power_transform,
        ] {
            let pair: Value = value::of(&transform);
            floats.extend([pair.field("slope").float(), pair.field("offset").float()]);
        }
        let state = match s.state {
            ChannelState::Off => "0",
            ChannelState::Powered => "1",
            ChannelState::Enabled => "2",
        };
        floats
            .iter()
            .map(|x| hex::write_float(*x))
            .collect::<String>()
            + state
    }
}

/// The original's way to a channel: pins, then devices, then thresholds.
fn start(settings: ChannelSettings, given: &Given) -> Option<RfChannel> {
    STORED.set(Some(settings));
    // At the start the temperature chip only has to be there: the column of
    // presence, not the call's temperature, says whether it is.
    let answers = given.present[bench::THERMOMETER];
    bench::with(|b| b.given.temperature = answers.then_some(25.0));
    let pins = ChannelPins::new(
        ErasedPin::on_bench(bench::ENABLE_POWER),
        ErasedPin::on_bench(bench::ALERT),
        ErasedPin::on_bench(bench::REFLECTED_OVERDRIVE),
        ErasedPin::on_bench(bench::OUTPUT_OVERDRIVE),
        ErasedPin::on_bench(bench::SIGNAL_ON),
        AdcPin::pa0(PA0::on_bench(bench::OUTPUT_DETECTOR)),
        AdcPin::pa1(PA1::on_bench(bench::REFLECTED_DETECTOR)),
    );
    RfChannel::new(bus(), pins, SystemTimer, AsmDelay)
}

/// The original asks for a bus that lives for ever: one is made and kept.
pub fn bus() -> &'static I2cBusManager {
    thread_local! {
        static BUS: &'static I2cBusManager = Box::leak(Box::new(I2cBusManager::new(I2C::on_bench())));
    }
    BUS.with(|bus| *bus)
}

thread_local! {
    static IN_CALL: Cell<bool> = const { Cell::new(false) };
    static LAST_PANIC: RefCell<String> = RefCell::default();
}

/// A panic within a call is kept for the halt instead of being printed.
pub fn keep_panics() {
    let print = panic::take_hook();
    panic::set_hook(Box::new(move |info| match IN_CALL.get() {
        true => LAST_PANIC.set(info.payload_as_str().unwrap_or("no text").to_string()),
        false => print(info),
    }));
}

/// Document 01's cause, from what the original said. Its texts tell the failed
/// transfer, the standing alarm, the temperature and the level apart; a refused
/// value is cause 4 at a start and cause 6 elsewhere, which is on enabling.
fn cause(panic: &str, starting: bool) -> u8 {
    let says = |text: &str| panic.contains(text);
    if says("BusFailed") || says("Interface") || says("Failed to set DAC bias voltage") {
        1
    } else if says("assertion failed") && says("clear_alarm") {
        2
    } else if says("TemperatureFailed") {
        3
    } else if says("Bounds") && starting {
        4
    } else if says("assertion failed") && says("output_interlock_threshold") {
        5
    } else if says("Bounds") {
        6
    } else {
        0
    }
}
