//! The bench: what every call is given, and the log of what it did.
//!
//! Stands in for the world around one channel: chips on the bus, pins, timer,
//! watchdog flag, detectors. Pins, transfers and waits of the original end up
//! here, in the order in which it makes them, as document 01's rows.
//!
//! What it could hide: a chip that answers differently because of what it was
//! sent. Replies are a list; no chip is simulated.

use std::cell::RefCell;

pub const SIGNAL_ON: u8 = 0;
pub const ENABLE_POWER: u8 = 1;

pub const ALERT: u8 = 0;
pub const OUTPUT_OVERDRIVE: u8 = 1;
pub const REFLECTED_OVERDRIVE: u8 = 2;

pub const EEPROM: usize = 0;
pub const THERMOMETER: usize = 1;

pub const OUTPUT_DETECTOR: usize = 0;
pub const REFLECTED_DETECTOR: usize = 1;

/// What a call is given.
#[derive(Clone)]
pub struct Given {
    pub tick: u32,
    /// Levels of the alert, output and reflected overdrive pins.
    pub inputs: [bool; 3],
    pub watchdog: bool,
    /// `None` is a temperature that failed.
    pub temperature: Option<f32>,
    /// The EEPROM, and the temperature chip, answer at the start.
    pub present: [bool; 2],
    /// Nine bytes for each transfer: a status and eight data bytes.
    pub replies: [u8; 135],
    /// Output and reflected power detector.
    pub millivolts: [u16; 2],
}

impl Default for Given {
    fn default() -> Self {
        Given {
            tick: 0,
            inputs: [true, false, false],
            watchdog: false,
            temperature: Some(25.0),
            present: [true, true],
            replies: [0; 135],
            millivolts: [0; 2],
        }
    }
}

#[derive(Default)]
pub struct Bench {
    pub given: Given,
    /// Transfers that took their reply in this call.
    pub taken: usize,
    pub rows: Vec<[u8; 16]>,
    /// Levels of signal_on and enable_power.
    pub outputs: [bool; 2],
}

thread_local! {
    static BENCH: RefCell<Bench> = RefCell::default();
}

pub fn with<T>(f: impl FnOnce(&mut Bench) -> T) -> T {
    BENCH.with(|bench| f(&mut bench.borrow_mut()))
}

/// Begin a call. Rows of earlier calls are dropped; levels stay.
pub fn begin(given: Given) {
    with(|b| b.given = given);
    again();
}

/// Begin a call with what the last one was given.
pub fn again() {
    with(|b| {
        b.taken = 0;
        b.rows.clear();
    })
}

/// A row as document 01 lays it out; the slot is always 0.
fn row(kind: u8, place: u8, out: &[u8], asked: usize, failed: bool, data: &[u8]) -> [u8; 16] {
    let mut row = [0; 16];
    row[0] = kind;
    row[1] = place;
    row[2] = out.len() as u8;
    row[3] = asked as u8;
    row[4] = failed as u8;
    row[5..][..out.len()].copy_from_slice(out);
    row[8..][..data.len()].copy_from_slice(data);
    row
}

/// Kind 0: a pin is set.
pub fn set_pin(pin: u8, level: bool) {
    with(|b| {
        b.outputs[pin as usize] = level;
        b.rows.push(row(0, pin, &[level as u8], 0, false, &[]));
    })
}

/// Kind 4: a wait.
pub fn wait(microseconds: u16) {
    with(|b| {
        b.rows
            .push(row(4, 0, &microseconds.to_be_bytes(), 0, false, &[]))
    })
}

/// Kinds 1 to 3: a transfer, which takes the next reply. True if acknowledged;
/// only then is `data` filled.
pub fn transfer(address: u8, out: &[u8], data: &mut [u8]) -> bool {
    with(|b| {
        let reply = &b.given.replies[9 * b.taken..][..9];
        b.taken += 1;
        let failed = reply[0] != 0;
        if !failed {
            data.copy_from_slice(&reply[1..][..data.len()]);
        }
        let kind = match (out.is_empty(), data.is_empty()) {
            (false, true) => 1,
            (false, false) => 2,
            (true, _) => 3,
        };
        let seen: &[u8] = if failed { &[] } else { data };
        b.rows
            .push(row(kind, address, out, data.len(), failed, seen));
        !failed
    })
}
