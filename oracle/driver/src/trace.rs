//! A line of a trace, by document 01's replay section.

use crate::hex;
use bench::Given;
use booster::{
    linear_transformation::LinearTransformation,
    settings::eeprom::rf_channel::{ChannelSettings, ChannelState},
};

pub enum Call {
    Start(ChannelSettings),
    Startup,
    Update,
    Reset,
    Standby,
    Settings(ChannelSettings),
    Status,
}

pub struct Line {
    pub call: Call,
    pub given: Given,
}

/// The line without its end, or none if it does not fit. With `deep`, three
/// more columns may follow: which chips of the module answer at a start (1 both,
/// 0 neither, E the EEPROM alone, T the temperature chip alone), and the
/// millivolts of the output and the reflected power detector.
pub fn line(text: &[u8], deep: bool) -> Option<Line> {
    if text.len() > 512 {
        return None;
    }
    let columns: Vec<&str> = std::str::from_utf8(text).ok()?.split(',').collect();
    let (nine, more) = columns.split_at_checked(9)?;
    let [tick, call, temperature, alert, output, reflected, dog, replies, settings] = nine else {
        return None;
    };
    let (present, millivolts) = match more {
        [] => ([true, true], [0, 0]),
        [present, output, reflected] if deep => {
            let millivolts = |text| decimal(text)?.try_into().ok();
            (
                self::present(present)?,
                [millivolts(output)?, millivolts(reflected)?],
            )
        }
        _ => return None,
    };
    let call = match (*call, *settings) {
        ("start", s) => Call::Start(self::settings(s)?),
        ("settings", s) => Call::Settings(self::settings(s)?),
        ("startup", "") => Call::Startup,
        ("update", "") => Call::Update,
        ("reset", "") => Call::Reset,
        ("standby", "") => Call::Standby,
        ("status", "") => Call::Status,
        _ => return None,
    };
    let given = Given {
        tick: decimal(tick)?,
        inputs: [flag(alert)?, flag(output)?, flag(reflected)?],
        watchdog: flag(dog)?,
        temperature: match *temperature {
            "-" => None,
            text => Some(hex::float(text)?),
        },
        present,
        replies: self::replies(replies)?,
        millivolts,
    };
    Some(Line { call, given })
}

/// Digits only; `parse` alone would take a sign.
fn decimal(text: &str) -> Option<u32> {
    match text.bytes().all(|c| c.is_ascii_digit()) {
        true => text.parse().ok(),
        false => None,
    }
}

fn flag(text: &str) -> Option<bool> {
    match text {
        "0" => Some(false),
        "1" => Some(true),
        _ => None,
    }
}

/// Whether the EEPROM, and whether the temperature chip answers.
fn present(text: &str) -> Option<[bool; 2]> {
    match text {
        "1" => Some([true, true]),
        "0" => Some([false, false]),
        "E" => Some([true, false]),
        "T" => Some([false, true]),
        _ => None,
    }
}

/// Up to 135 bytes, padded with zeros.
pub fn replies(text: &str) -> Option<[u8; 135]> {
    let bytes = hex::bytes(text)?;
    let mut all = [0; 135];
    all.get_mut(..bytes.len())?.copy_from_slice(&bytes);
    Some(all)
}

fn settings(text: &str) -> Option<ChannelSettings> {
    let (floats, state) = text.split_at_checked(64)?;
    let x = |i: usize| hex::float(&floats[8 * i..][..8]);
    if !floats.is_ascii() {
        return None;
    }
    Some(ChannelSettings {
        output_interlock_threshold: x(0)?,
        bias_voltage: x(1)?,
        input_power_transform: LinearTransformation::new(x(2)?, x(3)?),
        output_power_transform: LinearTransformation::new(x(4)?, x(5)?),
        reflected_power_transform: LinearTransformation::new(x(6)?, x(7)?),
        state: match state {
            "0" => ChannelState::Off,
            "1" => ChannelState::Powered,
            "2" => ChannelState::Enabled,
            _ => return None,
        },
    })
}
