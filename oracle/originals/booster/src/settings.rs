//! Stands in for the firmware's settings of a channel. The originals are not at
//! hand: these are the six fields that a channel uses, compared one by one with
//! `==`, and they come from the driver instead of the EEPROM.
//! What it hides: other fields, which would make unequal what is equal here.

pub mod eeprom {
    pub mod rf_channel {
        use crate::{hardware::I2cProxy, linear_transformation::LinearTransformation};
        use microchip_24aa02e48::Microchip24AA02E48;
        use std::cell::Cell;

        #[derive(Copy, Clone, Debug, PartialEq)]
        pub enum ChannelState {
            Off,
            Powered,
            Enabled,
        }

        #[derive(Copy, Clone, Debug, PartialEq)]
        pub struct ChannelSettings {
            pub output_interlock_threshold: f32,
            pub bias_voltage: f32,
            pub state: ChannelState,
            pub input_power_transform: LinearTransformation,
            pub output_power_transform: LinearTransformation,
            pub reflected_power_transform: LinearTransformation,
        }

        thread_local! {
            /// What the next channel finds in its EEPROM.
            pub static STORED: Cell<Option<ChannelSettings>> = const { Cell::new(None) };
        }

        pub struct BoosterChannelSettings(ChannelSettings);

        impl BoosterChannelSettings {
            pub fn new(_: Microchip24AA02E48<I2cProxy>) -> Self {
                BoosterChannelSettings(STORED.get().expect("no settings stored"))
            }

            pub fn settings(&self) -> &ChannelSettings {
                &self.0
            }

            pub fn settings_mut(&mut self) -> &mut ChannelSettings {
                &mut self.0
            }

            /// Document 01 leaves saving out.
            pub fn save(&mut self) {}
        }
    }
}
