//! Document 01 "Clock": the device time out of the caller's time.

use super::{Config, Fault};

/// The last Set Timestamp, if there was one.
#[derive(Clone, Debug, Default, PartialEq, Eq)]
pub struct Clock {
    /// (value set, caller's time at the setting)
    setting: Option<(u64, u64)>,
}

impl Clock {
    /// Set Timestamp. Any value is a setting, 0 too (see README, Readings).
    pub fn set(&mut self, value: u64, time: u64) {
        self.setting = Some((value, time));
    }

    /// The device time at the caller's `time`.
    pub fn device_time(&self, time: u64, config: Config) -> u64 {
        // "Before Set Timestamp the device time is 0."
        let Some((value, set_at)) = self.setting else {
            return 0;
        };
        if config.has(Fault::ClockGoesBack) && time < set_at {
            return value.wrapping_add(time.wrapping_sub(set_at));
        }
        // "elapsed is 0 if the caller's clock is behind the setting (house),
        // and a sum above 2^64-1 is 2^64-1 (house)."
        let elapsed = u128::from(time.max(set_at)) - u128::from(set_at);
        let sum = u128::from(value) + elapsed;
        u64::try_from(sum).unwrap_or(u64::MAX)
    }
}
