//! A reading that comes, beside the one that is stored: document 02, (g), "Readings that arrive late".

use crate::device::{Device, Taken};
use crate::script::Call;
use crate::value::{self, State};

/// A reading that comes, and what it meets.
#[derive(Clone, Copy, PartialEq, Eq, Debug)]
pub struct Arrival {
    pub sensor: usize,
    pub time: u64,
    pub state: State,
    pub stored: Taken,
    pub clock: u64,
}

impl Arrival {
    /// A call, before the device performs it; none where it is no reading or one that rows 9 or 10 decline.
    pub fn of(device: &Device, call: &Call) -> Option<Arrival> {
        let Call::Reading { sensor, reading, time, .. } = call else { return None };
        let (sensor, clock) = (*sensor as usize, device.clock);
        let state = value::state_of(device.sheet.sensors.get(sensor)?, *reading)?;
        let stored = device.readings[sensor];
        Some(Arrival { sensor, time: time.unwrap_or(clock), state, stored, clock })
    }

    /// "It supersedes the stored one"; else it is passed over, if it is accepted.
    pub fn supersedes(&self) -> bool {
        self.stored.is_superseded_at(self.time)
    }
}
