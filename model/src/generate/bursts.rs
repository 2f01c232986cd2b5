//! Calls about one sensor that belong together: bursts of readings that come out of order (document 02, (g), "a bus
//! that reorders"), and what is asked behind a connect that displaced a client (document 02, (m)).

use super::{lines, readings, Generator};
use crate::device::Device;
use crate::random::Random;
use crate::script::Call;
use crate::value::Reading;

/// A call of a burst that is still to come.
pub(super) enum Next {
    /// A reading of this time.
    Reading(u64),
    /// This reading, at the clock.
    Given(Reading),
    /// A tick to this time.
    Tick(u64),
    /// `?sensor-sampling` with the name alone, which shows the strategy.
    Queried,
    /// A reading older than the stored one.
    Older,
    /// `?sensor-value`, which shows the stored time.
    Asked,
    Restart,
    Connect,
}

/// A sensor, and the calls still to come, the next one last.
pub(super) struct Burst {
    pub(super) sensor: usize,
    pub(super) calls: Vec<Next>,
}

impl Generator {
    /// A tick, so that the clock leaves room for times below it; behind it a burst.
    pub(super) fn begin_burst(&mut self, sensor: usize) {
        self.tick();
        let Some(stored) = self.device().readings.get(sensor).map(|stored| stored.time) else { return };
        let clock = self.device().clock;
        let mut calls: Vec<Next> =
            times(&mut self.random, stored, clock).into_iter().map(Next::Reading).collect();
        calls.extend(ending(&mut self.random));
        calls.reverse();
        self.burst = Some(Burst { sensor, calls });
    }

    /// The next call of a burst; false where there is none.
    pub(super) fn go_on_with_burst(&mut self) -> bool {
        let Some(Burst { sensor, calls }) = &mut self.burst else { return false };
        let (sensor, next) = (*sensor, calls.pop());
        let Some(next) = next.filter(|_| sensor < self.device().readings.len()) else {
            self.burst = None;
            return false;
        };
        self.add_next(sensor, next);
        true
    }

    /// Adds a call of a burst.
    fn add_next(&mut self, sensor: usize, next: Next) {
        let stored = self.device().readings[sensor].time;
        match next {
            Next::Reading(time) => self.reading_at(sensor, time),
            Next::Given(reading) => {
                let lent = self.lent();
                self.add(Call::Reading { lent, sensor: sensor as u64, reading, time: None });
            }
            Next::Tick(ms) => {
                let (lent, ms) = (self.lent(), ms.max(self.device().clock));
                self.add(Call::Tick { lent, ms });
            }
            Next::Queried => {
                let line = format!("?sensor-sampling {}", lines::sensor_name(self.device(), sensor));
                self.line_of(line.into_bytes());
            }
            Next::Older => {
                let earlier = 1 + self.random.pick(&[0, 0, 1, 1000]);
                self.reading_at(sensor, stored.saturating_sub(earlier));
            }
            Next::Asked => {
                let line = format!("?sensor-value {}", lines::sensor_name(self.device(), sensor));
                self.line_of(line.into_bytes());
            }
            Next::Restart => self.line_of(b"?restart".to_vec()),
            Next::Connect => self.connect(),
        }
    }

    /// A reading of a time.
    fn reading_at(&mut self, sensor: usize, time: u64) {
        let lent = self.lent();
        let reading = any_reading(&mut self.random, &self.session.device, sensor);
        self.add(Call::Reading { lent, sensor: sensor as u64, reading, time: Some(time) });
    }

    /// A client's line as given.
    fn line_of(&mut self, line: Vec<u8>) {
        let (lent, client) = (self.lent(), self.client());
        self.add(Call::Line { lent, client, line });
    }
}

/// A reading; failure, unreachable or inactive oftener than elsewhere.
fn any_reading(random: &mut Random, device: &Device, sensor: usize) -> Reading {
    if random.chance(200) {
        return random.pick(&[Reading::Failure, Reading::Unreachable, Reading::Inactive]);
    }
    readings::reading(random, device, sensor as u64)
}

/// Times from the stored one, or a little before it, up to the clock: in order but for a few that change places.
fn times(random: &mut Random, stored: u64, clock: u64) -> Vec<u64> {
    let span = random.pick(&[1, 2, 5, 100, 1000, clock]);
    let from = stored.saturating_sub(random.pick(&[0, 0, 0, 1, 10])).max(clock.saturating_sub(span));
    let count = 2 + random.place(5);
    let mut times: Vec<u64> = (0..count).map(|_| from + random.below(clock - from + 1)).collect();
    times.sort_unstable();
    for _ in 0..random.place(count) {
        times.swap(random.place(count), random.place(count));
    }
    times
}

/// What follows the readings: at times the stored one is asked for, at times older ones come behind a restart.
fn ending(random: &mut Random) -> Vec<Next> {
    match random.below(100) {
        0..=39 => vec![Next::Asked],
        40..=49 => vec![Next::Older, Next::Asked],
        50..=52 => vec![Next::Restart, Next::Connect, Next::Older, Next::Asked],
        _ => vec![],
    }
}
