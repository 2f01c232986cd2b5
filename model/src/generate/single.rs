//! Random openings with a profile, and what a device of profile 1 is asked: document 02, (m), "Small units with one
//! connection".

use super::bursts::{Burst, Next};
use super::{readings, Generator};
use crate::device::{Device, Profile};
use crate::random::Random;
use crate::strategy::{Strategy, Subscription};

/// Numbers that are no profile.
const NO_PROFILES: &[u8] = &[2, 2, 3, 8, 48, 49, 127, 128, 254, 255];

/// Clients that a device of profile 1 does not have.
const ABOVE_0: &[u64] = &[1, 1, 2, 3, 6, 7, 7, 8, 9, 255, 256, 257, 1 << 32, u64::MAX];

/// A profile: one in three is 1; at times none that is one, but not for a script's first device.
pub fn profile(random: &mut Random, first: bool) -> Option<u8> {
    match random.below(1000) {
        0..=329 => Some(1),
        330..=479 => Some(0),
        480..=599 if !first => Some(random.pick(NO_PROFILES)),
        _ => None,
    }
}

/// "when the profile is neither".
pub fn is_refused(profile: Option<u8>) -> bool {
    profile.is_some_and(|profile| profile > 1)
}

/// A client that is named to a device of profile 1: 0 mostly, and a little less so where nobody is connected.
pub fn client(random: &mut Random, device: &Device) -> u64 {
    let others = if device.is_connected(0) { 60 } else { 300 };
    if random.chance(others) {
        return random.pick(ABOVE_0);
    }
    0
}

/// An address of any length that is right, with any of its bytes.
pub fn address(random: &mut Random) -> Vec<u8> {
    let any = 1 + random.below(48);
    let length = random.pick(&[1, 2, 47, 48, any, any, any, any]);
    (0..length).map(|_| 0x21 + random.below(0x7E - 0x21 + 1) as u8).collect()
}

impl Generator {
    /// Whether no connect or disconnect is due yet: each ends the one connection of a device of profile 1, and so its
    /// connections would be shorter than those of a device with several.
    pub(super) fn keeps_its_one_client(&mut self) -> bool {
        let one = self.device().profile == Profile::Single && self.device().is_connected(0);
        one && self.random.chance(450)
    }

    /// What follows a connect while connected: calls that show whether a pair of the old client is forgotten, or kept
    /// where the connect is declined. They are chosen by the device before it; none where no pair has a strategy.
    pub(super) fn calls_behind_displacing(&mut self) -> Option<Burst> {
        let device = &self.session.device;
        if device.profile != Profile::Single || !device.is_connected(0) {
            return None;
        }
        let sampled: Vec<(usize, Subscription)> =
            readings::pairs(device).into_iter().filter(|(_, pair)| pair.strategy != Strategy::None).collect();
        if sampled.is_empty() {
            return None;
        }
        let sensor = sampled[self.random.place(sampled.len())].0;
        let reading = Next::Given(readings::reading(&mut self.random, device, sensor as u64));
        let tick = Next::Tick(readings::tick(&mut self.random, device));
        let mut calls = vec![Next::Queried, reading, tick];
        calls.swap(0, self.random.place(3));
        calls.truncate(1 + self.random.place(3));
        Some(Burst { sensor, calls })
    }
}
