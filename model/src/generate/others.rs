//! Lists of calls with one dispatcher, which differ in the others: document 02, (i), "Others on the line".

use super::{Generator, Size};
use crate::device::Profile;
use crate::random::Random;
use crate::script::{read_entry, Call, Entry, Session};
use crate::tally::request_of;

/// Lists of calls, each from an `open` of one sheet, that "hold the same dispatcher's calls (all that name its
/// client number), readings and ticks, in the same order". "No other client in either has a halt or restart
/// accepted."
pub struct OneDispatcher {
    pub dispatcher: u64,
    /// A list, one with the same shared calls and other calls of the others, and the shared calls alone.
    pub lists: [Vec<Call>; 3],
}

/// "the same dispatcher's calls (all that name its client number), readings and ticks", and the opening itself.
pub fn is_shared(call: &Call, dispatcher: u64) -> bool {
    match call {
        Call::Open { .. } | Call::Tick { .. } | Call::Reading { .. } => true,
        Call::Connect { client, .. } | Call::Disconnect { client, .. } | Call::Line { client, .. } => {
            *client == dispatcher
        }
        Call::Log { .. } => false,
    }
}

/// "halt or restart accepted".
fn ends_all(call: &Call, number: u8) -> bool {
    let ends =
        request_of(call).is_some_and(|request| [&b"halt"[..], b"restart"].contains(&&request.name[..]));
    ends && number == 0
}

/// Random lists with one dispatcher, "compared within one profile" (document 02, (m)): the opening is shared.
pub fn one_dispatcher(seed: u64, size: Size) -> OneDispatcher {
    let mut random = Random::new(!seed);
    let mut first = Generator::new(seed, size);
    first.open();
    let dispatcher = dispatcher(&mut random, first.device().profile);
    let first = first.first_list(dispatcher);
    let shared: Vec<Call> = first.iter().filter(|call| is_shared(call, dispatcher)).cloned().collect();
    let second = Generator::new(random.bits(), size).second_list(&shared, dispatcher);
    OneDispatcher { dispatcher, lists: [first, second, shared] }
}

/// A dispatcher that can connect, mostly; under profile 1 client 0 alone can.
fn dispatcher(random: &mut Random, profile: Profile) -> u64 {
    match (random.below(20), profile) {
        (0, _) => 8,
        (1, Profile::Single) => random.below(8),
        (_, Profile::Single) => 0,
        (1..=4, _) => random.below(8),
        _ => random.below(3),
    }
}

impl Generator {
    /// A list, from its opening on, in which others end no connections.
    fn first_list(mut self, dispatcher: u64) -> Vec<Call> {
        let mut tries = self.size.calls * 2;
        while self.lines.len() < self.size.calls && tries > 0 {
            self.step_if(|call, number| {
                !matches!(call, Call::Open { .. }) && (is_shared(call, dispatcher) || !ends_all(call, number))
            });
            tries -= 1;
        }
        self.calls()
    }

    /// The shared calls, with calls of others before, between and behind them; under profile 1 these are tried oftener,
    /// since most that are tried name client 0.
    fn second_list(mut self, shared: &[Call], dispatcher: u64) -> Vec<Call> {
        for call in shared {
            let lent_anew = self.lent_anew(call.clone());
            self.add(lent_anew);
            let tries = if self.device().profile == Profile::Single { 20 } else { 5 };
            for _ in 0..self.random.below(tries) {
                self.step_if(|call, number| !is_shared(call, dispatcher) && !ends_all(call, number));
            }
        }
        self.calls()
    }

    /// One call more, if it passes the test with its number; else the device stays as it was.
    fn step_if(&mut self, keeps: impl Fn(&Call, u8) -> bool) {
        let (before, count) = (self.device().clone(), self.lines.len());
        self.step();
        let kept = match read_entry(&self.lines[count]) {
            Entry::Call(call) => {
                let mut session = Session { device: before.clone(), out: Vec::new() };
                let number = session.perform(&call);
                keeps(&call, number)
            }
            _ => false,
        };
        if !kept {
            self.lines.truncate(count);
            self.session.device = before;
        }
    }

    /// The same call with an output of another length; too short again if it was too short.
    fn lent_anew(&mut self, mut call: Call) -> Call {
        if let Some(lent) = call.lent_mut() {
            *lent = match *lent {
                0..=65_535 => self.random.pick(&[0, 1, 65_535]),
                _ => self.random.pick(&[65_536, 65_536, 65_537, u64::MAX]),
            };
        }
        call
    }

    /// The calls so far.
    fn calls(self) -> Vec<Call> {
        let read = |line: &Vec<u8>| match read_entry(line) {
            Entry::Call(call) => Some(call),
            _ => None,
        };
        self.lines.iter().filter_map(read).collect()
    }
}
