//! The machine: its state and its calls.

use crate::message::{self, Line, Message, Sort};
use crate::number::{self, LAST_TIME};
use crate::sheet::{self, Sheet};
use crate::strategy::{Occasion, Report, Strategy, Subscription};
use crate::tally::Visits;
use crate::value::{self, Reading, State, Status};

/// "output under 65,536 bytes".
pub const LEAST_OUTPUT: usize = 65_536;

/// "off, fatal, error, warn, info, debug, trace, all."
pub const LEVELS: [&str; 8] = ["off", "fatal", "error", "warn", "info", "debug", "trace", "all"];

/// The places of three levels.
pub const OFF: u8 = 0;
pub const WARN: u8 = 3;
pub const ALL: u8 = 7;

/// Document 02, (e): "A fresh device and a restarted one start at warn."
pub const START_LEVEL: u8 = WARN;

/// "clients 0–7".
pub const CLIENTS: usize = 8;

/// Document 02, (m): "Opening takes a profile, 0 for the present behaviour or 1
/// for single-client."
#[derive(Clone, Copy, PartialEq, Eq, Debug)]
pub enum Profile {
    Several,
    Single,
}

impl Profile {
    /// "0 for the present behaviour or 1 for single-client"; none where it "is
    /// neither".
    fn read(number: u8) -> Option<Profile> {
        match number {
            0 => Some(Profile::Several),
            1 => Some(Profile::Single),
            _ => None,
        }
    }

    /// "`katcp-protocol 5.1-MIB`"; document 02, (m): "Profile 1 writes `5.1-IB`".
    fn protocol(self) -> &'static str {
        match self {
            Profile::Several => "5.1-MIB",
            Profile::Single => "5.1-IB",
        }
    }
}

/// "per sensor a reading and its time"; document 02, (g): "A reading now brings
/// its own time, at most the clock".
#[derive(Clone, Copy, PartialEq, Eq, Debug)]
pub struct Taken {
    pub time: u64,
    pub state: State,
}

impl Taken {
    /// Document 02, (g): "It supersedes the stored one if its time is equal or
    /// later, or if the stored status is unknown." This is the stored one; the
    /// time is that of the reading that comes.
    pub fn is_superseded_at(self, time: u64) -> bool {
        time >= self.time || self.state.status == Status::Unknown
    }
}

/// A connected client: "address text (1–48 bytes 0x21–0x7E) and, for each
/// sensor, strategy, parameters, last report and its time".
#[derive(Clone, PartialEq, Eq, Debug)]
pub struct Client {
    pub address: Vec<u8>,
    pub subscriptions: Vec<Subscription>,
}

/// "State: clock (0), halted flag (clear), log level [...], per sensor a
/// reading and its time [...], clients 0–7, each unconnected (all at first) or
/// with address text"; and the profile that it was opened with (document 02,
/// (m)). The visits counted at its end are no part of the machine.
#[derive(Clone)]
pub struct Device {
    pub profile: Profile,
    pub sheet: Sheet,
    pub clock: u64,
    pub halted: bool,
    pub level: u8,
    pub readings: Vec<Taken>,
    pub clients: [Option<Client>; CLIENTS],
    pub visits: Visits,
}

/// "Every row returns its number; a call that no row declines, opening too,
/// returns 0."
fn number_of(outcome: Result<(), u8>) -> u8 {
    match outcome {
        Ok(()) => 0,
        Err(number) => number,
    }
}

/// A row's condition and number.
fn decline_if(condition: bool, number: u8) -> Result<(), u8> {
    if condition {
        Err(number)
    } else {
        Ok(())
    }
}

impl Device {
    /// "The blank state (halted, level off, no sensors, no clients, empty
    /// texts, all else zero)"; so its profile is 0.
    pub fn blank() -> Device {
        Device {
            profile: Profile::Several,
            sheet: Sheet::default(),
            clock: 0,
            halted: true,
            level: OFF,
            readings: Vec::new(),
            clients: Default::default(),
            visits: Visits::default(),
        }
    }

    /// "Opening a sheet returns number and state"; "sheet breaks its layout |
    /// 4 | blank halted state"; "State: clock (0), halted flag (clear), log
    /// level"; "A fresh sensor is unknown at time 0." Document 02, (m): "31, with
    /// the blank state as at 4, when the profile is neither, before 4".
    pub fn open(sheet: &[u8], profile: u8) -> (u8, Device) {
        let Some(profile) = Profile::read(profile) else {
            return (31, Device::blank());
        };
        let Some(sheet) = Sheet::read(sheet) else {
            return (4, Device::blank());
        };
        let fresh = Taken { time: 0, state: State::invalid(Status::Unknown) };
        let readings = vec![fresh; sheet.sensors.len()];
        (0, Device { profile, sheet, halted: false, level: START_LEVEL, readings, ..Device::blank() })
    }

    /// "output under 65,536 bytes | 2", "device halted | 3".
    fn ready(&self, lent: usize) -> Result<(), u8> {
        decline_if(lent < LEAST_OUTPUT, 2)?;
        decline_if(self.halted, 3)
    }

    /// "connect: connected; else: not connected".
    pub fn is_connected(&self, client: usize) -> bool {
        client < CLIENTS && self.clients[client].is_some()
    }

    /// The connected clients; "Wherever several clients are served, lower
    /// numbers come first."
    pub fn connected(&self) -> Vec<usize> {
        (0..CLIENTS).filter(|&client| self.is_connected(client)).collect()
    }

    /// The connect call.
    pub fn connect(&mut self, lent: usize, client: usize, address: &[u8], out: &mut Vec<u8>) -> u8 {
        out.clear();
        number_of(self.try_connect(lent, client, address, out))
    }

    /// "connect: connected [...] | 6", "address text | 7"; "address text (1–48
    /// bytes 0x21–0x7E)". "connect: first the newcomer gets `#version-connect
    /// katcp-protocol 5.1-MIB`, then `katcp-device` with API and build; then the
    /// other clients get `#client-connected` with the address." Document 02, (m):
    /// "6 is not given there"; "No `client-connected` is sent", since under profile
    /// 1 there are no other clients.
    fn try_connect(
        &mut self,
        lent: usize,
        client: usize,
        address: &[u8],
        out: &mut Vec<u8>,
    ) -> Result<(), u8> {
        self.ready(lent)?;
        self.has_place_for(client)?;
        decline_if(self.profile == Profile::Several && self.is_connected(client), 6)?;
        let fits = (1..=48).contains(&address.len()) && address.iter().all(|&byte| sheet::is_visible(byte));
        decline_if(!fits, 7)?;
        self.displace(client, address, out);
        let others = self.connected();
        for arguments in self.versions() {
            let line = Line::inform("version-connect");
            arguments.iter().fold(line, |line, argument| line.with(argument)).deliver(client, out);
        }
        for other in others {
            Line::inform("client-connected").with(address).deliver(other, out);
        }
        let subscriptions = vec![Subscription::START; self.sheet.sensors.len()];
        self.clients[client] = Some(Client { address: address.to_vec(), subscriptions });
        Ok(())
    }

    /// Document 02, (m): "A connect while connected gives the old client
    /// `#disconnect` with `New client connected from`, a space and the newcomer's
    /// address as one argument, forgets it, and then greets the newcomer".
    fn displace(&mut self, client: usize, address: &[u8], out: &mut Vec<u8>) {
        if self.clients[client].take().is_some() {
            let text = [b"New client connected from ", address].concat();
            Line::inform("disconnect").with(text).deliver(client, out);
        }
    }

    /// "the arguments of the two connect informs": "`katcp-protocol 5.1-MIB`,
    /// then `katcp-device` with API and build"; document 02, (m): "Profile 1
    /// writes `5.1-IB`".
    pub fn versions(&self) -> [Vec<Vec<u8>>; 2] {
        [
            vec![b"katcp-protocol".to_vec(), self.profile.protocol().into()],
            vec![b"katcp-device".to_vec(), self.sheet.api.clone(), self.sheet.build.clone()],
        ]
    }

    /// The disconnect call.
    pub fn disconnect(&mut self, lent: usize, client: usize, out: &mut Vec<u8>) -> u8 {
        out.clear();
        number_of(self.try_disconnect(lent, client))
    }

    /// "disconnect: forgets the client, writes nothing."
    fn try_disconnect(&mut self, lent: usize, client: usize) -> Result<(), u8> {
        self.ready(lent)?;
        self.known(client)?;
        self.clients[client] = None;
        Ok(())
    }

    /// "client above 7 | 5"; document 02, (m): "Profile 1 [...] has client 0
    /// only", "32 when a client above 0 is named under profile 1, in 5's place".
    fn has_place_for(&self, client: usize) -> Result<(), u8> {
        match self.profile {
            Profile::Several => decline_if(client >= CLIENTS, 5),
            Profile::Single => decline_if(client > 0, 32),
        }
    }

    /// "[...] else: not connected | 6".
    fn known(&self, client: usize) -> Result<(), u8> {
        self.has_place_for(client)?;
        decline_if(!self.is_connected(client), 6)
    }

    /// The tick call.
    pub fn tick(&mut self, lent: usize, ms: u64, out: &mut Vec<u8>) -> u8 {
        out.clear();
        number_of(self.try_tick(lent, ms, out))
    }

    /// "tick below clock or above limit | 8"; "tick: sets the clock, then
    /// visits clients, each in sheet order."
    fn try_tick(&mut self, lent: usize, ms: u64, out: &mut Vec<u8>) -> Result<(), u8> {
        self.ready(lent)?;
        decline_if(ms < self.clock || ms > LAST_TIME, 8)?;
        self.clock = ms;
        for client in self.connected() {
            for sensor in 0..self.sheet.sensors.len() {
                self.visit(client, sensor, Occasion::Tick, out);
            }
        }
        Ok(())
    }

    /// The reading call.
    pub fn reading(
        &mut self,
        lent: usize,
        sensor: usize,
        reading: Reading,
        time: u64,
        out: &mut Vec<u8>,
    ) -> u8 {
        out.clear();
        number_of(self.try_reading(lent, sensor, reading, time, out))
    }

    /// "sensor not on sheet | 9", "reading unfit for type | 10"; "reading
    /// (sensor by place in the sheet, from 0): stores, then visits each
    /// client's pair for that sensor." Document 02, (g): "26, with state and
    /// output left as they were, when the reading's time is above the clock,
    /// tested after 10."; "An older one is accepted, changes nothing and causes
    /// no report, under auto too."
    fn try_reading(
        &mut self,
        lent: usize,
        sensor: usize,
        reading: Reading,
        time: u64,
        out: &mut Vec<u8>,
    ) -> Result<(), u8> {
        self.ready(lent)?;
        decline_if(sensor >= self.sheet.sensors.len(), 9)?;
        let state = value::state_of(&self.sheet.sensors[sensor], reading).ok_or(10)?;
        decline_if(time > self.clock, 26)?;
        if !self.readings[sensor].is_superseded_at(time) {
            return Ok(());
        }
        self.readings[sensor] = Taken { time, state };
        for client in self.connected() {
            self.visit(client, sensor, Occasion::Reading, out);
        }
        Ok(())
    }

    /// "Rules, with "changed" against the last report". A pair whose strategy
    /// is none never reports; any other has a last report.
    fn visit(&mut self, client: usize, sensor: usize, occasion: Occasion, out: &mut Vec<u8>) {
        let Subscription { strategy, last } = *self.subscription(client, sensor);
        let kind = self.sheet.sensors[sensor].kind;
        let now = self.readings[sensor].state;
        let reports = last.is_some_and(|last| strategy.reports(kind, occasion, self.clock, &last, now));
        self.visits.count(strategy, occasion, reports);
        if reports {
            self.report(client, sensor, out);
        }
    }

    /// "A report is `#sensor-status`, clock, `1`, name, status, value."; "a
    /// report replaces the last"; "reports still show the clock" (document 02,
    /// (g)).
    pub(crate) fn report(&mut self, client: usize, sensor: usize, out: &mut Vec<u8>) {
        let state = self.readings[sensor].state;
        let line = Line::inform("sensor-status").with(number::time_text(self.clock));
        self.with_state(line, sensor).deliver(client, out);
        let time = self.clock;
        self.subscription_mut(client, sensor).last = Some(Report { time, state });
        self.visits.count_status(state.status);
    }

    /// "`1`, name, status, value".
    pub(crate) fn with_state(&self, line: Line, sensor: usize) -> Line {
        let state = self.readings[sensor].state;
        let sensor = &self.sheet.sensors[sensor];
        let line = line.with("1").with(&sensor.name).with(state.status.text());
        line.with(value::value_text(sensor, state.value))
    }

    /// The pair of a connected client and a sensor.
    pub fn subscription(&self, client: usize, sensor: usize) -> &Subscription {
        &self.clients[client].as_ref().expect("connected").subscriptions[sensor]
    }

    /// The same pair, to be changed.
    fn subscription_mut(&mut self, client: usize, sensor: usize) -> &mut Subscription {
        &mut self.clients[client].as_mut().expect("connected").subscriptions[sensor]
    }

    /// "a report replaces the last, and setting none keeps it."
    pub(crate) fn set_strategy(&mut self, client: usize, sensor: usize, strategy: Strategy) {
        self.subscription_mut(client, sensor).strategy = strategy;
    }

    /// The log call.
    pub fn log(&mut self, lent: usize, level: u8, logger: &[u8], message: &[u8], out: &mut Vec<u8>) -> u8 {
        out.clear();
        number_of(self.try_log(lent, level, logger, message, out))
    }

    /// "log level off/all, logger not 1–32 name bytes, message over 256 or
    /// outside 0x20–0x7E, 9, 10, 13 | 11"; "log (level, logger, message): sent
    /// as `#log level clock logger message` to all if its level is at or above
    /// the set one." Higher levels have lower places.
    fn try_log(
        &mut self,
        lent: usize,
        level: u8,
        logger: &[u8],
        message: &[u8],
        out: &mut Vec<u8>,
    ) -> Result<(), u8> {
        self.ready(lent)?;
        decline_if(!(OFF + 1..ALL).contains(&level), 11)?;
        let logger_fits =
            (1..=32).contains(&logger.len()) && logger.iter().all(|&byte| sheet::is_name_byte(byte));
        decline_if(!logger_fits, 11)?;
        decline_if(message.len() > 256 || !message.iter().all(|&byte| is_log_byte(byte)), 11)?;
        if level <= self.level {
            let line = self.log_line(level, logger, message);
            for client in self.connected() {
                line.deliver(client, out);
            }
        }
        Ok(())
    }

    /// "`#log level clock logger message`".
    fn log_line(&self, level: u8, logger: &[u8], message: &[u8]) -> Line {
        let line = Line::inform("log").with(LEVELS[usize::from(level)]);
        line.with(number::time_text(self.clock)).with(logger).with(message)
    }

    /// A client's line.
    pub fn line(&mut self, lent: usize, client: usize, line: &[u8], out: &mut Vec<u8>) -> u8 {
        out.clear();
        number_of(self.try_line(lent, client, line, out))
    }

    /// "A line of only spaces and tabs, or empty, and any well-formed inform
    /// from a client, give number 0, no output, no change; 1 to 6, and over
    /// 2,048 bytes 12, come first."; "line over 2,048 or no message | 12";
    /// "reply received | 13".
    fn try_line(&mut self, lent: usize, client: usize, line: &[u8], out: &mut Vec<u8>) -> Result<(), u8> {
        self.ready(lent)?;
        self.known(client)?;
        if line.len() > message::LONGEST_LINE {
            return Err(self.complain(client, 12, out));
        }
        if message::is_blank(line) {
            return Ok(());
        }
        let Some(message) = Message::read(line) else {
            return Err(self.complain(client, 12, out));
        };
        match message.sort {
            Sort::Inform => Ok(()),
            Sort::Reply => Err(self.complain(client, 13, out)),
            Sort::Request => self.request(client, &message, out),
        }
    }

    /// "`#log error` clock `katcp` Not a message.", "same, Unexpected reply.";
    /// "12 and 13 go to the sender despite the log level."
    fn complain(&self, client: usize, number: u8, out: &mut Vec<u8>) -> u8 {
        let text = if number == 12 { "Not a message." } else { "Unexpected reply." };
        self.log_line(2, b"katcp", text.as_bytes()).deliver(client, out);
        number
    }
}

/// "outside 0x20–0x7E, 9, 10, 13".
fn is_log_byte(byte: u8) -> bool {
    (0x20..=0x7E).contains(&byte) || matches!(byte, 9 | 10 | 13)
}
