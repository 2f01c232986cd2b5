//! What came up in a run: numbers, calls, profiles, readings, requests, visits, statuses.

use crate::arrival::Arrival;
use crate::device::{Client, Device};
use crate::message::{Message, Sort};
use crate::requests::REQUESTS;
use crate::script::{Call, Session};
use crate::sheet::Kind;
use crate::strategy::{Occasion, Strategy, Subscription, NAMES};
use crate::value::{Status, STATUSES};
use std::collections::BTreeMap;
use std::fmt::Write;

/// How often each strategy's visits reported or stayed silent, and which
/// statuses were reported.
#[derive(Clone, Copy, Default, PartialEq, Eq, Debug)]
pub struct Visits {
    /// By strategy: at a reading silent, reported; at a tick silent, reported.
    pub by_strategy: [[u64; 4]; 7],
    pub statuses: [u64; 7],
}

impl Visits {
    /// One visit: "at a reading or tick".
    pub fn count(&mut self, strategy: Strategy, occasion: Occasion, reported: bool) {
        let column = match occasion {
            Occasion::Reading => usize::from(reported),
            Occasion::Tick => 2 + usize::from(reported),
        };
        self.by_strategy[strategy.place()][column] += 1;
    }

    /// One report: "status".
    pub fn count_status(&mut self, status: Status) {
        self.statuses[status as usize] += 1;
    }
}

/// What came up under one profile: document 02, (m).
#[derive(Clone, Copy, Default, PartialEq, Eq, Debug)]
pub struct OfProfile {
    /// Sheets that were opened with it.
    pub opened: u64,
    /// Calls on a device of it.
    pub calls: u64,
    /// Connects that displaced a client, and those of its pairs that were forgotten: with a strategy but none, or with
    /// a last report.
    pub displaced: u64,
    pub forgotten: u64,
}

/// Everything counted over many scripts.
#[derive(Default)]
pub struct Tally {
    pub scripts: u64,
    pub numbers: BTreeMap<u8, u64>,
    pub errors: u64,
    pub calls: BTreeMap<&'static str, u64>,
    pub profiles: [OfProfile; 2],
    pub requests: BTreeMap<(String, u8), u64>,
    pub settings: [[u64; 5]; 7],
    /// Lists of `sensor-list` and `sensor-value` that were answered, by the count of their names.
    pub lists: BTreeMap<usize, u64>,
    pub visits: Visits,
    /// Accepted readings by status: later than the stored one, at the clock or below it; at the stored one's
    /// time, likewise; passed over.
    pub arrivals: [[u64; 5]; 7],
    /// Pairs by strategy that a reading left unvisited, since it was passed over.
    pub unvisited: [u64; 7],
}

impl Tally {
    /// Counts one call with its number; the session has already performed it.
    pub fn count(&mut self, call: &Call, number: u8, before: Option<&Message>) {
        *self.numbers.entry(number).or_default() += 1;
        *self.calls.entry(call.verb()).or_default() += 1;
        if let Some(message) = before {
            let name = String::from_utf8_lossy(&message.name).into_owned();
            let shown = if REQUESTS.contains(&&name[..]) { name } else { "(any other)".to_string() };
            *self.requests.entry((shown, number)).or_default() += 1;
        }
    }

    /// Counts a call by the profile of the device, which has performed it; with the client before it, where it is a
    /// connect of one that was connected.
    pub fn count_profile(&mut self, device: &Device, call: &Call, number: u8, old: Option<&Client>) {
        let counts = &mut self.profiles[device.profile as usize];
        match (call, number, old) {
            (Call::Open { .. }, 0, _) => counts.opened += 1,
            (Call::Open { .. }, ..) => {}
            (_, number, old) => {
                counts.calls += 1;
                if let (0, Some(old)) = (number, old) {
                    let forgotten = old.subscriptions.iter().filter(|&&pair| pair != Subscription::START);
                    counts.displaced += 1;
                    counts.forgotten += forgotten.count() as u64;
                }
            }
        }
    }

    /// Counts a reading that was accepted.
    pub fn count_arrival(&mut self, device: &Device, arrival: &Arrival) {
        let at_its_time = usize::from(arrival.time == arrival.stored.time);
        let below = usize::from(arrival.time < arrival.clock);
        let column = if arrival.supersedes() { 2 * at_its_time + below } else { 4 };
        self.arrivals[arrival.state.status as usize][column] += 1;
        if !arrival.supersedes() {
            for client in device.connected() {
                self.unvisited[device.subscription(client, arrival.sensor).strategy.place()] += 1;
            }
        }
    }

    /// Counts the pairs set by a `sensor-sampling` that was answered `ok`.
    pub fn count_settings(&mut self, device: &Device, message: &Message) {
        if message.name != b"sensor-sampling" || message.arguments.len() < 2 {
            return;
        }
        let strategy = NAMES.iter().position(|name| name.as_bytes() == message.arguments[1]);
        for name in message.arguments[0].split(|&byte| byte == b',') {
            if let (Some(strategy), Some(place)) = (strategy, device.sheet.place(name)) {
                self.settings[strategy][device.sheet.sensors[place].kind as usize] += 1;
            }
        }
    }

    /// Counts the names of a `sensor-list` or `sensor-value` that was answered `ok`.
    pub fn count_names(&mut self, message: &Message) {
        if let (b"sensor-list" | b"sensor-value", [names]) = (&message.name[..], &message.arguments[..]) {
            *self.lists.entry(names.split(|&byte| byte == b',').count()).or_default() += 1;
        }
    }

    /// Adds the visits of a session that has ended.
    pub fn add_visits(&mut self, session: &Session) {
        let from = &session.device.visits;
        for (to, from) in self.visits.by_strategy.iter_mut().flatten().zip(from.by_strategy.iter().flatten())
        {
            *to += from;
        }
        for (to, from) in self.visits.statuses.iter_mut().zip(from.statuses) {
            *to += from;
        }
    }

    /// The tables, as Markdown.
    pub fn text(&self) -> String {
        let calls: u64 = self.calls.values().sum();
        let mut text =
            format!("{} scripts, {} calls, {} lines that are no call.\n", self.scripts, calls, self.errors);
        self.write_numbers(&mut text);
        self.write_calls(&mut text);
        self.write_profiles(&mut text);
        self.write_arrivals(&mut text);
        self.write_visits(&mut text);
        self.write_settings(&mut text);
        self.write_statuses(&mut text);
        self.write_requests(&mut text);
        self.write_lists(&mut text);
        text
    }

    /// "Every row returns its number"; no call of a script reaches 1, 24, 25 and 27 to 30.
    fn write_numbers(&self, text: &mut String) {
        table(text, &["number", "times"]);
        let reached = |number: &u8| ![1, 24, 25, 27, 28, 29, 30].contains(number);
        for number in (0..=32).filter(reached) {
            let times = self.numbers.get(&number).unwrap_or(&0);
            row(text, &[number.to_string(), times.to_string()]);
        }
        row(text, &["error".to_string(), self.errors.to_string()]);
    }

    /// Calls of each kind.
    fn write_calls(&self, text: &mut String) {
        table(text, &["call", "times"]);
        for (verb, times) in &self.calls {
            row(text, &[verb.to_string(), times.to_string()]);
        }
    }

    /// What came up under each profile.
    fn write_profiles(&self, text: &mut String) {
        table(text, &["profile", "opened", "calls", "clients displaced", "pairs forgotten by it"]);
        for (number, counts) in self.profiles.iter().enumerate() {
            let OfProfile { opened, calls, displaced, forgotten } = *counts;
            let cells = [number as u64, opened, calls, displaced, forgotten];
            row(text, &cells.map(|cell| cell.to_string()));
        }
    }

    /// Accepted readings by status, which is never unknown, and by time.
    fn write_arrivals(&self, text: &mut String) {
        let heads = ["later, at the clock", "later, below", "same time, at the clock", "same time, below"];
        table(text, &[&["reading"], &heads[..], &["passed over"]].concat());
        for (status, counts) in STATUSES.iter().zip(self.arrivals).skip(1) {
            let mut cells = vec![status.text().to_string()];
            cells.extend(counts.iter().map(u64::to_string));
            row(text, &cells);
        }
    }

    /// Visits by strategy.
    fn write_visits(&self, text: &mut String) {
        let heads = ["reading: silent", "reading: report", "tick: silent", "tick: report"];
        table(text, &[&["strategy"], &heads[..], &["reading: passed over"]].concat());
        for (place, (name, counts)) in NAMES.iter().zip(self.visits.by_strategy).enumerate() {
            let mut cells = vec![name.to_string()];
            cells.extend(counts.iter().map(u64::to_string));
            cells.push(self.unvisited[place].to_string());
            row(text, &cells);
        }
    }

    /// Pairs set by strategy and type.
    fn write_settings(&self, text: &mut String) {
        let kinds = [Kind::Integer, Kind::Float, Kind::Boolean, Kind::Discrete, Kind::Timestamp];
        let mut heads = vec!["pairs set"];
        heads.extend(kinds.iter().map(|kind| kind.text()));
        table(text, &heads);
        for (name, counts) in NAMES.iter().zip(self.settings) {
            let mut cells = vec![name.to_string()];
            cells.extend(counts.iter().map(u64::to_string));
            row(text, &cells);
        }
    }

    /// Statuses reported by `#sensor-status`.
    fn write_statuses(&self, text: &mut String) {
        table(text, &["status reported", "times"]);
        for (status, times) in STATUSES.iter().zip(self.visits.statuses) {
            row(text, &[status.text().to_string(), times.to_string()]);
        }
    }

    /// Requests by name and outcome.
    fn write_requests(&self, text: &mut String) {
        table(text, &["request", "number", "times"]);
        for ((name, number), times) in &self.requests {
            row(text, &[name.clone(), number.to_string(), times.to_string()]);
        }
    }

    /// Lists of names that were answered.
    fn write_lists(&self, text: &mut String) {
        table(text, &["names in one query", "times"]);
        for (names, times) in &self.lists {
            row(text, &[names.to_string(), times.to_string()]);
        }
    }
}

/// The message of a line that is a request.
pub fn request_of(call: &Call) -> Option<Message> {
    match call {
        Call::Line { line, .. } => Message::read(line).filter(|message| message.sort == Sort::Request),
        _ => None,
    }
}

/// The head of a Markdown table.
fn table(text: &mut String, heads: &[&str]) {
    let rule: Vec<&str> = heads.iter().map(|_| "---").collect();
    write!(text, "\n| {} |\n|{}|\n", heads.join(" | "), rule.join("|")).expect("text");
}

/// A row of a Markdown table.
fn row(text: &mut String, cells: &[String]) {
    writeln!(text, "| {} |", cells.join(" | ")).expect("text");
}
