//! The files that clients wrote down while a script ran, with what the device held at the end of each call.

use crate::arrival::Arrival;
use crate::device::{Profile, CLIENTS};
use crate::script::{read_entry, Call, Entry, Session};
use crate::sheet::Sheet;
use crate::strategy::Subscription;
use crate::value::State;
use std::rc::Rc;

/// The end of a call, as the device stood.
pub struct Moment {
    pub clock: u64,
    pub readings: Vec<State>,
    /// The reading that the call was, if it was one and was accepted.
    pub read: Option<Arrival>,
}

/// A call during a connection, from the connect that opened it to the call that ended it.
pub struct Step {
    pub end: Rc<Moment>,
    /// How many lines the file had at its end.
    pub lines: usize,
    /// The device's own record for the client; none where the call ended the connection.
    pub pairs: Option<Vec<Subscription>>,
}

/// "Its lines are all delivered to it, in order, from that connect's `#version-connect katcp-protocol` on".
pub struct File {
    pub client: usize,
    pub profile: Profile,
    pub sheet: Rc<Sheet>,
    /// Without their ends.
    pub lines: Vec<Vec<u8>>,
    pub steps: Vec<Step>,
    /// Whether a newcomer ended the connection: document 02, (m).
    pub displaced: bool,
}

/// A script that runs, with the files of those who are connected and of those who were.
#[derive(Default)]
struct Recorder {
    session: Session,
    sheet: Rc<Sheet>,
    written: [Option<File>; CLIENTS],
    ended: Vec<File>,
}

/// The files of a script, in the order in which they ended.
pub fn files(script: &[Vec<u8>]) -> Vec<File> {
    let mut recorder = Recorder::default();
    for line in script {
        if let Entry::Call(call) = read_entry(line) {
            recorder.perform(&call);
        }
    }
    recorder.end_all();
    recorder.ended
}

impl Recorder {
    /// Performs a call and writes down what it gave. An `open` ends all files: another device begins.
    fn perform(&mut self, call: &Call) {
        let arrival = Arrival::of(&self.session.device, call);
        let number = self.session.perform(call);
        if matches!(call, Call::Open { .. }) {
            self.end_all();
            self.sheet = Rc::new(self.session.device.sheet.clone());
            return;
        }
        let end = Rc::new(self.moment(arrival.filter(|_| number == 0)));
        let newcomer = match call {
            Call::Connect { client, .. } if number == 0 => Some(*client as usize),
            _ => None,
        };
        self.write_down(newcomer, &end);
        self.end_call(&end);
    }

    /// The device as it stands.
    fn moment(&self, read: Option<Arrival>) -> Moment {
        let device = &self.session.device;
        let readings = device.readings.iter().map(|taken| taken.state).collect();
        Moment { clock: device.clock, readings, read }
    }

    /// Each delivery is a line of its client's file. Where a connect returned 0 the newcomer's lines begin at its
    /// greeting; what stands before it was for the old client (document 02, (m)).
    fn write_down(&mut self, newcomer: Option<usize>, end: &Rc<Moment>) {
        for (client, line) in deliveries(&self.session.out) {
            if newcomer == Some(client) && line.starts_with(b"#version-connect katcp-protocol ") {
                self.begin(client, end);
            }
            let file = self.written[client].as_mut().expect("a delivery to a connected client");
            file.lines.push(line);
        }
    }

    /// A connect that returned 0 begins a file, and ends that of the client that it displaces.
    fn begin(&mut self, client: usize, end: &Rc<Moment>) {
        if let Some(mut old) = self.written[client].take() {
            old.steps.push(Step { end: end.clone(), lines: old.lines.len(), pairs: None });
            self.ended.push(File { displaced: true, ..old });
        }
        let (profile, sheet) = (self.session.device.profile, self.sheet.clone());
        let (lines, steps) = (Vec::new(), Vec::new());
        self.written[client] = Some(File { client, profile, sheet, lines, steps, displaced: false });
    }

    /// The end of a call in each file; a client that is forgotten has its file ended.
    fn end_call(&mut self, end: &Rc<Moment>) {
        let device = &self.session.device;
        for written in &mut self.written {
            let Some(mut file) = written.take() else { continue };
            let pairs = device.clients[file.client].as_ref().map(|client| client.subscriptions.clone());
            let goes_on = pairs.is_some();
            file.steps.push(Step { end: end.clone(), lines: file.lines.len(), pairs });
            if goes_on {
                *written = Some(file);
            } else {
                self.ended.push(file);
            }
        }
    }

    /// Ends the files of all who are connected.
    fn end_all(&mut self) {
        self.ended.extend(self.written.iter_mut().filter_map(Option::take));
    }
}

/// The deliveries of an output: each its client and its line without the end.
pub fn deliveries(out: &[u8]) -> Vec<(usize, Vec<u8>)> {
    let (mut deliveries, mut rest) = (Vec::new(), out);
    while let [client, high, low, more @ ..] = rest {
        let (line, behind) = more.split_at(usize::from(*high) << 8 | usize::from(*low));
        let line = line.strip_suffix(b"\n").expect("a line with its end").to_vec();
        deliveries.push((usize::from(*client), line));
        rest = behind;
    }
    deliveries
}
