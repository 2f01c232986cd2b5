//! The ten requests; a device of profile 1 has nine of them.

use crate::device::{Device, Profile, LEVELS, START_LEVEL};
use crate::message::{Line, Message, Sort};
use crate::number;
use crate::sheet::{Kind, Sensor};

/// A request declined: "no.", and "returned or sent".
#[derive(Clone, Copy, PartialEq, Eq, Debug)]
pub struct Refusal {
    pub number: u8,
    pub code: &'static str,
    pub text: &'static str,
}

/// A row of the table "Why a call or line is declined".
const fn row(number: u8, code: &'static str, text: &'static str) -> Refusal {
    Refusal { number, code, text }
}

pub const UNKNOWN_REQUEST: Refusal = row(14, "invalid", "Unknown request.");
pub const ARGUMENT_COUNT: Refusal = row(15, "invalid", "Wrong number of arguments.");
pub const UNKNOWN_SENSOR: Refusal = row(16, "fail", "Unknown sensor.");
pub const UNKNOWN_STRATEGY: Refusal = row(17, "invalid", "Unknown strategy.");
pub const NOT_FOR_TYPE: Refusal = row(18, "fail", "Strategy not for this type.");
pub const BAD_PARAMETER: Refusal = row(19, "invalid", "Bad parameter.");
pub const SHORTEST_EXCEEDS: Refusal = row(20, "invalid", "Shortest exceeds longest.");
pub const NAMED_TWICE: Refusal = row(21, "invalid", "Sensor named twice.");
pub const UNKNOWN_LEVEL: Refusal = row(22, "invalid", "Unknown level.");
pub const UNKNOWN_HELP: Refusal = row(23, "fail", "Unknown request.");

/// "`help [name]`: alphabetical".
pub const REQUESTS: [&str; 10] = [
    "client-list",
    "halt",
    "help",
    "log-level",
    "restart",
    "sensor-list",
    "sensor-sampling",
    "sensor-value",
    "version-list",
    "watchdog",
];

/// A request being answered: who asked what, and where the answer goes.
pub struct Asked<'a> {
    pub client: usize,
    pub message: &'a Message,
    pub out: &'a mut Vec<u8>,
}

impl Asked<'_> {
    /// "Replies keep name and id".
    pub fn reply(&self, code: &str) -> Line {
        Line::new(Sort::Reply, &self.message.name, self.message.id).with(code)
    }

    /// "informs tied to a request come first, [...] with that id".
    fn inform(&self) -> Line {
        Line::new(Sort::Inform, &self.message.name, self.message.id)
    }

    /// To the client that asked.
    pub fn send(&mut self, line: &Line) {
        line.deliver(self.client, self.out);
    }

    /// "the reply counts them".
    fn finish(&mut self, informs: usize) {
        let line = self.reply("ok").with(informs.to_string());
        self.send(&line);
    }

    /// "argument count": none allowed.
    fn no_argument(&self) -> Result<(), Refusal> {
        match self.message.arguments.len() {
            0 => Ok(()),
            _ => Err(ARGUMENT_COUNT),
        }
    }

    /// "argument count": "[name]", "[level]".
    fn optional_argument(&self) -> Result<Option<&[u8]>, Refusal> {
        match &self.message.arguments[..] {
            [] => Ok(None),
            [argument] => Ok(Some(argument)),
            _ => Err(ARGUMENT_COUNT),
        }
    }
}

impl Device {
    /// A request, answered or declined: "invalid" or "fail" with its text;
    /// "Quoted texts are one argument, escaped."
    pub(crate) fn request(&mut self, client: usize, message: &Message, out: &mut Vec<u8>) -> Result<(), u8> {
        let mut asked = Asked { client, message, out };
        let Err(refusal) = self.answer(&mut asked) else {
            return Ok(());
        };
        let line = asked.reply(refusal.code).with(refusal.text);
        asked.send(&line);
        Err(refusal.number)
    }

    /// Document 02, (m), of profile 1: "`client-list` gets 14 and `help` omits
    /// it".
    fn has_request(&self, name: &[u8]) -> bool {
        self.profile == Profile::Several || name != b"client-list"
    }

    /// "request unknown | 14 | invalid, Unknown request."
    fn answer(&mut self, asked: &mut Asked) -> Result<(), Refusal> {
        match &asked.message.name[..] {
            name if !self.has_request(name) => Err(UNKNOWN_REQUEST),
            b"client-list" => self.client_list(asked),
            b"halt" => self.halt(asked),
            b"help" => self.help(asked),
            b"log-level" => self.log_level(asked),
            b"restart" => self.restart(asked),
            b"sensor-list" => self.sensor_list(asked),
            b"sensor-sampling" => self.sensor_sampling(asked),
            b"sensor-value" => self.sensor_value(asked),
            b"version-list" => self.version_list(asked),
            b"watchdog" => self.watchdog(asked),
            _ => Err(UNKNOWN_REQUEST),
        }
    }

    /// "`client-list`: address each."
    fn client_list(&mut self, asked: &mut Asked) -> Result<(), Refusal> {
        asked.no_argument()?;
        let clients: Vec<_> = self.clients.iter().flatten().collect();
        for client in &clients {
            let line = asked.inform().with(&client.address);
            asked.send(&line);
        }
        asked.finish(clients.len());
        Ok(())
    }

    /// "`halt` [...]: reply, then `#disconnect` (`Device halting.` [...]) to
    /// all; all are forgotten. Halt sets the flag".
    fn halt(&mut self, asked: &mut Asked) -> Result<(), Refusal> {
        asked.no_argument()?;
        self.reply_and_forget_all(asked, "Device halting.");
        self.halted = true;
        Ok(())
    }

    /// "`restart`: reply, then `#disconnect` ([...] `Device restarting.`) to
    /// all; all are forgotten. [...] restart sets level [...] and keeps clock
    /// and readings."
    fn restart(&mut self, asked: &mut Asked) -> Result<(), Refusal> {
        asked.no_argument()?;
        self.reply_and_forget_all(asked, "Device restarting.");
        self.level = START_LEVEL;
        Ok(())
    }

    /// "reply, then `#disconnect` [...] to all; all are forgotten."
    fn reply_and_forget_all(&mut self, asked: &mut Asked, text: &str) {
        let reply = asked.reply("ok");
        asked.send(&reply);
        let farewell = Line::inform("disconnect").with(text);
        for client in self.connected() {
            farewell.deliver(client, asked.out);
            self.clients[client] = None;
        }
    }

    /// "`help [name]`: alphabetical, name and description; the description is
    /// the request's name."; "help on unknown name | 23".
    fn help(&mut self, asked: &mut Asked) -> Result<(), Refusal> {
        let wanted = asked.optional_argument()?;
        let named = |name: &&&str| wanted.is_none_or(|wanted| wanted == name.as_bytes());
        let known = REQUESTS.iter().filter(|name| self.has_request(name.as_bytes()));
        let listed: Vec<_> = known.filter(named).collect();
        if listed.is_empty() {
            return Err(UNKNOWN_HELP);
        }
        for name in &listed {
            let line = asked.inform().with(name).with(name);
            asked.send(&line);
        }
        asked.finish(listed.len());
        Ok(())
    }

    /// "`log-level [level]`: off, fatal, error, warn, info, debug, trace, all.";
    /// "log level unknown | 22".
    fn log_level(&mut self, asked: &mut Asked) -> Result<(), Refusal> {
        if let Some(wanted) = asked.optional_argument()? {
            let place = LEVELS.iter().position(|level| level.as_bytes() == wanted);
            self.level = place.ok_or(UNKNOWN_LEVEL)? as u8;
        }
        let line = asked.reply("ok").with(LEVELS[usize::from(self.level)]);
        asked.send(&line);
        Ok(())
    }

    /// "[name]": the places of all sensors in sheet order; "`sensor-value` and
    /// `sensor-list` take a comma list as `sensor-sampling` does. Informs follow
    /// the list's order [...]. If one name is unknown or stands twice, no inform
    /// is sent and 16 or 21 answers, with 16 first." (document 02, (a))
    fn wanted_sensors(&self, asked: &Asked) -> Result<Vec<usize>, Refusal> {
        match asked.optional_argument()? {
            None => Ok((0..self.sheet.sensors.len()).collect()),
            Some(names) => self.named_sensors(names),
        }
    }

    /// "`sensor-list [name]`: name, description, units, type, limits or
    /// options."
    fn sensor_list(&mut self, asked: &mut Asked) -> Result<(), Refusal> {
        let wanted = self.wanted_sensors(asked)?;
        for &place in &wanted {
            let line = with_description(asked.inform(), &self.sheet.sensors[place]);
            asked.send(&line);
        }
        asked.finish(wanted.len());
        Ok(())
    }

    /// "`sensor-value [name]`: one inform per sensor, reading's time, `1`,
    /// name, status, value."; "`sensor-value` shows the reading's own time"
    /// (document 02, (g)).
    fn sensor_value(&mut self, asked: &mut Asked) -> Result<(), Refusal> {
        let wanted = self.wanted_sensors(asked)?;
        for &place in &wanted {
            let line = asked.inform().with(number::time_text(self.readings[place].time));
            asked.send(&self.with_state(line, place));
        }
        asked.finish(wanted.len());
        Ok(())
    }

    /// "`version-list`: the arguments of the two connect informs."
    fn version_list(&mut self, asked: &mut Asked) -> Result<(), Refusal> {
        asked.no_argument()?;
        let versions = self.versions();
        for arguments in &versions {
            let line = arguments.iter().fold(asked.inform(), |line, argument| line.with(argument));
            asked.send(&line);
        }
        asked.finish(versions.len());
        Ok(())
    }

    /// "`watchdog`."
    fn watchdog(&mut self, asked: &mut Asked) -> Result<(), Refusal> {
        asked.no_argument()?;
        let line = asked.reply("ok");
        asked.send(&line);
        Ok(())
    }
}

/// "name, description, units, type, limits or options."
fn with_description(line: Line, sensor: &Sensor) -> Line {
    let mut line = line.with(&sensor.name).with(&sensor.description);
    line = line.with(&sensor.units).with(sensor.kind.text());
    for limit in sensor.limits.listed() {
        line = line.with(limit_text(sensor.kind, limit));
    }
    for option in &sensor.options {
        line = line.with(option);
    }
    line
}

/// "Type 2 counts 1024ths"; a float "is written exactly".
fn limit_text(kind: Kind, limit: i32) -> String {
    if kind == Kind::Float {
        number::float_text(i64::from(limit))
    } else {
        limit.to_string()
    }
}
