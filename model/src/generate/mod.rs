//! Random scripts. The model runs along, so that calls meet the state they are
//! made in: ticks when something is due, readings near the last report.

mod bursts;
mod differences;
mod lines;
pub mod others;
mod readings;
mod sampling;
mod sheets;
mod single;

use crate::device::{Device, Profile};
use crate::random::Random;
use crate::script::{Call, Session};
use bursts::Burst;

/// How large the scripts and their answers may be.
#[derive(Clone, Copy)]
pub struct Size {
    pub calls: usize,
    pub most_sensors: usize,
    /// Queries of all sensors or all requests, in a thousand.
    pub all_queries: u64,
    /// Long lines, in a thousand of those that could be.
    pub long_lines: u64,
}

impl Size {
    /// For comparing: everything, up to 32 sensors.
    pub fn full(calls: usize) -> Size {
        Size { calls, most_sensors: 32, all_queries: 300, long_lines: 1000 }
    }

    /// For storing: few sensors, few long answers.
    pub fn small(calls: usize) -> Size {
        Size { calls, most_sensors: 5, all_queries: 120, long_lines: 60 }
    }
}

const BAD_CALLS: &[&str] = &[
    " ",
    "tick",
    "tick 65536",
    "tick 65536 ",
    "tick 65536 1 ",
    " tick 65536 1",
    "tick  65536 1",
    "tick 65536 01",
    "tick 65536 +1",
    "tick 65536 -1",
    "tick 65536 18446744073709551616",
    "tick 065536 1",
    "tick 65536 1 1",
    "TICK 65536 1",
    "tick\t65536\t1",
    "tick 65536 1\r",
    "tick 65536 1.0",
    "tick 65536 -",
    "tick 65536 0x10",
    "disconnect 65536",
    "disconnect 65536 -0",
    "disconnect 65536 00",
    "connect 65536 1",
    "connect 65536 1 6",
    "connect 65536 1 6A",
    "connect 65536 1 61 ",
    "connect 65536 1 --",
    "connect 65536 1 6g",
    "connect 65536 1 616",
    "reading 65536 0 integer 2147483648",
    "reading 65536 0 integer -2147483649",
    "reading 65536 0 integer -0",
    "reading 65536 0 integer 1.0",
    "reading 65536 0 integer -",
    "reading 65536 0 integer --1",
    "reading 65536 0 integer 007",
    "reading 65536 0 boolean 256",
    "reading 65536 0 boolean -1",
    "reading 65536 0 option 256",
    "reading 65536 0 float 0",
    "reading 65536 0 float 3ff000000000000",
    "reading 65536 0 float 3FF0000000000000",
    "reading 65536 0 float 3ff00000000000000",
    "reading 65536 0 float -",
    "reading 65536 0 failure 0",
    "reading 65536 0 failure",
    "reading 65536 0 inactive --",
    "reading 65536 0 unknown -",
    "reading 65536 0 nominal 1",
    "reading 65536 0 discrete 0",
    "reading 65536 0 timestamp -1",
    "reading 65536 0  1",
    "reading 65536 0 integer 1 18446744073709551616",
    "reading 65536 0 integer 1 100000000000000000000",
    "reading 65536 0 integer 1 -1",
    "reading 65536 0 integer 1 -0",
    "reading 65536 0 integer 1 +1",
    "reading 65536 0 integer 1 00",
    "reading 65536 0 integer 1 007",
    "reading 65536 0 integer 1 1.0",
    "reading 65536 0 integer 1 0x10",
    "reading 65536 0 integer 1 now",
    "reading 65536 0 integer 1 -",
    "reading 65536 0 integer 1 ",
    "reading 65536 0 integer 1  0",
    "reading 65536 0 integer 1 0 ",
    "reading 65536 0 integer 1 0 0",
    "reading 65536 0 float 3ff0000000000000 0.000",
    "reading 65536 0 failure 0 0",
    "reading 65536 0 failure - -",
    "reading 65536 0 inactive - 0 0",
    "reading 65536 0 unreachable 0",
    "reading 65536 0 unknown - 0",
    "log 65536 256 61 61",
    "log 65536 4 61",
    "log 65536 4 61 6",
    "log 65536 info 61 61",
    "line 65536 0",
    "line 65536 0 ",
    "line 65536 0 3f 3f",
    "line 65536 -1 3f",
    "line 18446744073709551616 0 3f",
    "open",
    "open ",
    "open 4",
    "open 4G",
    "open - -",
    "open - ",
    "open - -1",
    "open - +1",
    "open - 00",
    "open - 01",
    "open - 001",
    "open - 0x1",
    "open - 1.0",
    "open - 1 ",
    "open -  1",
    "open - 1 1",
    "open - 256",
    "open - single",
    "open - 18446744073709551616",
    "open 4 1",
    "open 1 ",
    "open 4c475500010161016200 -",
    "open 4c475500010161016200 ",
    "open 4c475500010161016200 01",
    "open 4c475500010161016200 256",
    "open 4c475500010161016200 257",
    "open 4c475500010161016200 4294967297",
    "open 4c475500010161016200 18446744073709551617",
    "open 4c475500010161016200 1 1",
    "close",
    "opens -",
    "\u{e9}",
    "-",
    "halt",
    "line 65536 0 \"?watchdog\"",
    "log 65536 4  61",
];

/// A script in the making.
struct Generator {
    random: Random,
    session: Session,
    size: Size,
    lines: Vec<Vec<u8>>,
    burst: Option<Burst>,
}

/// A random script: its lines without their ends. It begins with an `open`.
pub fn script(seed: u64, size: Size) -> Vec<Vec<u8>> {
    let mut generator = Generator::new(seed, size);
    generator.open();
    while generator.lines.len() < size.calls {
        generator.step();
    }
    generator.lines
}

impl Generator {
    /// Before its first call.
    fn new(seed: u64, size: Size) -> Generator {
        let (random, session) = (Random::new(seed), Session::default());
        Generator { random, session, size, lines: Vec::new(), burst: None }
    }

    /// The device as it is after the calls so far.
    fn device(&self) -> &Device {
        &self.session.device
    }

    /// Adds a call and performs it.
    fn add(&mut self, call: Call) {
        self.session.perform(&call);
        self.lines.push(call.text().into_bytes());
    }

    /// One call more, or an entry that is none.
    fn step(&mut self) {
        if self.device().halted && self.random.chance(450) {
            return self.open();
        }
        if self.device().connected().is_empty() && self.random.chance(700) {
            return self.connect();
        }
        if self.random.chance(800) && self.go_on_with_burst() {
            return;
        }
        match self.random.below(1000) {
            0..=239 => self.tick(),
            240..=529 => self.reading(),
            530..=899 => self.line(),
            900..=939 => self.log(),
            940..=979 if self.keeps_its_one_client() => self.line(),
            940..=966 => self.connect(),
            967..=979 => self.disconnect(),
            980..=991 => self.bad_entry(),
            992..=994 => self.lines.push(random_comment(&mut self.random)),
            _ => self.open(),
        }
    }

    /// A sheet, good mostly, and a profile; the first device is opened. A burst ends with its device.
    fn open(&mut self) {
        self.burst = None;
        let first = self.lines.is_empty();
        let profile = single::profile(&mut self.random, first);
        let broken = if single::is_refused(profile) { 500 } else { 300 };
        let sheet = if self.random.chance(broken) && !first {
            sheets::broken(&mut self.random, &self.size)
        } else {
            sheets::good(&mut self.random, &self.size).bytes()
        };
        self.add(Call::Open { sheet, profile });
    }

    /// The length of the lent output: enough mostly.
    fn lent(&mut self) -> u64 {
        match self.random.below(1000) {
            0..=3 => 0,
            4..=9 => 65_535,
            10..=11 => self.random.below(65_536),
            12..=16 => 65_537,
            17..=18 => u64::MAX,
            _ => 65_536,
        }
    }

    /// A client that is connected, mostly.
    fn client(&mut self) -> u64 {
        if self.device().profile == Profile::Single {
            return single::client(&mut self.random, &self.session.device);
        }
        let connected = self.device().connected();
        if connected.is_empty() || self.random.chance(30) {
            return self.random.pick(&[0, 1, 2, 3, 7, 7, 8, 9, 255, 256, 257, 1 << 32, u64::MAX]);
        }
        self.random.pick(&connected) as u64
    }

    /// A client that is not connected, mostly; one of the first few, mostly. Under profile 1 the one that it has,
    /// connected or not, mostly.
    fn newcomer(&mut self) -> u64 {
        if self.device().profile == Profile::Single {
            return single::client(&mut self.random, &self.session.device);
        }
        let free: Vec<u64> = (0..8).filter(|&client| !self.device().is_connected(client as usize)).collect();
        if free.is_empty() || self.random.chance(130) {
            return self.client();
        }
        let few = free.len().min(3);
        if self.random.chance(700) {
            return self.random.pick(&free[..few]);
        }
        self.random.pick(&free)
    }

    /// A connect with a right address, mostly. Under profile 1, while connected, calls follow that show what is forgotten.
    fn connect(&mut self) {
        let (lent, client) = (self.lent(), self.newcomer());
        let address = match self.random.below(10) {
            0 => bad_address(&mut self.random),
            1 => vec![b'\\'; 48],
            2 if self.device().profile == Profile::Single => single::address(&mut self.random),
            3 if self.device().profile == Profile::Single => bad_address(&mut self.random),
            _ => self.random.pick(&["console", "10.0.0.7:5000", "[::1]:80", "a", "~", "a\\_b", "!"]).into(),
        };
        let behind = self.calls_behind_displacing();
        self.add(Call::Connect { lent, client, address });
        self.burst = behind.or(self.burst.take());
    }

    /// A disconnect.
    fn disconnect(&mut self) {
        let (lent, client) = (self.lent(), self.client());
        self.add(Call::Disconnect { lent, client });
    }

    /// A tick.
    fn tick(&mut self) {
        let lent = self.lent();
        let ms = readings::tick(&mut self.random, &self.session.device);
        self.add(Call::Tick { lent, ms });
    }

    /// A reading, or the begin of a burst of them.
    fn reading(&mut self) {
        let lent = self.lent();
        let sensor = readings::sensor_place(&mut self.random, &self.session.device);
        if self.random.chance(70) {
            return self.begin_burst(sensor as usize);
        }
        let reading = readings::reading(&mut self.random, &self.session.device, sensor);
        let time = readings::time(&mut self.random, &self.session.device, sensor, reading);
        self.add(Call::Reading { lent, sensor, reading, time });
    }

    /// A client's line.
    fn line(&mut self) {
        let (lent, client) = (self.lent(), self.client());
        let line = lines::line(&mut self.random, &self.session.device, &self.size);
        self.add(Call::Line { lent, client, line });
    }

    /// A log entry: right mostly.
    fn log(&mut self) {
        let lent = self.lent();
        let random = &mut self.random;
        let level =
            if random.chance(60) { random.pick(&[0, 7, 8, 255]) } else { random.pick(&[1, 2, 3, 4, 5, 6]) };
        let logger = match random.below(30) {
            0 => random.pick(&["", "a b", "a/b", "a\\", "\u{e9}", "abcdefghijklmnopqrstuvwxyz0123456"]),
            1 => "abcdefghijklmnopqrstuvwxyz012345",
            _ => random.pick(&["lift.door", "katcp", "a", "-", "_"]),
        };
        let (logger, message) = (logger.as_bytes().to_vec(), log_message(random, &self.size));
        self.add(Call::Log { lent, level, logger, message });
    }

    /// A line of the script that is no call.
    fn bad_entry(&mut self) {
        if self.random.chance(self.size.long_lines / 20) {
            let length = self.random.pick(&[65_536, 65_537, 70_000]);
            let mut line = self
                .random
                .pick(&["; long", "tick 65536 ", "open ", "line 65536 0 ", "line 65536 10 "])
                .as_bytes()
                .to_vec();
            line.resize(length, b'0');
            return self.add_entry(line);
        }
        let line = self.random.pick(BAD_CALLS).as_bytes().to_vec();
        self.lines.push(line);
    }

    /// Adds an entry that may be a call after all.
    fn add_entry(&mut self, line: Vec<u8>) {
        self.session.answer(&line);
        self.lines.push(line);
    }
}

/// A comment or an empty line.
fn random_comment(random: &mut Random) -> Vec<u8> {
    random.pick(&["", ";", "; a comment", ";tick 65536 1"]).as_bytes().to_vec()
}

/// "address text (1–48 bytes 0x21–0x7E)", broken.
fn bad_address(random: &mut Random) -> Vec<u8> {
    match random.below(3) {
        0 => Vec::new(),
        1 => vec![b'a'; 49],
        _ => random.pick(&[" ", "a b", "\x7f", "a\n", "\u{e9}", "a\x1f"]).into(),
    }
}

/// "message over 256 or outside 0x20–0x7E, 9, 10, 13", at times.
fn log_message(random: &mut Random, size: &Size) -> Vec<u8> {
    match random.below(30) {
        0 => random.pick(&["\u{0}", "a\x1b", "\x7f", "\u{e9}", "\x0b", "\x1f"]).into(),
        1 if random.chance(size.long_lines) => vec![b'm'; random.pick(&[255, 256, 257, 300])],
        2 if random.chance(size.long_lines) => vec![b'\\'; 256],
        3 => Vec::new(),
        4..=6 => b"tab\tline\nreturn\rback\\slash ~".to_vec(),
        _ => random.pick(&["Door closed.", "a", " ", "\\", "\n", "~ ~"]).into(),
    }
}
