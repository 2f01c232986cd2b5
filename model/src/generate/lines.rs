//! Random lines of clients.

use super::{sampling, Size};
use crate::device::{Device, Profile, LEVELS};
use crate::random::Random;
use crate::requests::REQUESTS;

const IDS: &[&str] = &["[1]", "[7]", "[9]", "[10]", "[123]", "[2147483646]", "[2147483647]"];
const BAD_IDS: &[&str] = &[
    "[0]",
    "[01]",
    "[2147483648]",
    "[4294967295]",
    "[4294967296]",
    "[4294967297]",
    "[9999999999]",
    "[10000000000]",
    "[18446744073709551617]",
    "[]",
    "[",
    "]",
    "[1",
    "[1]]",
    "[1]x",
    "[1][2]",
    "[-1]",
    "[+1]",
    "[1.0]",
    "[ 1]",
    "[1 ]",
    "[a]",
    "(1)",
    "[1]\\@",
    "\\@[1]",
];
const UNKNOWN: &[&str] = &[
    "foo",
    "Watchdog",
    "WATCHDOG",
    "watchdo",
    "watchdogs",
    "watchdog-",
    "sensor-Value",
    "set-rate",
    "request-timeout-hint",
    "configure",
    "mode",
    "x",
    "a-",
    "a--b9",
    "sensor-status",
    "version-connect",
    "log",
    "abcdefghijklmnopqrstuvwxyzabcdefghijklmnopqrstuvwxyz-ABCDEFGHIJK",
];
const BAD_NAMES: &[&str] = &[
    "",
    "1watchdog",
    "-watchdog",
    "watch_dog",
    "watch.dog",
    "watchdog!",
    "watch\\@dog",
    "w\u{e4}tchdog",
    "watchdog\\_",
    "?watchdog",
    "abcdefghijklmnopqrstuvwxyzabcdefghijklmnopqrstuvwxyz-ABCDEFGHIJKL",
];
const ARGUMENTS: &[&str] = &[
    "\\@", "a\\@b", "\\@\\@", "\\\\", "\\_", "\\0", "\\n", "\\r", "\\e", "\\t", "x", "[1]", "?", "\u{e9}",
    "\x01", "\x7f", "a,b",
];
const BAD_ARGUMENTS: &[&str] = &[
    "\\", "\\x", "a\\", "\\N", "\\ ", "\\1", "\\\u{0}", "a\u{0}", "\u{a}", "b\u{d}", "\u{1b}", "\\a",
    "\\\\\\", "\\-",
];
const ODD_NAMES: &[&str] =
    &["nosuch", "\\@", "Load", "LOAD", "load\\_", "loa", "load,load2", ",", "/load/", "\u{e9}"];

/// A line of a client that is connected.
pub fn line(random: &mut Random, device: &Device, size: &Size) -> Vec<u8> {
    match random.below(1000) {
        0..=519 => sampling_line(random, device),
        520..=769 => request(random, device, size).into_bytes(),
        770..=789 => other_request(random).into_bytes(),
        790..=879 => malformed(random, device, size),
        880..=899 => not_a_request(random),
        900..=919 => random.pick(&["", " ", "\t", "  \t \t", "        "]).as_bytes().to_vec(),
        920..=949 => long_line(random, size),
        950..=953 => finish(random, "halt", &[]).into_bytes(),
        954..=959 => finish(random, "restart", &[]).into_bytes(),
        _ => sampling_query(random, device).into_bytes(),
    }
}

/// A name of a sensor as it may stand in a line.
pub fn sensor_name(device: &Device, place: usize) -> String {
    String::from_utf8_lossy(&device.sheet.sensors[place].name).into_owned()
}

/// Any sensor's name, at times an unknown one, at times with `\@` inside.
fn any_name(random: &mut Random, device: &Device) -> String {
    let count = device.sheet.sensors.len();
    if count == 0 || random.chance(120) {
        return random.pick(ODD_NAMES).to_string();
    }
    let mut name = sensor_name(device, random.place(count));
    if random.chance(40) {
        let place = random.place(name.len() + 1);
        name.insert_str(place, "\\@");
    }
    name
}

/// A name, or a comma list, at times with `\@` inside.
fn asked_names(random: &mut Random, device: &Device) -> String {
    if random.chance(500) {
        return any_name(random, device);
    }
    let mut names = sampling::list(random, device);
    if random.chance(60) {
        let place = random.place(names.len() + 1);
        names.insert_str(place, "\\@");
    }
    names
}

/// `?sensor-sampling` with a strategy.
fn sampling_line(random: &mut Random, device: &Device) -> Vec<u8> {
    let faults = if random.chance(600) { sampling::NONE } else { sampling::SOME };
    let arguments = sampling::setting(random, device, &faults);
    let mut line = finish(random, "sensor-sampling", &arguments).into_bytes();
    if random.chance(4) && line.len() < 2000 {
        line.extend(vec![b' '; 2048 - line.len() + random.place(2)]);
    }
    line
}

/// `?sensor-sampling` with a name alone, a list alone, or nothing.
fn sampling_query(random: &mut Random, device: &Device) -> String {
    let mut names = any_name(random, device);
    if random.chance(120) {
        names = format!("{names},{}", any_name(random, device));
    }
    let arguments = if random.chance(60) { vec![] } else { vec![names] };
    finish(random, "sensor-sampling", &arguments)
}

/// A known request with right arguments, mostly.
fn request(random: &mut Random, device: &Device, size: &Size) -> String {
    let name = random.pick(&[
        "client-list",
        "help",
        "log-level",
        "log-level",
        "sensor-list",
        "sensor-list",
        "sensor-value",
        "sensor-value",
        "sensor-value",
        "version-list",
        "watchdog",
        "watchdog",
    ]);
    let mut arguments = match name {
        "help" if !random.chance(size.all_queries) => vec![help_name(random, device)],
        "log-level" if random.chance(750) => vec![level(random)],
        "sensor-list" | "sensor-value" if !random.chance(size.all_queries) => {
            vec![asked_names(random, device)]
        }
        _ => vec![],
    };
    let single_list = name == "client-list" && device.profile == Profile::Single;
    if random.chance(if single_list { 400 } else { 70 }) {
        let more = 1 + random.place(2);
        arguments.extend((0..more).map(|_| random.pick(ARGUMENTS).to_string()));
    }
    if random.chance(8) {
        return finish(random, "halt", &["x".to_string()]);
    }
    if random.chance(8) {
        return finish(random, "restart", &["\\@".to_string()]);
    }
    finish(random, name, &arguments)
}

/// A name for `help`; under profile 1 oftener the request that it does not have.
fn help_name(random: &mut Random, device: &Device) -> String {
    if device.profile == Profile::Single && random.chance(250) {
        return "client-list".to_string();
    }
    if random.chance(250) {
        return random.pick(UNKNOWN).to_string();
    }
    if random.chance(80) {
        return random.pick(ARGUMENTS).to_string();
    }
    random.pick(&REQUESTS).to_string()
}

/// A level for `log-level`.
fn level(random: &mut Random) -> String {
    if random.chance(150) {
        return random
            .pick(&["INFO", "\\@", "warning", "4", "information", "inf", "of", "trace\\_", "al"])
            .to_string();
    }
    random.pick(&LEVELS).to_string()
}

/// A request that the server does not know.
fn other_request(random: &mut Random) -> String {
    let name = random.pick(UNKNOWN);
    let count = random.place(3);
    let arguments: Vec<String> = (0..count).map(|_| random.pick(ARGUMENTS).to_string()).collect();
    finish(random, name, &arguments)
}

/// A request's line: its name, at times an id, its arguments, at times odd
/// spaces and tabs.
fn finish(random: &mut Random, name: &str, arguments: &[String]) -> String {
    let mut line = format!("?{name}");
    if random.chance(250) {
        line.push_str(random.pick(IDS));
    }
    for argument in arguments {
        line.push_str(space(random));
        line.push_str(argument);
    }
    if random.chance(60) {
        line.push_str(space(random));
    }
    line
}

/// One space, mostly.
fn space(random: &mut Random) -> &'static str {
    if random.chance(940) {
        " "
    } else {
        random.pick(&["  ", "\t", " \t ", "\t\t", "      "])
    }
}

/// A reply, an inform, or one of them ill-formed.
fn not_a_request(random: &mut Random) -> Vec<u8> {
    let mut line = random.pick(&["!", "!", "#"]).to_string();
    line.push_str(random.pick(&[
        "watchdog ok",
        "foo",
        "sensor-status[3] 5.000 1 load nominal 1",
        "x \\@",
        "log[1]",
        "help \u{fc}",
    ]));
    if random.chance(150) {
        line.push(' ');
        line.push_str(random.pick(BAD_ARGUMENTS));
    }
    line.into_bytes()
}

/// A line that most likely is no message.
fn malformed(random: &mut Random, device: &Device, size: &Size) -> Vec<u8> {
    let good = request(random, device, size);
    match random.below(9) {
        0 => format!("?{}{} x", random.pick(&REQUESTS), random.pick(BAD_IDS)).into_bytes(),
        1 => format!("?{} x", random.pick(BAD_NAMES)).into_bytes(),
        2 => format!("{good} {}", random.pick(BAD_ARGUMENTS)).into_bytes(),
        3 => format!("{}{good}", random.pick(&[" ", "\t", "\\@", "\u{feff}", "x", "??", "\r"])).into_bytes(),
        4 => good.as_bytes()[1..].to_vec(),
        5 => {
            format!("{}{}", random.pick(&["/", "@", "$", "*", "\"", ">", "=", "\\"]), &good[1..]).into_bytes()
        }
        6 => with_odd_byte(random, good.into_bytes()),
        7 => random
            .pick(&[
                "?",
                "!",
                "#",
                "? ",
                "?watchdog\r",
                "?watchdog\n",
                "\r",
                "\u{0}",
                "\u{1b}",
                "?help[1",
                "#\t",
            ])
            .into(),
        _ => {
            let length = 1 + random.place(12);
            (0..length).map(|_| random.bits() as u8).collect()
        }
    }
}

/// A byte changed or put in anywhere.
fn with_odd_byte(random: &mut Random, mut line: Vec<u8>) -> Vec<u8> {
    let byte = random.pick(&[0, 9, 10, 13, 27, b'\\', b' ', b'[', b']', 1, 127, 128, 255, b'_', b'@']);
    let place = random.place(line.len());
    if random.chance(500) {
        line[place] = byte;
    } else {
        line.insert(place, byte);
    }
    line
}

/// A line of about 2,048 bytes.
fn long_line(random: &mut Random, size: &Size) -> Vec<u8> {
    if !random.chance(size.long_lines) {
        return b"?watchdog \t ".to_vec();
    }
    let length = random.pick(&[2047, 2048, 2048, 2049, 2049, 2050, 3000, 4096]);
    let (start, filler) = random.pick(&[
        ("?watchdog", b' '),
        ("?watchdog[5]", b'\t'),
        ("?help ", b'h'),
        ("?sensor-sampling load,", b','),
        ("?sensor-value load,", b','),
        ("?sensor-sampling load differential ", b'9'),
        ("?sensor-sampling load period 0.", b'0'),
        ("#inform ", b'i'),
        ("!reply ", b'r'),
        ("", b' '),
        ("", b'\t'),
        ("?", b'w'),
        ("?log-level ", b'\\'),
    ]);
    let mut line = start.as_bytes().to_vec();
    line.resize(length, filler);
    line
}
