//! Random sheets, good ones and broken ones.

use super::Size;
use crate::plan::{Plan, PlannedSensor};
use crate::random::Random;

const NAMES: &[&str] = &[
    "load",
    "load2",
    "loa",
    "l",
    "L",
    "lift.1",
    "lift.2.speed",
    "door-state",
    "x_y",
    "0",
    "-",
    "_",
    ".",
    "a.b-c_d",
    "Temp",
    "temp",
    "none",
    "auto",
    "group.time",
    "pit",
    "car",
    "car.",
    ".car",
    "abcdefghijklmnopqrstuvwxyz.01-_A",
    "abcdefghijklmnopqrstuvwxyz.01-_B",
];
const TEXTS: &[&str] =
    &["", "Load of the car", "a\\b", " ", "  two  blanks  ", "~!@#$%^&*()[]", "plain", "\\", "\\@"];
const UNITS: &[&str] = &["", "kg", "m/s", "packets", " ", "\\ \\ \\ \\ ", "%", "12345678"];
const VERSIONS: &[&str] =
    &["lgu-1.0", "b7", "!", "~", "\\", "a\\_b", "katcp-device", "x@y[1]", "12345678901234567890123456789012"];
const NAME_BYTES: &[u8] = b"abcxyzABCXYZ0189.-_";

/// A good sheet with as many sensors as the size allows.
pub fn good(random: &mut Random, size: &Size) -> Plan {
    let api = random.pick(VERSIONS);
    let build = random.pick(VERSIONS);
    let mut plan = Plan::new(api.as_bytes(), build.as_bytes());
    for _ in 0..sensor_count(random, size) {
        let sensor = sensor(random, &plan);
        plan.add(sensor);
    }
    plan
}

/// How many sensors: few mostly, none or all 32 at times.
fn sensor_count(random: &mut Random, size: &Size) -> usize {
    let count = match random.below(100) {
        0..=2 => 0,
        3..=64 => 1 + random.place(5),
        65..=87 => 6 + random.place(10),
        _ => 32,
    };
    if count > size.most_sensors {
        1 + random.place(size.most_sensors)
    } else {
        count
    }
}

/// A sensor whose name is new.
fn sensor(random: &mut Random, plan: &Plan) -> PlannedSensor {
    let mut name = random.pick(NAMES).as_bytes().to_vec();
    while plan.sensors.iter().any(|earlier| earlier.name == name) {
        name = random_name(random, 32);
    }
    let kind = random.pick(&[1, 1, 1, 2, 2, 2, 3, 4, 4, 5]);
    let limits = match kind {
        1 => limits(random, &[i32::MIN, -1000, -5, -1, 0, 0, 1, 10, 1000, 1200, i32::MAX]),
        2 => limits(random, &[-(1 << 30), -1025, -512, -1, 0, 0, 1, 512, 1024, 921_600, 1 << 30]),
        _ => Vec::new(),
    };
    let options = if kind == 4 { options(random) } else { Vec::new() };
    let description = description(random);
    let units = random.pick(UNITS).as_bytes().to_vec();
    PlannedSensor { name, description, units, kind, limits, options }
}

/// A description; the longest at times.
fn description(random: &mut Random) -> Vec<u8> {
    if random.chance(30) {
        return (0..64).map(|_| random.pick(b" \\a~")).collect();
    }
    random.pick(TEXTS).as_bytes().to_vec()
}

/// A name of so many bytes at most.
fn random_name(random: &mut Random, most: usize) -> Vec<u8> {
    let length = 1 + random.place(most);
    (0..length).map(|_| random.pick(NAME_BYTES)).collect()
}

/// No limits, two or four, in their order: nominal-min, nominal-max, warn-min,
/// warn-max.
fn limits(random: &mut Random, from: &[i32]) -> Vec<i32> {
    let mut four: Vec<i32> = (0..4).map(|_| random.pick(from)).collect();
    four.sort_unstable();
    match random.below(10) {
        0..=1 => vec![],
        2..=4 => vec![four[1], four[2]],
        _ => vec![four[1], four[2], four[0], four[3]],
    }
}

/// One to eight distinct options.
fn options(random: &mut Random) -> Vec<Vec<u8>> {
    let count = random.pick(&[1, 2, 2, 3, 3, 4, 8]);
    let mut options: Vec<Vec<u8>> = Vec::new();
    while options.len() < count {
        let option = random_name(random, 16);
        if !options.contains(&option) {
            options.push(option);
        }
    }
    options
}

/// A sheet that most likely breaks a rule of the layout.
pub fn broken(random: &mut Random, size: &Size) -> Vec<u8> {
    let mut plan = good(random, size);
    if random.chance(250) || plan.sensors.is_empty() {
        break_head(random, &mut plan);
    } else if random.chance(300) {
        return break_bytes(random, plan.bytes());
    } else {
        let place = random.place(plan.sensors.len());
        break_sensor(random, &mut plan, place);
    }
    plan.bytes()
}

/// The mark, the version, the two texts, the count.
fn break_head(random: &mut Random, plan: &mut Plan) {
    match random.below(9) {
        0 => plan.mark = random.pick(&["lgu", "LGV", "LG", ""]).as_bytes().to_vec(),
        1 => plan.version = random.pick(&[0, 2, 256, 257, 65535]),
        2 => plan.api = random.pick(&["", " ", "a b", "\x7f", "123456789012345678901234567890123"]).into(),
        3 => plan.build = random.pick(&["", "a\tb", "\u{e9}", "123456789012345678901234567890123"]).into(),
        4 => plan.count = plan.count.wrapping_add(1),
        5 => plan.count = plan.count.wrapping_sub(1),
        6 => plan.count = random.pick(&[33, 64, 255]),
        7 => plan.after = vec![random.pick(&[0, 10, 255])],
        _ => fill_to(random, plan, 33),
    }
}

/// One sensor more than a sheet may have, all else in order.
fn fill_to(random: &mut Random, plan: &mut Plan, count: usize) {
    while plan.sensors.len() < count {
        let sensor = sensor(random, plan);
        plan.add(sensor);
    }
}

/// Cut short, a byte more, or a byte changed (which may leave it good).
fn break_bytes(random: &mut Random, mut bytes: Vec<u8>) -> Vec<u8> {
    let place = random.place(bytes.len());
    match random.below(4) {
        0 => bytes.truncate(place),
        1 => bytes.truncate(bytes.len() - 1),
        2 => bytes.insert(place, random.bits() as u8),
        _ => bytes[place] = random.bits() as u8,
    }
    bytes
}

/// A rule of one sensor.
fn break_sensor(random: &mut Random, plan: &mut Plan, place: usize) {
    let other = plan.sensors[random.place(plan.sensors.len())].name.clone();
    let sensor = &mut plan.sensors[place];
    match random.below(9) {
        0 => sensor.name = random.pick(&["", "a b", "a,b", "a/b", "a\\", "a\u{e9}", "a:b", "a@"]).into(),
        1 => sensor.name = vec![b'n'; 33],
        2 => sensor.name = other,
        3 => sensor.description = vec![b'd'; random.pick(&[65, 66, 255])],
        4 => sensor.description = vec![random.pick(&[0, 9, 10, 31, 127, 128, 255])],
        5 => sensor.units = random.pick(&["123456789", "\x7f", "\t", "a\u{b0}"]).into(),
        6 => sensor.kind = random.pick(&[0, 6, 7, 128, 255]),
        _ if sensor.kind == 4 => break_options(random, sensor),
        _ => break_limits(random, sensor),
    }
}

/// "option count 1–8, options 1–16 name bytes, distinct".
fn break_options(random: &mut Random, sensor: &mut PlannedSensor) {
    match random.below(6) {
        0 => sensor.options.clear(),
        1 => sensor.options = (0..9).map(|place| vec![b'a' + place]).collect(),
        2 => sensor.options[0] = Vec::new(),
        3 => sensor.options[0] = vec![b'o'; 17],
        4 => sensor.options.push(sensor.options[0].clone()),
        _ => sensor.options[0] = random.pick(&[" ", "a b", "a,b", "\\"]).into(),
    }
}

/// "a byte 0, 2 or 4", "warn-min ≤ nominal-min ≤ nominal-max ≤ warn-max",
/// "within ±2^30"; also limits that are all alike, which is fine.
fn break_limits(random: &mut Random, sensor: &mut PlannedSensor) {
    sensor.kind = random.pick(&[1, 2]);
    sensor.limits = match random.below(10) {
        0 => vec![0],
        1 => vec![0, 1, 0],
        2 => vec![0, 1, 0, 1, 2],
        3 => vec![1, 0],
        4 => vec![1, 0, 0, 1],
        5 => vec![0, 10, 1, 10],
        6 => vec![0, 10, 0, 9],
        7 => vec![0, (1 << 30) + 1],
        8 => vec![0, 1, -(1 << 30) - 1, 1],
        _ => vec![5, 5, 5, 5],
    };
}
