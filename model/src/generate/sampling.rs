//! Random `sensor-sampling` requests: right ones, and wrong ones in one place
//! or in several, which tries the order of refusals.

use super::differences::difference;
use super::lines::sensor_name;
use crate::device::Device;
use crate::number;
use crate::random::Random;
use crate::sheet::Kind;

const STRATEGIES: &[&str] =
    &["none", "auto", "period", "event", "differential", "event-rate", "differential-rate"];
const UNKNOWN_STRATEGIES: &[&str] = &[
    "\\@",
    "None",
    "AUTO",
    "even",
    "events",
    "event_rate",
    "differential-rat",
    "rate",
    "0",
    "load",
    "auto,event",
    "period\\_",
];

/// No period and no integer difference; a float sensor takes some of them.
pub const ODD_TEXTS: &[&str] = &[
    "\\@",
    "-1",
    "+1",
    "-0",
    "1.",
    ".5",
    ".",
    "00",
    "01",
    "00.5",
    "1e3",
    "1E0",
    "1e-3",
    "1E+3",
    "+1.5e+02",
    "1e005",
    "1e0005",
    "+.5",
    "-.0",
    "+",
    "-",
    "e5",
    ".e5",
    "+.e0",
    "1e",
    "1e+",
    "1e-",
    "1ee3",
    "1e3.0",
    "1e3x",
    "1e+-3",
    "1e\\_3",
    "++1",
    "+-1",
    "--0",
    "0x10",
    "0x1p3",
    "1,5",
    "1..2",
    "1.2.3",
    "inf",
    "nan",
    "1\\_",
    "\\_1",
    "1\\t",
    "99999999999999999999999999",
    "18446744073709551616",
    "340282366920938463463374607431768211457",
    "0.00000000000000000000000000001",
    "1_000",
    "one",
    "1-",
    "\u{662}",
];

const EDGE_PERIODS: &[&str] = &[
    "0",
    "0.0",
    "0.000",
    "0.0000",
    "0.001",
    "0.0001",
    "0.0010",
    "86400",
    "86400.0",
    "86400.000",
    "86400.001",
    "86400.0000",
    "86401",
    "86399.999",
    "1.0000",
    "9999999999",
    "10000000000",
    "864000000",
];

/// What is to be wrong, in a thousand requests each.
pub struct Faults {
    pub names: u64,
    pub strategy: u64,
    pub count: u64,
    pub parameter: u64,
    pub swapped: u64,
    pub any_type: u64,
}

/// Nothing wrong on purpose.
pub const NONE: Faults = Faults { names: 0, strategy: 0, count: 0, parameter: 0, swapped: 0, any_type: 0 };

/// Wrong in one place or several.
pub const SOME: Faults =
    Faults { names: 80, strategy: 60, count: 70, parameter: 400, swapped: 400, any_type: 400 };

/// The arguments of a request that sets a strategy.
pub fn setting(random: &mut Random, device: &Device, faults: &Faults) -> Vec<String> {
    let places = places(random, device);
    let mut arguments = vec![names(random, device, &places, faults)];
    if random.chance(faults.count) && random.chance(150) {
        return arguments;
    }
    let kinds: Vec<Kind> = places.iter().map(|&place| device.sheet.sensors[place].kind).collect();
    let measured = kinds.iter().all(|kind| matches!(kind, Kind::Integer | Kind::Float));
    let differential_fits = measured || random.chance(faults.any_type);
    let strategy = strategy(random, differential_fits);
    arguments.push(strategy.to_string());
    if random.chance(faults.strategy) {
        arguments[1] = random.pick(UNKNOWN_STRATEGIES).to_string();
    }
    arguments.extend(parameters(random, strategy, &kinds, faults));
    if random.chance(faults.count) {
        wrong_count(random, &mut arguments);
    }
    arguments
}

/// A strategy; the differential ones only where they fit.
fn strategy(random: &mut Random, differential_fits: bool) -> &'static str {
    let strategy = random.pick(STRATEGIES);
    if differential_fits && random.chance(300) {
        return random.pick(&["differential", "differential-rate"]);
    }
    if strategy.starts_with("differential") && !differential_fits {
        return random.pick(&["event", "event-rate", "period", "auto"]);
    }
    strategy
}

/// The sensors of the list: one, or several of any kind, or several that are
/// integer or float.
fn places(random: &mut Random, device: &Device) -> Vec<usize> {
    let count = device.sheet.sensors.len();
    if count == 0 {
        return Vec::new();
    }
    let length = match random.below(10) {
        0..=5 => 1,
        6..=8 => 2 + random.place(3),
        _ => 1 + random.place(count),
    };
    let measured = random.chance(600);
    let mut left: Vec<usize> = (0..count).collect();
    if measured {
        left.retain(|&place| matches!(device.sheet.sensors[place].kind, Kind::Integer | Kind::Float));
    }
    let mut places = Vec::new();
    while places.len() < length && !left.is_empty() {
        places.push(left.swap_remove(random.place(left.len())));
    }
    if places.is_empty() {
        places.push(random.place(count));
    }
    places
}

/// A comma list alone, for a query: right, or wrong in its names.
pub fn list(random: &mut Random, device: &Device) -> String {
    let faults = if random.chance(600) { NONE } else { Faults { names: 500, ..NONE } };
    let places = places(random, device);
    names(random, device, &places, &faults)
}

/// The comma list; at times with an unknown name, an empty one, or one twice.
fn names(random: &mut Random, device: &Device, places: &[usize], faults: &Faults) -> String {
    let mut names: Vec<String> = places.iter().map(|&place| sensor_name(device, place)).collect();
    if names.is_empty() {
        names.push("load".to_string());
    }
    for _ in 0..2 {
        if random.chance(faults.names) {
            let again = names[random.place(names.len())].clone();
            let wrong = [&again[..], &again[..], &again[..], "nosuch", "", "Load", "load\\_", "\\_"];
            let wrong = random.pick(&wrong).to_string();
            names.insert(random.place(names.len() + 1), wrong);
        }
    }
    let list = names.join(",");
    if list.is_empty() {
        "\\@".to_string()
    } else {
        list
    }
}

/// The parameters of a strategy, in their order.
fn parameters(random: &mut Random, strategy: &str, kinds: &[Kind], faults: &Faults) -> Vec<String> {
    let mut parameters = Vec::new();
    if strategy.starts_with("differential") {
        parameters.push(difference(random, kinds, faults));
    }
    if strategy.ends_with("-rate") {
        let shortest = random.pick(&[0, 0, 1, 2, 10, 500, 1000, 1000, 1500, 3000, 86_400_000]);
        let longest = (shortest + random.pick(&[0, 1, 2, 500, 2000, 10_000])).clamp(1, 86_400_000);
        let (mut first, mut second) = (shortest, longest);
        if random.chance(faults.swapped) {
            (first, second) = (longest, shortest);
        }
        parameters.push(period(random, first, faults));
        parameters.push(period(random, second, faults));
    }
    if strategy == "period" {
        let ms = random.pick(&[1, 2, 10, 500, 1000, 1500, 2000, 86_400_000]);
        parameters.push(period(random, ms, faults));
    }
    parameters
}

/// A period's text in some spelling, unless it is to be wrong.
fn period(random: &mut Random, ms: u64, faults: &Faults) -> String {
    if random.chance(faults.parameter / 2) {
        return if random.chance(600) { random.pick(EDGE_PERIODS) } else { random.pick(ODD_TEXTS) }
            .to_string();
    }
    let text = number::time_text(ms);
    if random.chance(300) {
        return text;
    }
    text.trim_end_matches('0').trim_end_matches('.').to_string()
}

/// One argument too few or too many.
fn wrong_count(random: &mut Random, arguments: &mut Vec<String>) {
    if random.chance(400) && arguments.len() > 2 {
        arguments.pop();
    } else {
        arguments.push(random.pick(&["1", "0", "\\@", "x", "1.5"]).to_string());
    }
}
