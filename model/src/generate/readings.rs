//! Random readings and ticks, near the edges of what is sampled.

use crate::device::Device;
use crate::number::LAST_TIME;
use crate::random::Random;
use crate::sheet::{Kind, Sensor};
use crate::strategy::{Strategy, Subscription};
use crate::value::{state_of, Reading};

const BAD_FLOATS: &[u64] = &[
    0x7ff0_0000_0000_0000, // infinity
    0xfff0_0000_0000_0000, // minus infinity
    0x7ff8_0000_0000_0000, // not a number
    0xfff8_0000_0000_0001, // another
    0x0000_0000_0000_0001, // the least above zero
    0x8000_0000_0000_0001, // the greatest below zero
    0x3f40_0000_0000_0000, // 1/2048
    0x3f50_0000_0000_0001, // just above 1/1024
    0x3fb9_9999_9999_999a, // 0.1
    0x4130_0000_0000_0001, // just above 1,048,576
    0xc130_0000_0000_0001, // just below -1,048,576
    0x4130_0000_0040_0000, // 1,048,576 and 1/1024
    0xc130_0000_0040_0000, // the same below zero
    0x4130_0010_0000_0000, // 1,048,577 or so
    0x41d0_0000_0000_0000, // 2^30
    0x7fef_ffff_ffff_ffff, // the greatest
];
const EDGE_PLACES: &[u64] = &[32, 33, 255, 256, 257, 65536, 1 << 32, u64::MAX];

/// All pairs of connected clients with their sensor.
pub fn pairs(device: &Device) -> Vec<(usize, Subscription)> {
    let clients = device.clients.iter().flatten();
    clients.flat_map(|client| client.subscriptions.iter().copied().enumerate()).collect()
}

/// A sensor to be read: one that is sampled, mostly; at times one that is not
/// on the sheet.
pub fn sensor_place(random: &mut Random, device: &Device) -> u64 {
    let count = device.sheet.sensors.len();
    if count == 0 || random.chance(25) {
        return if random.chance(500) { count as u64 } else { random.pick(EDGE_PLACES) };
    }
    let sampled = pairs(device);
    let sampled: Vec<_> = sampled.iter().filter(|(_, pair)| pair.strategy != Strategy::None).collect();
    if !sampled.is_empty() && random.chance(850) {
        return sampled[random.place(sampled.len())].0 as u64;
    }
    random.place(count) as u64
}

/// A reading for a sensor: fit mostly.
pub fn reading(random: &mut Random, device: &Device, place: u64) -> Reading {
    let Some(sensor) = device.sheet.sensors.get(place as usize) else {
        return Reading::Integer(1);
    };
    if random.chance(110) {
        return random.pick(&[Reading::Failure, Reading::Unreachable, Reading::Inactive]);
    }
    if random.chance(25) {
        return unfit(random, sensor);
    }
    let value = value(random, device, place as usize);
    match sensor.kind {
        Kind::Integer => Reading::Integer(value.clamp(i32::MIN.into(), i32::MAX.into()) as i32),
        Kind::Float => float(random, value.clamp(-(1 << 30), 1 << 30)),
        Kind::Boolean => Reading::Boolean(value.rem_euclid(2) as u8),
        Kind::Discrete => Reading::Option(value.rem_euclid(sensor.options.len() as i64) as u8),
        Kind::Timestamp => Reading::Timestamp(value.clamp(0, LAST_TIME as i64) as u64),
    }
}

/// A float of so many 1024ths; zero is minus zero at times.
fn float(random: &mut Random, parts: i64) -> Reading {
    if parts == 0 && random.chance(500) {
        return Reading::Float(-0.0);
    }
    Reading::Float(parts as f64 / 1024.0)
}

/// A reading of the wrong type or out of range.
fn unfit(random: &mut Random, sensor: &Sensor) -> Reading {
    let own = match sensor.kind {
        Kind::Integer => Reading::Float(0.0),
        Kind::Float => Reading::Float(f64::from_bits(random.pick(BAD_FLOATS))),
        Kind::Boolean => Reading::Boolean(random.pick(&[2, 3, 255])),
        Kind::Discrete => Reading::Option(random.pick(&[sensor.options.len() as u8, 8, 255])),
        Kind::Timestamp => Reading::Timestamp(random.pick(&[LAST_TIME + 1, u64::MAX])),
    };
    let any = [
        Reading::Integer(0),
        Reading::Float(1.0),
        Reading::Boolean(1),
        Reading::Option(0),
        Reading::Timestamp(0),
    ];
    if random.chance(600) {
        own
    } else {
        random.pick(&any)
    }
}

/// A value as an exact number: the present one, one near a limit, one near the
/// last report and a difference, or any.
fn value(random: &mut Random, device: &Device, place: usize) -> i64 {
    let sensor = &device.sheet.sensors[place];
    let near = random.between(-1, 1);
    match random.below(100) {
        0..=14 => device.readings[place].state.value,
        15..=34 => random.pick(&[&sensor.limits.listed()[..], &[0]].concat()) as i64 + near,
        35..=74 => drifted(random, device, place) + near,
        75..=89 => random.between(-3, 3),
        90..=94 => random.pick(&[i64::MIN / 2, i64::MAX / 2, 0, 1 << 30, -(1 << 30), LAST_TIME as i64]),
        _ => random.between(-(1 << 31), 1 << 31),
    }
}

/// A value as far from a client's last report as its difference.
fn drifted(random: &mut Random, device: &Device, place: usize) -> i64 {
    let pairs: Vec<_> = pairs(device).into_iter().filter(|(sensor, _)| *sensor == place).collect();
    if pairs.is_empty() {
        return random.between(-2000, 2000);
    }
    let (_, pair) = pairs[random.place(pairs.len())];
    let last = pair.last.map_or(0, |last| last.state.value);
    let millionths = match pair.strategy {
        Strategy::Differential(difference) | Strategy::DifferentialRate(difference, _) => {
            difference.millionths
        }
        _ => 0,
    };
    let unit = if device.sheet.sensors[place].kind == Kind::Float { 1024 } else { 1 };
    let away = (i128::from(millionths) * unit / 1_000_000) as i64;
    if random.chance(500) {
        last + away
    } else {
        last - away
    }
}

/// A reading's own time: left out mostly, else the clock, around the stored one's, or anywhere between or
/// below; above the clock at times, and oftener where the reading is declined anyway.
pub fn time(random: &mut Random, device: &Device, place: u64, reading: Reading) -> Option<u64> {
    let clock = device.clock;
    let sensor = device.sheet.sensors.get(place as usize);
    if sensor.and_then(|sensor| state_of(sensor, reading)).is_none() {
        return random.pick(&[None, Some(0), Some(clock), Some(clock + 1), Some(u64::MAX)]);
    }
    let stored = device.readings[place as usize].time;
    Some(match random.below(1000) {
        0..=499 => return None,
        500..=579 => clock,
        580..=609 => clock + 1,
        610..=629 => random.pick(&[u64::MAX, 1 << 63, LAST_TIME + 1, LAST_TIME, clock + 1000]),
        630..=699 => stored,
        700..=759 => stored.saturating_sub(1),
        760..=809 => clock.min(stored + 1),
        810..=819 => 0,
        820..=849 => random.below(stored + 1),
        _ => stored + random.below(clock - stored + 1),
    })
}

/// A time to tick to: due for some pair, one before or one after; else a
/// little on; at times not allowed.
pub fn tick(random: &mut Random, device: &Device) -> u64 {
    let clock = device.clock;
    match random.below(1000) {
        0..=14 => clock.saturating_sub(1 + random.below(1000)),
        15..=24 => random.pick(&[LAST_TIME + 1, LAST_TIME + 2, u64::MAX, 1 << 63]),
        25..=26 => LAST_TIME - random.below(3),
        27..=39 => clock,
        40..=119 => clock + 1 + random.below(3),
        120..=179 => clock + random.below(100_000),
        180..=299 => clock + random.below(1000),
        _ => due(random, device).filter(|&time| time >= clock).unwrap_or(clock + random.below(2000)),
    }
}

/// When some pair's period, shortest or longest is due, one before or after.
fn due(random: &mut Random, device: &Device) -> Option<u64> {
    let timed = |pair: &Subscription| {
        matches!(pair.strategy, Strategy::Period(_) | Strategy::EventRate(_) | Strategy::DifferentialRate(..))
    };
    let pairs: Vec<_> = pairs(device).into_iter().filter(|(_, pair)| timed(pair)).collect();
    if pairs.is_empty() {
        return None;
    }
    let (_, pair) = pairs[random.place(pairs.len())];
    let wait = match pair.strategy {
        Strategy::Period(period) => period,
        Strategy::EventRate(rate) | Strategy::DifferentialRate(_, rate) => {
            random.pick(&[rate.shortest, rate.shortest, rate.longest])
        }
        _ => 0,
    };
    (pair.last?.time + wait).checked_add_signed(random.between(-1, 1))
}
