//! Random differences. Those of float sensors have many spellings: document 02, (b), "Differences with an
//! exponent".

use super::sampling::{Faults, ODD_TEXTS};
use crate::random::Random;
use crate::sheet::Kind;

const EDGE_DIFFERENCES: &[&str] = &[
    "4294967295",
    "4294967296",
    "2097152",
    "2097153",
    "2097152.0",
    "2097152.000000",
    "2097152.0000000",
    "2097152.000001",
    "2097152.0000001",
    "2097151.999999",
    "2097151.9999999",
    "2097152e0",
    "2097152000000e-6",
    "2097152000001e-6",
    "20971520e-1",
    "20971521e-1",
    ".2097152e7",
    "2.097152E+06",
    "2.097153E+06",
    "4294967295.0",
    "4294967295e0",
    "0.000001",
    "0.0000001",
    "0.0000010",
    "1e-6",
    "1e-7",
    "10e-7",
    "15e-7",
    "0.0000001e1",
    "0.1000000",
    "0.100000",
    "0.000976",
    "0.000977",
    "9.76e-4",
    "9.77e-4",
    "1e999",
    "1e-999",
    "0e999",
    "0e-999",
    "-0",
    "-.0e9",
    "-0.0000001",
    "-1e-999",
    "0",
    "0.0",
    "10.0",
    "10",
    "9999999999",
    "10000000000",
    "42949672950000000",
    "18446744073709.551616",
    "18446744073709551617e-6",
    "1e58",
    "1e64",
];

/// What both types of a list, or an integer alone, do not take.
const NOT_FOR_INTEGERS: &[&str] = &[
    "2.5",
    "0.1",
    "10.0",
    "2097153",
    "4294967295",
    "1e1",
    "+5",
    "05",
    "00",
    "5.",
    ".5",
    "-0",
    "5e0",
    "1E+3",
];

/// Numbers above the bound or finer than a millionth: their digits, and the power of ten that the last of
/// them counts.
const BEYOND: &[(&str, i64)] = &[
    ("2097152000001", -6),
    ("20971520000001", -7),
    ("20971521", -1),
    ("2097153", 0),
    ("2097152", 1),
    ("3", 6),
    ("1", 7),
    ("18446744073709551615", -6),
    ("18446744073709551616", -6),
    ("18446744073709551617", -6),
    ("340282366920938463463374607431768211457", -6),
    ("20971519999999", -7),
    ("9999999", -7),
    ("10000001", -7),
    ("1", -7),
    ("9", -7),
    ("1", -8),
];

/// A difference that suits all types of the list, mostly.
pub fn difference(random: &mut Random, kinds: &[Kind], faults: &Faults) -> String {
    let has_integer = kinds.contains(&Kind::Integer);
    let has_float = kinds.contains(&Kind::Float);
    if random.chance(faults.parameter) || has_float && random.chance(100) {
        return odd(random);
    }
    if has_integer && random.chance(if has_float { 160 } else { 40 }) {
        return not_for_integers(random);
    }
    if !has_integer && random.chance(500) {
        return for_float(random);
    }
    plain(random, has_integer, has_float)
}

/// Digits, or digits with a point, as integer and float sensors have always taken them.
fn plain(random: &mut Random, has_integer: bool, has_float: bool) -> String {
    let whole = random.pick(&[0, 0, 1, 1, 2, 3, 10, 1000, 2_097_152, 4_294_967_295]);
    let whole: u64 = if has_float { whole.min(2_097_152) } else { whole };
    if has_integer || whole == 2_097_152 || random.chance(150) {
        return whole.to_string();
    }
    let places = 1 + random.place(6);
    let fraction = match random.below(4) {
        0 => format!("{:06}", random.pick(&[0, 1, 976, 977, 1953, 1954, 100_000, 500_000, 999_999])),
        _ => format!("{:06}", random.below(1_000_000)),
    };
    format!("{}.{}", whole.min(10), &fraction[..places])
}

/// A difference that many sensors decline.
fn odd(random: &mut Random) -> String {
    match random.below(10) {
        0..=2 => random.pick(EDGE_DIFFERENCES).to_string(),
        3 => random.pick(ODD_TEXTS).to_string(),
        4..=5 => beyond(random),
        6 => format!("-{}", for_float(random).trim_start_matches(['+', '-'])),
        7..=8 => malformed(random),
        _ => damaged(random),
    }
}

/// Where an integer is among the sensors: what it declines, or a whole number in any spelling.
fn not_for_integers(random: &mut Random) -> String {
    if random.chance(500) {
        return random.pick(NOT_FOR_INTEGERS).to_string();
    }
    let whole = random.pick(&["0", "1", "2", "3", "10", "1000", "2097152"]);
    spelling(random, whole, 0)
}

/// "at most 2,097,152 and a whole number of millionths", in any spelling.
fn for_float(random: &mut Random) -> String {
    let (number, power) = match random.below(8) {
        0 => (0, random.between(-9, 9)),
        1 => random.pick(&[(2_097_152, 0), (2_097_152_000_000, -6), (2_097_151_999_999, -6)]),
        2 => (1, random.between(-6, 6)),
        3 => (random.pick(&[976, 977, 1953, 1954, 100_000, 999_999]), -6),
        4..=6 => (random.below(1000), random.between(-6, 1)),
        _ => (random.below(2_097_152_000_001), -6),
    };
    spelling(random, &number.to_string(), power)
}

/// A number that is too large or too fine, in any spelling.
fn beyond(random: &mut Random) -> String {
    let (digits, power) = match random.below(8) {
        0 => ("1", random.between(7, 999)),
        1 => ("7", random.between(-999, -7)),
        _ => random.pick(BEYOND),
    };
    spelling(random, digits, power)
}

/// "never both", "one to three digits": a spelling without its digits, or without those of an exponent, or
/// with too many there.
fn malformed(random: &mut Random) -> String {
    let text = for_float(random);
    let (decimal, exponent) = text.split_at(text.find(['e', 'E']).unwrap_or(text.len()));
    let letter = random.pick(&["e", "E", "e+", "E-"]);
    match random.below(4) {
        0 => written(decimal.replace(|byte: char| byte.is_ascii_digit(), "") + exponent),
        1 => random.pick(&[".", "+.", "-."]).to_string() + exponent,
        2 => format!("{decimal}{letter}"),
        _ => format!("{decimal}{letter}{:04}", random.below(4)),
    }
}

/// A spelling with a byte put in, changed or left out.
fn damaged(random: &mut Random) -> String {
    let mut text = for_float(random);
    let place = random.place(text.len());
    let byte = random.pick(&["+", "-", ".", "e", "E", "0", "1", "x", ",", "\\_", "\\t", "\\0"]);
    match random.below(3) {
        0 => text.insert_str(place, byte),
        1 => text.replace_range(place..=place, byte),
        _ => text.replace_range(place..=place, ""),
    }
    written(text)
}

/// "`\@` only for an empty argument".
fn written(text: String) -> String {
    if text.is_empty() {
        "\\@".to_string()
    } else {
        text
    }
}

/// A number in some spelling: its digits with zeros around them, a point anywhere, and the exponent that this
/// asks for. The last of the digits given counts the power of ten given.
fn spelling(random: &mut Random, digits: &str, power: i64) -> String {
    let (before, behind) = (zeros(random), zeros(random));
    let power = power - behind as i64;
    let digits = format!("{}{digits}{}", "0".repeat(before), "0".repeat(behind));
    let point = point(random, digits.len(), before, power);
    let (whole, fraction) = digits.split_at(point);
    let mut text = format!("{}{whole}", sign(random, &digits));
    if !fraction.is_empty() || random.chance(200) {
        text = format!("{text}.{fraction}");
    }
    let exponent = power + fraction.len() as i64;
    if exponent != 0 || random.chance(250) {
        text.push_str(&exponent_text(random, exponent));
    }
    text
}

/// How many zeros more: few mostly, at times so many that the exponent has three digits or too many.
fn zeros(random: &mut Random) -> usize {
    match random.below(100) {
        0 => random.pick(&[93, 94, 99, 100, 990, 993, 994, 998, 999, 1000, 1500]),
        1..=20 => 1 + random.place(3),
        _ => 0,
    }
}

/// Where the point stands: behind all, before the first digit given, anywhere, or where no exponent is asked
/// for.
fn point(random: &mut Random, length: usize, before: usize, power: i64) -> usize {
    match random.below(5) {
        0 => length,
        1 => before,
        2 => random.place(length + 1),
        _ => (length as i64 + power).clamp(0, length as i64) as usize,
    }
}

/// "a leading `+`"; "Minus is taken only for zero."
fn sign(random: &mut Random, digits: &str) -> &'static str {
    if digits.trim_matches('0').is_empty() && random.chance(400) {
        return "-";
    }
    random.pick(&["", "", "", "+"])
}

/// "an exponent (`e` or `E`, a sign if any, one to three digits)"; four where it asks for them.
fn exponent_text(random: &mut Random, exponent: i64) -> String {
    let sign = match exponent {
        0 => random.pick(&["", "+", "-"]),
        1.. => random.pick(&["", "+"]),
        _ => "-",
    };
    let (letter, width) = (random.pick(&["e", "E"]), 1 + random.place(3));
    format!("{letter}{sign}{:0width$}", exponent.abs())
}
