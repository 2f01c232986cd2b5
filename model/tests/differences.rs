//! Document 02, (b): "The exact decimal", in texts of any length, also longer than a line of a client may be.

use model::number::ExactDecimal;

/// "at most 2,097,152", in millionths.
const MOST: u64 = 2_097_152_000_000;

/// A float difference in millionths.
fn millionths(text: &str) -> Option<u64> {
    ExactDecimal::read(text.as_bytes())?.millionths(MOST)
}

/// "one to three digits": each exponent, with as many zeros as it moves the point over.
#[test]
fn every_exponent() {
    for exponent in 0..=999 {
        let zeros = "0".repeat(exponent);
        for (text, number) in [
            (format!(".{zeros}5e{exponent}"), Some(500_000)),
            (format!("+0.{zeros}000001E+{exponent:03}"), Some(1)),
            (format!(".{zeros}0000001e{exponent}"), None),
            (format!("2097152{zeros}e-{exponent}"), Some(MOST)),
            (format!("2097152000001{zeros}.E-{exponent:03}"), None),
            (format!("2097152{zeros}.000001e-{exponent}"), None),
            (format!("-.{zeros}5e{exponent}"), None),
            (format!("-{zeros}0.0e-{exponent}"), Some(0)),
        ] {
            assert_eq!(millionths(&text), number, "{text}");
        }
    }
}

/// No count of digits ends the reading: a digit stands behind so many zeros, or before them.
#[test]
fn every_length() {
    for count in [1, 255, 256, 2047, 2048, 65_535, 65_536, 1_000_000] {
        let zeros = "0".repeat(count);
        for (text, number) in [
            (format!("{zeros}1"), Some(1_000_000)),
            (format!("{zeros}2097152.000001"), None),
            (format!("2097152.000000{zeros}"), Some(MOST)),
            (format!("2097152.000000{zeros}1"), None),
            (format!("0.000001{zeros}e0"), Some(1)),
            (format!("0.000000{zeros}1"), None),
            (format!("-{zeros}.{zeros}e999"), Some(0)),
            (format!("-{zeros}.{zeros}1"), None),
            (format!("1000000{zeros}"), None),
        ] {
            assert_eq!(millionths(&text), number, "{count} zeros");
        }
    }
}
