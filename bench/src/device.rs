//! The device's calls, as its static library has them. The functions ask nothing of their arguments, and keep no reference to them.

/// The length of the output that is lent.
pub const LENT: usize = 65_536;

/// A slice as it is handed to the library: a pointer and then a length.
#[repr(C)]
#[derive(Clone, Copy)]
pub struct Slice {
    start: *const u8,
    length: usize,
}

extern "C" {
    fn bench_calls(
        round: u8,
        sheet: Slice,
        clients: u8,
        setup: Slice,
        line: Slice,
        n: u64,
        out: Slice,
    ) -> u64;
    fn bench_checks(sheet: Slice, clients: u8, setup: Slice, n: u64, out: Slice) -> u64;
    fn bench_opens(sheet: Slice, n: u64) -> u64;
}

/// Bytes that are read.
pub fn read(bytes: &[u8]) -> Slice {
    Slice { start: bytes.as_ptr(), length: bytes.len() }
}

/// Bytes that are written.
pub fn lent(bytes: &mut [u8]) -> Slice {
    Slice { start: bytes.as_mut_ptr(), length: bytes.len() }
}

/// n calls of a round on the device of a sheet, whose clients have each sent a line: how many were taken.
pub fn calls(round: u8, sheet: &[u8], clients: u8, setup: &str, line: &str, n: u64) -> u64 {
    let mut out = vec![0; LENT];
    let (setup, line) = (read(setup.as_bytes()), read(line.as_bytes()));
    unsafe { bench_calls(round, read(sheet), clients, setup, line, n, lent(&mut out)) }
}

/// n checks of the state of such a device: how many found it in range.
pub fn checks(sheet: &[u8], clients: u8, setup: &str, n: u64) -> u64 {
    let mut out = vec![0; LENT];
    unsafe { bench_checks(read(sheet), clients, read(setup.as_bytes()), n, lent(&mut out)) }
}

/// n openings of a sheet: how many were taken.
pub fn opens(sheet: &[u8], n: u64) -> u64 {
    unsafe { bench_opens(read(sheet), n) }
}
