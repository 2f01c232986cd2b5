//! The same calls in a copy of the library whose copies of memory come here: how many bytes a call copies, and how much stack it uses.
//! A copy that the compiler writes out in place, of some hundred bytes at most, is not seen.

use crate::device::{lent, read, Slice, LENT};
use std::ptr;
use std::sync::atomic::{AtomicU64, AtomicUsize, Ordering::Relaxed};
use std::thread;

/// How many copies were made, and of how many bytes.
static COPIES: AtomicU64 = AtomicU64::new(0);
static BYTES: AtomicU64 = AtomicU64::new(0);

/// The copy at which the stack below is painted, and the lowest painted address.
static PAINT_AT: AtomicU64 = AtomicU64::new(u64::MAX);
static PAINTED: AtomicUsize = AtomicUsize::new(0);

/// What unused stack is painted with; how far down; how much is left to the functions that paint.
const PAINT: u8 = 0xA5;
const REACH: usize = 1 << 20;
const GAP: usize = 512;

/// The stack of the thread that makes a call.
const STACK: usize = 4 << 20;

extern "C" {
    fn counted_bench_calls(
        round: u8,
        sheet: Slice,
        clients: u8,
        setup: Slice,
        line: Slice,
        n: u64,
        out: Slice,
    ) -> u64;
    fn counted_bench_checks(sheet: Slice, clients: u8, setup: Slice, n: u64, out: Slice) -> u64;
    fn counted_bench_opens(sheet: Slice, n: u64) -> u64;
    fn counted_bench_connect(sheet: Slice, out: Slice) -> u8;
    fn counted_bench_disconnect(sheet: Slice, out: Slice) -> u8;
    fn counted_bench_tick(sheet: Slice, out: Slice) -> u8;
    fn counted_bench_reading(sheet: Slice, out: Slice) -> u8;
    fn counted_bench_log(sheet: Slice, out: Slice) -> u8;
    fn counted_bench_line(sheet: Slice, line: Slice, out: Slice) -> u8;
}

/// A call made once, on a device that was just opened: its number.
type Call = unsafe extern "C" fn(Slice, Slice) -> u8;

#[no_mangle]
unsafe extern "C" fn counted_memcpy(to: *mut u8, from: *const u8, length: usize) -> *mut u8 {
    note(length);
    ptr::copy_nonoverlapping(from, to, length);
    to
}

#[no_mangle]
unsafe extern "C" fn counted_memmove(to: *mut u8, from: *const u8, length: usize) -> *mut u8 {
    note(length);
    ptr::copy(from, to, length);
    to
}

/// A copy is made.
fn note(length: usize) {
    BYTES.fetch_add(length as u64, Relaxed);
    if COPIES.fetch_add(1, Relaxed) + 1 == PAINT_AT.load(Relaxed) {
        paint();
    }
}

/// Paints the stack below this function, which nothing uses meanwhile: only this thread does, and it has `STACK` bytes of it.
#[inline(never)]
fn paint() {
    let here = 0u8;
    let low = ptr::addr_of!(here) as usize - REACH;
    PAINTED.store(low, Relaxed);
    unsafe { ptr::write_bytes(low as *mut u8, PAINT, REACH - GAP) };
}

/// The lowest byte that was written since.
fn deepest() -> usize {
    let low = PAINTED.load(Relaxed);
    assert_ne!(low, 0, "the stack was not painted");
    (low..).find(|&at| unsafe { ptr::read_volatile(at as *const u8) } != PAINT).unwrap_or(low)
}

/// The copies and bytes of a run.
fn copies(run: impl FnOnce()) -> (u64, u64) {
    COPIES.store(0, Relaxed);
    BYTES.store(0, Relaxed);
    PAINT_AT.store(u64::MAX, Relaxed);
    run();
    (COPIES.load(Relaxed), BYTES.load(Relaxed))
}

/// Bytes that a call copies, where a run makes n of them and says how many were taken.
fn bytes_a_call(run: impl Fn(u64) -> u64) -> u64 {
    const N: u64 = 10;
    let bytes = |n| copies(|| assert_eq!(run(n), n, "calls that were taken")).1;
    (bytes(N) - bytes(0)) / N
}

/// Bytes copied by a call of a round.
pub fn call_bytes(round: u8, sheet: &[u8], clients: u8, setup: &str, line: &str) -> u64 {
    let mut out = vec![0; LENT];
    let (sheet, out) = (read(sheet), lent(&mut out));
    let (setup, line) = (read(setup.as_bytes()), read(line.as_bytes()));
    bytes_a_call(|n| unsafe { counted_bench_calls(round, sheet, clients, setup, line, n, out) })
}

/// Bytes copied by a check of a state.
pub fn check_bytes(sheet: &[u8], clients: u8, setup: &str) -> u64 {
    let mut out = vec![0; LENT];
    let (sheet, setup, out) = (read(sheet), read(setup.as_bytes()), lent(&mut out));
    bytes_a_call(|n| unsafe { counted_bench_checks(sheet, clients, setup, n, out) })
}

/// Bytes copied by an opening.
pub fn open_bytes(sheet: &[u8]) -> u64 {
    bytes_a_call(|n| unsafe { counted_bench_opens(read(sheet), n) })
}

/// One call, made by `run`, of which `before` copies belong to the opening and connecting that go before it: the stack that it uses, from the
/// frame of the function that runs it down. What opening and connecting used is not in it; the State and the answer of the function in
/// between are.
fn stack(before: u64, run: impl Fn() + Sync) -> usize {
    let measure = || {
        let top = 0u8;
        COPIES.store(0, Relaxed);
        PAINTED.store(0, Relaxed);
        PAINT_AT.store(before + 1, Relaxed);
        run();
        ptr::addr_of!(top) as usize - deepest()
    };
    thread::scope(|scope| {
        let thread = thread::Builder::new().stack_size(STACK).spawn_scoped(scope, measure);
        thread.expect("a thread").join().expect("a call")
    })
}

/// The stack of each call but a line, on the device of a sheet.
pub fn stacks(sheet: &[u8]) -> Vec<(&'static str, usize)> {
    let opening = copies(|| open(sheet)).0;
    let connecting = copies(|| once(counted_bench_connect, sheet)).0;
    let behind = |name, before, call: Call| (name, stack(before, move || once(call, sheet)));
    vec![
        ("open", stack(0, || open(sheet))),
        behind("connect", opening, counted_bench_connect),
        behind("disconnect", connecting, counted_bench_disconnect),
        behind("tick", opening, counted_bench_tick),
        behind("reading", opening, counted_bench_reading),
        behind("log", opening, counted_bench_log),
    ]
}

/// The stack of a line, whatever it is answered.
pub fn line_stack(sheet: &[u8], line: &str) -> usize {
    let connecting = copies(|| once(counted_bench_connect, sheet)).0;
    stack(connecting, || {
        let mut out = vec![0; LENT];
        unsafe { counted_bench_line(read(sheet), read(line.as_bytes()), lent(&mut out)) };
    })
}

/// An opening.
fn open(sheet: &[u8]) {
    let taken = unsafe { counted_bench_opens(read(sheet), 1) };
    assert_eq!(taken, 1, "openings that were taken");
}

/// A call.
fn once(call: Call, sheet: &[u8]) {
    let mut out = vec![0; LENT];
    let number = unsafe { call(read(sheet), lent(&mut out)) };
    assert_eq!(number, 0, "the number of the call");
}
