//! Links the static library of the device's calls, from the folder that `DEVICE_LIBRARY` names; and, where objcopy is at hand, a second copy of
//! it whose copies of memory go through functions that count them (`counted`).

use std::path::Path;
use std::process::Command;

/// What the library exports.
const EXPORTED: [&str; 9] = [
    "bench_calls",
    "bench_checks",
    "bench_opens",
    "bench_connect",
    "bench_disconnect",
    "bench_tick",
    "bench_reading",
    "bench_log",
    "bench_line",
];

fn main() {
    println!("cargo:rerun-if-env-changed=DEVICE_LIBRARY");
    println!("cargo:rustc-check-cfg=cfg(counted)");
    let folder = std::env::var("DEVICE_LIBRARY").expect("DEVICE_LIBRARY is not set: use bench/run");
    let library = format!("{folder}/libbench.a");
    println!("cargo:rerun-if-changed={library}");
    println!("cargo:rustc-link-search=native={folder}");
    println!("cargo:rustc-link-lib=static=bench");
    let out = std::env::var("OUT_DIR").expect("cargo sets OUT_DIR");
    if count_copies(Path::new(&library), &Path::new(&out).join("libcounted.a")) {
        println!("cargo:rustc-link-search=native={out}");
        println!("cargo:rustc-link-lib=static=counted");
        println!("cargo:rustc-cfg=counted");
    }
}

/// Writes the library with `counted_` before each name that it exports and before `memcpy` and `memmove`: whether that was done.
fn count_copies(library: &Path, to: &Path) -> bool {
    let mut command = Command::new("objcopy");
    for name in EXPORTED.iter().chain(&["memcpy", "memmove"]) {
        command.arg("--redefine-sym").arg(format!("{name}=counted_{name}"));
    }
    matches!(command.arg(library).arg(to).status(), Ok(status) if status.success())
}
