//! The entry that libFuzzer calls; `FUZZ` names the target. Built by tests/fuzz.sh.
#![no_main]

use fuzz::Target;
use std::sync::OnceLock;

static TARGET: OnceLock<Target> = OnceLock::new();

fn named() -> Target {
    let name = std::env::var("FUZZ").unwrap_or_default();
    fuzz::target(&name).unwrap_or_else(|| {
        eprintln!("FUZZ names no target: {name:?}");
        std::process::exit(2)
    })
}

/// # Safety
/// The input is good for its size, as libFuzzer promises.
#[no_mangle]
pub unsafe extern "C" fn LLVMFuzzerTestOneInput(data: *const u8, size: usize) -> i32 {
    let input = if size == 0 { &[] } else { std::slice::from_raw_parts(data, size) };
    TARGET.get_or_init(named)(input);
    0
}
