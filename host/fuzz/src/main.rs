//! Coverage-guided fuzz targets for everything that `ysh` reads. libFuzzer brings `main` and calls the one function below; TARGET in the
//! environment says which sort of input its bytes are. A panic, a wrong status or an answer that does not hold together ends the process, and
//! libFuzzer keeps the input.
#![no_main]

mod targets;
mod told;

use std::sync::OnceLock;

static TARGET: OnceLock<fn(&[u8])> = OnceLock::new();

fn target() -> fn(&[u8]) {
    let name = std::env::var("TARGET").unwrap_or_default();
    match name.as_str() {
        "strategy" => targets::strategy,
        "table" => targets::table,
        "settings" => targets::settings,
        "bars" => targets::bars,
        "image" => targets::image,
        _ => panic!("TARGET is strategy, table, settings, bars or image"),
    }
}

/// # Safety
/// `size` bytes stand at `data`: that is libFuzzer's promise.
#[no_mangle]
pub unsafe extern "C" fn LLVMFuzzerTestOneInput(data: *const u8, size: usize) -> i32 {
    let bytes = if size == 0 { &[][..] } else { std::slice::from_raw_parts(data, size) };
    TARGET.get_or_init(target)(bytes);
    0
}
