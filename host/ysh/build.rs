// The SHA-256 of the library that the program is linked with, for the sheets that it writes.
use std::{env, fs};

use sha2::{Digest, Sha256};

fn main() {
    let archive = env::var("DEP_CAPI_ARCHIVE").expect("yshturpa's build says where the library is");
    println!("cargo:rerun-if-changed={archive}");
    let bytes = fs::read(&archive).expect("yshturpa's build found the library");
    let digest: String = Sha256::digest(&bytes).iter().map(|byte| format!("{byte:02x}")).collect();
    println!("cargo:rustc-env=YSH_LIBRARY_SHA256={digest}");
    // Where it is, for the tests alone.
    println!("cargo:rustc-env=YSH_LIBRARY_ARCHIVE={archive}");
}
