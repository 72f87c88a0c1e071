// Links libcapi.a from the folder YSH_LIB. Left out, it is the repository's target/native, where `release/library` writes it
// for the machine's own processor.
use std::path::{Path, PathBuf};
use std::{env, fs, process};

/// What an ELF file calls a processor, by the name that cargo has for it; only those that an archive may have been made for.
fn machine_of(arch: &str) -> Option<u16> {
    match arch {
        "x86_64" => Some(62),
        "aarch64" => Some(183),
        _ => None,
    }
}

/// The processor of the archive's first object, where it has one: two bytes, 18 bytes into an ELF file.
fn machine_in(archive: &[u8]) -> Option<u16> {
    let start = archive.windows(4).position(|bytes| bytes == b"\x7fELF")?;
    let bytes = archive.get(start + 18..start + 20)?;
    Some(u16::from_le_bytes([bytes[0], bytes[1]]))
}

/// One line that says what to do, in place of pages from the linker.
fn stop(folder: &Path, fault: &str) -> ! {
    eprintln!(
        "{fault} in {}: run `release/library` in the repository, or set YSH_LIB to the folder that has it",
        folder.display()
    );
    process::exit(1)
}

fn main() {
    println!("cargo:rerun-if-env-changed=YSH_LIB");
    let here = PathBuf::from(env::var_os("CARGO_MANIFEST_DIR").expect("cargo sets CARGO_MANIFEST_DIR"));
    let arch = env::var("CARGO_CFG_TARGET_ARCH").expect("cargo sets CARGO_CFG_TARGET_ARCH");
    let folder = env::var_os("YSH_LIB").map_or_else(|| here.join("../../target/native"), PathBuf::from);
    let archive = folder.join("libcapi.a");
    println!("cargo:rerun-if-changed={}", archive.display());
    match fs::read(&archive) {
        Err(_) => stop(&folder, "no libcapi.a"),
        Ok(bytes) if machine_of(&arch).is_some() && machine_in(&bytes) != machine_of(&arch) => {
            stop(&folder, &format!("no libcapi.a for {arch}"))
        }
        Ok(_) => {}
    }
    println!("cargo:rustc-link-search=native={}", folder.display());
    println!("cargo:rustc-link-lib=static=capi");
    // For the build of a program over this crate: DEP_CAPI_ARCHIVE.
    println!("cargo:archive={}", archive.display());
}
