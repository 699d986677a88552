use std::ffi::OsString;
use std::path::Path;
use std::process::Command;

/// Links an earlier `libfosavalo.a` beside today's where FOSAVALO_BEFORE names it (`make bench BEFORE=..`), with its tick under another name.
fn main() {
    println!("cargo:rerun-if-env-changed=FOSAVALO_BEFORE");
    println!("cargo:rustc-check-cfg=cfg(before)");
    let Some(archive) = std::env::var_os("FOSAVALO_BEFORE").filter(|name| !name.is_empty()) else { return };
    let folder = std::env::var_os("OUT_DIR").unwrap_or_else(|| OsString::from("."));
    let renamed = Path::new(&folder).join("libbefore.a");
    let words = ["--redefine-sym", "fosavalo_tick=fosavalo_tick_before", "--keep-global-symbol=fosavalo_tick_before"];
    let made = Command::new("objcopy").args(words).arg(&archive).arg(&renamed).status();
    if !made.is_ok_and(|status| status.success()) {
        eprintln!("objcopy could not read {}", archive.to_string_lossy());
        std::process::exit(1);
    }
    println!("cargo:rerun-if-changed={}", archive.to_string_lossy());
    println!("cargo:rustc-link-search=native={}", folder.to_string_lossy());
    println!("cargo:rustc-link-lib=static=before");
    println!("cargo:rustc-cfg=before");
}
