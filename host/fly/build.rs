use std::path::Path;
use std::{env, fs};

/// Hands the review page what stands outside of this package: the core as WebAssembly, which `tools/archives --for wasm32 fosavalo` makes, and the JavaScript that calls it. Where
/// there is none that is made of the same proved module as this machine's archive, the program is built without it and says so.
///
/// In a copy of the checkout cargo takes what this printed in the original as current, so the files are named from the package, in whose folder a build script runs.
fn main() {
    let set_by_cargo = |name: &str| env::var(name).unwrap_or_default();
    let machine = format!("{}-{}", set_by_cargo("CARGO_CFG_TARGET_ARCH"), set_by_cargo("CARGO_CFG_TARGET_OS"));
    let read = |file: String| {
        println!("cargo:rerun-if-changed={file}");
        fs::read(file).unwrap_or_default()
    };
    let module = |target: &str| {
        let stamp = read(format!("../../target/staticlib/{target}/fosavalo.stamp"));
        stamp.split(|byte| *byte == b' ').next().unwrap_or_default().to_vec()
    };
    let (wasm, script) = (read("../../target/staticlib/wasm32/fosavalo.wasm".to_string()), read("../../web/fosavalo.js".to_string()));
    let same = module("wasm32") == module(&machine);
    for (name, bytes) in [("fosavalo.wasm", if same { wasm } else { Vec::new() }), ("fosavalo.js", script)] {
        if let Err(error) = fs::write(Path::new(&set_by_cargo("OUT_DIR")).join(name), bytes) {
            eprintln!("{name}: {error}");
            std::process::exit(1);
        }
    }
}
