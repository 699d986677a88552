use std::path::PathBuf;
use std::{env, fs};

/// Writes, for each module, its published text as it is and our harness after it, and a file beside them that names them as modules.
/// (A private item can be reached from a module inside only, and `include!` takes no file that begins with attributes of its own.)
/// Paths are from the package, in whose folder a build script runs, so that a copy of the checkout reads its own. They are such as fit
/// `oracle-published` too, which has this script and these sources: of those cargo would look at the original's in a copy.
fn main() {
    let out = PathBuf::from(env::var_os("OUT_DIR").expect("cargo sets OUT_DIR"));
    let mut modules = String::new();
    println!("cargo:rerun-if-changed=../oracle/src");
    for name in ["geo", "traj", "adrc", "pos"] {
        let mut text = read(&format!("../../docs/src/crates/relay-{name}/plain/src/lib.rs"));
        text.extend(read(&format!("../oracle/harness/{name}.rs")));
        fs::write(out.join(format!("{name}.rs")), text).expect("OUT_DIR can be written");
        modules += &format!("#[allow(unused_attributes, dead_code, clippy::all)]\npub mod {name};\n");
    }
    fs::write(out.join("modules.rs"), modules).expect("OUT_DIR can be written");
}

fn read(path: &str) -> Vec<u8> {
    println!("cargo:rerun-if-changed={path}");
    fs::read(path).unwrap_or_else(|e| panic!("{path}: {e}"))
}
