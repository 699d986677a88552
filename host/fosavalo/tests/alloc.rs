//! Without the feature `alloc` a program needs neither std nor an allocator: one that has none is linked, with both crates.

use std::path::PathBuf;
use std::process::Command;

const PROGRAM: &str = r#"#![no_std]

use fosavalo::{calls, Image, LogView, Profile, Record, Route, SetUp, TickInput, EMPTY_LOG};
use fosavalo_desk::{Desk, Sticks};

#[panic_handler]
fn stop(_: &core::panic::PanicInfo) -> ! {
    loop {}
}

/// A flight of one tick by the desk, kept in a buffer of its own and checked there.
#[no_mangle]
pub extern "C" fn fly() -> bool {
    flown().is_ok_and(|right| right)
}

fn flown() -> Result<bool, fosavalo_desk::Refusal> {
    let set_up = SetUp::falcon_quad();
    let (mut image, mut desk, mut input) = (Image::set_up(&set_up)?, Desk::from_bytes(&[0; 60])?, TickInput::default());
    let route = Route::new(&[set_up.segment])?;
    let answer = desk.route_tick(&Sticks::default(), &mut image, &mut input, &route)?;
    let mut log = [0; 120];
    log[..12].copy_from_slice(&EMPTY_LOG);
    let record = Record::new(&input, &answer);
    fosavalo::Refusal::from_number(calls::log_append(&mut log, 12, &record.as_bytes()[..68], &record.as_bytes()[68..]))?;
    Ok(LogView::from_bytes(&log)?.check(Profile::Whole, set_up.enter, set_up.exit)?.is_right())
}
"#;

#[test]
fn no_allocator_is_needed() {
    let host =
        PathBuf::from(std::env::var_os("CARGO_MANIFEST_DIR").expect("cargo runs the tests")).join("..").canonicalize().expect("host/");
    let folder = std::env::temp_dir().join(format!("fosavalo-alloc-{}", std::process::id()));
    std::fs::create_dir_all(folder.join("src")).expect("a folder for a crate");
    std::fs::write(folder.join("src/lib.rs"), PROGRAM).expect("it is written");
    let build = |features: &str| {
        let [core, desk] = ["fosavalo", "fosavalo-desk"].map(|name| host.join(name));
        let manifest = format!(
            "[package]\nname = \"board\"\nversion = \"0.0.0\"\nedition = \"2021\"\n\n[lib]\ncrate-type = [\"staticlib\"]\n\n[dependencies]\n\
             fosavalo = {{ path = {core:?}{features} }}\nfosavalo-desk = {{ path = {desk:?} }}\n\n[profile.dev]\npanic = \"abort\"\n"
        );
        std::fs::write(folder.join("Cargo.toml"), manifest).expect("it is written");
        let mut cargo = Command::new("cargo");
        cargo.args(["build", "--quiet", "--offline", "--manifest-path"]).arg(folder.join("Cargo.toml"));
        let said = cargo.env("CARGO_TARGET_DIR", folder.join("target")).output().expect("cargo runs");
        (said.status.success(), String::from_utf8_lossy(&said.stderr).into_owned())
    };
    let (without, with) = (build(", default-features = false"), build(""));
    let _ = std::fs::remove_dir_all(&folder);
    assert!(without.0, "{}", without.1);
    assert!(!with.0 && with.1.contains("no global memory allocator"), "{}", with.1);
}
