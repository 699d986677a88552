//! The C header, by a program that is compiled and linked with both archives, in either order.

use fosavalo_desk::Refusal;
use std::env::consts::{ARCH, OS};
use std::path::PathBuf;
use std::process::Command;

fn checkout() -> PathBuf {
    PathBuf::from(std::env::var_os("CARGO_MANIFEST_DIR").expect("cargo runs the tests")).join("../..")
}

/// What it prints, where it succeeds.
fn done(command: &mut Command) -> String {
    let said = command.output().unwrap_or_else(|error| panic!("{command:?}: {error}"));
    assert!(said.status.success(), "{command:?}: {}", String::from_utf8_lossy(&said.stderr));
    String::from_utf8(said.stdout).expect("plain text")
}

#[test]
fn beside_the_core_in_one_program() {
    let folder = std::env::temp_dir().join(format!("fosavalo-desk-{}", std::process::id()));
    std::fs::create_dir_all(&folder).expect("a folder for what is compiled");
    let (object, built) = (folder.join("desk.o"), folder.join("desk"));
    let own = checkout().join("target/staticlib").join(format!("{ARCH}-{OS}"));
    let library = std::env::var_os("FOSAVALO_LIB_DIR").map_or(own, PathBuf::from);
    let archives = ["libfosavalo.a", "libfosavalo_desk.a"].map(|name| library.join(name));
    let [core, desk] = &archives;

    let words = |number: u32| match Refusal::from_number(number) {
        Ok(()) => "done".to_string(),
        Err(refusal) => refusal.meaning().to_string(),
    };
    let mut expected =
        "15 16 15 15 16 1 2 3 15 16 1 2 3 6 unchanged\nthe core's own\nthe core's own\n3c000000 00000000\n3c000000 3e000000 bc000000\n00000000 3e000000\n".to_string();
    (0..20).for_each(|number| expected += &format!("{}\n", words(number)));

    let language: [(&str, &[&str]); 2] = [("gcc", &["-std=c11"]), ("g++", &["-std=c++17", "-xc++"])];
    // under an emulator one that is missing begins too, and fails
    let there = |name: &str| Command::new(name).arg("--version").output().is_ok_and(|said| said.status.success());
    for (compiler, flags) in language.into_iter().filter(|(name, _)| *name == "gcc" || there(name)) {
        let mut compile = Command::new(compiler);
        compile.args(["-Wall", "-Wextra", "-Wpedantic", "-Werror", "-O2"]).args(flags).arg("-I").arg(checkout().join("include"));
        done(compile.arg("-c").arg(checkout().join("host/fosavalo-desk/tests/c/desk.c")).arg("-o").arg(&object));
        for archives in [[core, desk], [desk, core]] {
            done(Command::new("gcc").arg(&object).args(archives).arg("-o").arg(&built));
            assert_eq!(done(&mut Command::new(&built)), expected, "{compiler}, {archives:?}");
        }
    }
    std::fs::remove_dir_all(&folder).expect("what was compiled goes");
}
