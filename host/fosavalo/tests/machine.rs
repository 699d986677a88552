//! An archive for another machine: cargo and the C example's Makefile say so in one sentence, before a linker does in many.

use std::env::consts::{ARCH, OS};
use std::path::{Path, PathBuf};
use std::process::Command;

fn checkout() -> PathBuf {
    PathBuf::from(std::env::var_os("CARGO_MANIFEST_DIR").expect("cargo runs the tests")).join("../..").canonicalize().expect("the checkout")
}

/// Gone with what is in it.
struct Folder(PathBuf);

impl Drop for Folder {
    fn drop(&mut self) {
        let _ = std::fs::remove_dir_all(&self.0);
    }
}

/// The machine whose number ELF's header has, in each object of an archive.
fn with_machine(archive: &[u8], number: u16) -> Vec<u8> {
    let mut bytes = archive.to_vec();
    let starts: Vec<usize> = (0..bytes.len() - 20).filter(|at| bytes[*at..].starts_with(b"\x7fELF")).collect();
    assert!(!starts.is_empty(), "an archive of ELF objects");
    starts.iter().for_each(|at| bytes[at + 18..at + 20].copy_from_slice(&number.to_le_bytes()));
    bytes
}

/// How a command ends that may not succeed: its lines on standard error that speak of the archive.
fn refused(command: &mut Command, archive: &Path) -> Vec<String> {
    let said = command.output().unwrap_or_else(|error| panic!("{command:?}: {error}"));
    assert!(!said.status.success(), "{command:?}");
    let text = String::from_utf8_lossy(&said.stderr);
    assert!(!["linking with", "collect2", "incompatible"].iter().any(|word| text.contains(word)), "the linker was asked: {text}");
    text.lines().map(str::trim).filter(|line| line.starts_with(&archive.display().to_string())).map(str::to_string).collect()
}

#[test]
fn an_archive_for_another_machine() {
    let folder = Folder(std::env::temp_dir().join(format!("fosavalo-machine-{}", std::process::id())));
    std::fs::create_dir_all(&folder.0).expect("a folder for an archive");
    let archive = folder.0.join("libfosavalo.a");
    let own = checkout().join("target/staticlib").join(format!("{ARCH}-{OS}"));
    let own =
        std::fs::read(std::env::var_os("FOSAVALO_LIB_DIR").map_or(own, PathBuf::from).join("libfosavalo.a")).expect("the machine's own");
    let cargo = || {
        let mut check = Command::new("cargo");
        check.args(["check", "--quiet", "--offline", "--manifest-path"]).arg(checkout().join("host/fosavalo/Cargo.toml"));
        check.env("FOSAVALO_LIB_DIR", &folder.0).env("CARGO_TARGET_DIR", folder.0.join("target"));
        check
    };
    let make = || {
        let mut make = Command::new("make");
        make.arg("-C")
            .arg(checkout().join("examples/c"))
            .arg("joint")
            .arg("CC=gcc")
            .arg(format!("FOSAVALO_LIB_DIR={}", folder.0.display()));
        make
    };
    let other = |number, name: &str| {
        std::fs::write(&archive, with_machine(&own, number)).expect("it is written");
        let (at, set) = (archive.display(), format!("set FOSAVALO_LIB_DIR to the folder of an archive for {ARCH}"));
        let told = format!(
            "{at} is for {name}, and what is built is for {ARCH}-{OS}; run `make archives` at the top of the repository, or {set}-{OS}"
        );
        assert_eq!(refused(&mut cargo(), &archive), [told]);
        (format!("{at} is for {name}, and gcc compiles for {ARCH}: {set}"), refused(&mut make(), &archive))
    };
    for (number, name) in [(62, "x86_64"), (183, "aarch64"), (243, "riscv64"), (40, "arm")].into_iter().filter(|(_, name)| *name != ARCH) {
        let (told, said) = other(number, name);
        assert_eq!(said, [told]);
    }
    assert_eq!(other(22, "ELF's machine 22").1.len(), 1);

    std::fs::write(&archive, b"!<arch>\n").expect("it is written");
    let said = refused(&mut cargo(), &archive);
    assert!(matches!(&said[..], [one] if one.contains("is no archive of ELF objects")), "{said:?}");
    std::fs::write(&archive, own).expect("it is written");
    assert!(cargo().status().expect("it runs").success());
}
