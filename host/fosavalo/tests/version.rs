//! Archives of another version than the crates: set-up is refused, with a sentence, by both.

use std::env::consts::{ARCH, OS};
use std::path::{Path, PathBuf};
use std::process::Command;

fn checkout() -> PathBuf {
    PathBuf::from(std::env::var_os("CARGO_MANIFEST_DIR").expect("cargo runs the tests")).join("../..").canonicalize().expect("the checkout")
}

/// What it prints, where it succeeds.
fn done(command: &mut Command) -> String {
    let said = command.output().unwrap_or_else(|error| panic!("{command:?}: {error}"));
    assert!(said.status.success(), "{command:?}: {}", String::from_utf8_lossy(&said.stderr));
    String::from_utf8(said.stdout).expect("plain text")
}

/// Gone with what is in it.
struct Folder(PathBuf);

impl Drop for Folder {
    fn drop(&mut self) {
        let _ = std::fs::remove_dir_all(&self.0);
    }
}

impl Folder {
    fn write(&self, name: &str, text: &str) -> PathBuf {
        let path = self.0.join(name);
        std::fs::create_dir_all(path.parent().expect("a folder")).expect("it is made");
        std::fs::write(&path, text).expect("it is written");
        path
    }

    /// The archive as it is, but for what it says its version is.
    fn with_version(&self, from: &Path, name: &str, version: u32) {
        let (archive, object) = (self.0.join(format!("lib{name}.a")), self.0.join(format!("{name}_says.o")));
        let call = format!("{name}_version");
        done(
            Command::new("objcopy")
                .arg("--redefine-sym")
                .arg(format!("{call}=own_{call}"))
                .arg(from.join(format!("lib{name}.a")))
                .arg(&archive),
        );
        let source = self.write(&format!("{name}.c"), &format!("unsigned {call}(void) {{ return {version}u; }}\n"));
        done(Command::new("gcc").arg("-c").arg(source).arg("-o").arg(&object));
        done(Command::new("ar").arg("r").arg(&archive).arg(&object));
    }
}

/// Prints how both set-ups end.
const PROGRAM: &str = r#"use fosavalo::{Image, SetUp};
use fosavalo_desk::{Desk, DeskSetUp, Stick};

fn main() {
    let stick = Stick { omega_n: 2.0, max_mag: 1.0, max_rate: 1.0 };
    let said = |error: Option<String>| println!("{}", error.unwrap_or_else(|| "set up".to_string()));
    said(Image::set_up(&SetUp::falcon_quad()).err().map(|refusal| refusal.to_string()));
    said(Desk::set_up(&DeskSetUp { heading: stick, turn: stick, zoom: stick }).err().map(|refusal| refusal.to_string()));
}
"#;

#[test]
fn an_archive_of_another_version() {
    let folder = Folder(std::env::temp_dir().join(format!("fosavalo-version-{}", std::process::id())));
    let own = checkout().join("target/staticlib").join(format!("{ARCH}-{OS}"));
    let own = std::env::var_os("FOSAVALO_LIB_DIR").map_or(own, PathBuf::from);
    let host = checkout().join("host");
    let manifest = folder.write(
        "Cargo.toml",
        &format!(
            "[package]\nname = \"asked\"\nversion = \"0.0.0\"\nedition = \"2021\"\n\n[dependencies]\nfosavalo = {{ path = {:?} }}\nfosavalo-desk = {{ path = {:?} }}\n",
            host.join("fosavalo"),
            host.join("fosavalo-desk")
        ),
    );
    folder.write("src/main.rs", PROGRAM);
    let said = || {
        let mut run = Command::new("cargo");
        run.args(["run", "--quiet", "--offline", "--manifest-path"]).arg(&manifest);
        done(run.env("FOSAVALO_LIB_DIR", &folder.0).env("CARGO_TARGET_DIR", folder.0.join("target")))
    };
    let [major, minor, patch] = [env!("CARGO_PKG_VERSION_MAJOR"), env!("CARGO_PKG_VERSION_MINOR"), env!("CARGO_PKG_VERSION_PATCH")]
        .map(|part| part.parse::<u32>().expect("a number"));
    let number = |minor| (major << 16) + (minor << 8) + patch;
    let both = |core: u32, desk: u32| {
        folder.with_version(&own, "fosavalo", core);
        folder.with_version(&own, "fosavalo_desk", desk);
        said()
    };
    let told = |name: &str| {
        format!(
            "refused: lib{name}.a is of version {major}.{}.{patch}, its crate of {major}.{minor}.{patch}: link both of one release\n",
            minor - 1
        )
    };
    assert_eq!(both(number(minor), number(minor)), "set up\nset up\n");
    assert_eq!(both(number(minor - 1), number(minor)), told("fosavalo") + "set up\n");
    assert_eq!(both(number(minor), number(minor - 1)), "set up\n".to_string() + &told("fosavalo_desk"));
}

/// Each version up to this one has its entry, newest first, and up to 0.14 it names its request's note.
#[test]
fn every_version_has_its_entry() {
    let read = |path: &str| std::fs::read_to_string(checkout().join(path)).unwrap_or_else(|error| panic!("{path}: {error}"));
    let page = read("CHANGELOG.md");
    let entries: Vec<(&str, &str)> = page.split("\n## 0.").skip(1).filter_map(|entry| entry.split_once('\n')).collect();
    let minor: usize = env!("CARGO_PKG_VERSION_MINOR").parse().expect("a number");
    assert_eq!(
        entries.iter().map(|(number, _)| number.to_string()).collect::<Vec<_>>(),
        (1..=minor).rev().map(|n| n.to_string()).collect::<Vec<_>>()
    );
    for (number, entry) in &entries {
        let request: usize = number.parse().expect("a number");
        assert!(request > 14 || entry.contains(&format!("(docs/history/requests/{request:02}-")), "0.{number} names no request");
    }
    let tag = format!("`v{}`", env!("CARGO_PKG_VERSION"));
    assert!(page.contains(&tag) && read("CONTRIBUTING.md").contains(&tag), "{tag} is named in both");
    assert!(page.contains("\n## Known limits\n"));
}
