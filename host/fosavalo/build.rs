use std::path::{absolute, Path, PathBuf};
use std::process::Command;
use std::{env, fs};

/// Links the archive that the manifest's `links` names: from FOSAVALO_LIB_DIR where that is set; in a checkout from where `make archives` puts that of the
/// machine that is built for; in an unpacked distribution from its lib/; else from where pkg-config has it.
///
/// In a copy of the checkout cargo takes what this printed in the original as current. So it prints no path of the checkout: the archive is
/// named from the package, in whose folder a build script runs, and linked as a copy in OUT_DIR, which cargo replaces by the copy's own.
fn main() {
    for name in ["FOSAVALO_LIB_DIR", "PKG_CONFIG", "PKG_CONFIG_PATH"] {
        println!("cargo:rerun-if-env-changed={name}");
    }
    let (name, out) = (set_by_cargo("CARGO_MANIFEST_LINKS"), set_by_cargo("OUT_DIR"));
    let (arch, os) = (set_by_cargo("CARGO_CFG_TARGET_ARCH"), set_by_cargo("CARGO_CFG_TARGET_OS"));
    let target = if os == "none" { set_by_cargo("TARGET") } else { format!("{arch}-{os}") };
    let archive = folder(&name, &target).join(format!("lib{name}.a"));
    println!("cargo:rerun-if-changed={}", archive.display());
    let place = absolute(&archive).unwrap_or(archive.clone());
    let wanted =
        format!("run `make archives` at the top of the repository, or set FOSAVALO_LIB_DIR to the folder of an archive for {target}");
    let bytes = fs::read(&archive).unwrap_or_else(|error| fail(&format!("{}: {error}; {wanted}", place.display())));
    match machine(&bytes) {
        Some(own) if own == arch => {}
        Some(other) => fail(&format!("{} is for {other}, and what is built is for {target}; {wanted}", place.display())),
        None => fail(&format!("{} is no archive of ELF objects; {wanted}", place.display())),
    }
    let linked = Path::new(&out).join(format!("lib{name}.a"));
    fs::write(&linked, bytes).unwrap_or_else(|error| fail(&format!("{}: {error}", linked.display())));
    println!("cargo:rustc-link-search=native={out}");
    println!("cargo:rustc-link-lib=static={name}");
}

fn folder(name: &str, target: &str) -> PathBuf {
    if let Some(given) = env::var_os("FOSAVALO_LIB_DIR") {
        return PathBuf::from(given);
    }
    let (checkout, unpacked) = (Path::new("../../target/staticlib").join(target), Path::new("../../lib").join(target));
    if Path::new("../../crates.txt").exists() {
        checkout
    } else if unpacked.join(format!("lib{name}.a")).exists() {
        unpacked
    } else {
        installed(name).unwrap_or(checkout)
    }
}

fn installed(name: &str) -> Option<PathBuf> {
    let program = env::var_os("PKG_CONFIG").unwrap_or("pkg-config".into());
    let said = Command::new(program).args(["--variable=libdir", name]).output().ok().filter(|said| said.status.success())?;
    Some(PathBuf::from(String::from_utf8(said.stdout).ok()?.trim()))
}

/// The machine of an archive's first ELF object, by cargo's name for it.
fn machine(archive: &[u8]) -> Option<String> {
    let mut members = archive.strip_prefix(b"!<arch>\n")?;
    // a member: 60 bytes of header, of which ten are its length in decimal, and its own, even in number
    loop {
        let length: usize = std::str::from_utf8(members.get(48..58)?).ok()?.trim_end().parse().ok()?;
        let member = members.get(60..)?.get(..length)?;
        if let [0x7f, b'E', b'L', b'F', class, ..] = member {
            let number = u16::from_le_bytes(member.get(18..20)?.try_into().ok()?);
            return Some(match (number, class) {
                (62, _) => "x86_64".to_string(),
                (183, _) => "aarch64".to_string(),
                (243, 2) => "riscv64".to_string(),
                (40, _) => "arm".to_string(),
                _ => format!("ELF's machine {number}"),
            });
        }
        members = members.get(60 + length + length % 2..)?;
    }
}

fn set_by_cargo(name: &str) -> String {
    env::var(name).unwrap_or_else(|error| fail(&format!("{name}, which cargo sets: {error}")))
}

fn fail(text: &str) -> ! {
    eprintln!("{text}");
    std::process::exit(1)
}
