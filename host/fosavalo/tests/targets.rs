//! The C headers on every target that has an archive: no warning, lengths of 64 bits, and a question to the processor that no compiler answers.

use std::io::Write;
use std::path::{Path, PathBuf};
use std::process::{Command, Output, Stdio};
use std::sync::Once;

/// A target, what it is compiled with, and its sum of two floats.
type Target = (&'static str, &'static [&'static str], &'static str);

const TARGETS: [Target; 5] = [
    ("x86_64-unknown-linux-gnu", &[], "addss"),
    ("aarch64-unknown-linux-gnu", &[], "fadd"),
    ("riscv64-unknown-linux-gnu", &[], "fadd.s"),
    ("thumbv7em-none-eabihf", &["-mcpu=cortex-m4", "-mfpu=fpv4-sp-d16", "-mfloat-abi=hard"], "vadd.f32"),
    ("wasm32-unknown-unknown", &[], "f32.add"),
];

/// Those whose size_t has 32 bits.
const NARROW: [&str; 2] = ["thumbv7em-none-eabihf", "wasm32-unknown-unknown"];

const C: &[&str] = &["-xc", "-std=c99"];
const CPP: &[&str] = &["-xc++", "-std=c++11", "-Wold-style-cast"];

const WARNINGS: [&str; 6] = ["-Wall", "-Wextra", "-Wpedantic", "-Wconversion", "-Wsign-conversion", "-Werror"];

/// Each call that takes a length, as a pointer of its type; then lengths as they are given, and the environment asked for.
const PROGRAM: &str = r#"#include "fosavalo_desk.h"

uint32_t (*set_up)(uint8_t *, uint64_t, const uint8_t *, uint64_t) = fosavalo_setup;
uint32_t (*exchange)(uint8_t *, uint64_t, const uint8_t *, uint64_t) = fosavalo_exchange;
uint32_t (*tick)(uint8_t *, uint64_t, const uint8_t *, uint64_t, uint8_t *, uint64_t) = fosavalo_tick;
uint32_t (*tick_refusal)(const uint8_t *, uint64_t, uint64_t, uint64_t) = fosavalo_tick_refusal;
uint32_t (*route_tick)(uint8_t *, uint64_t, const uint8_t *, uint64_t, const uint8_t *, uint64_t, uint8_t *, uint64_t) = fosavalo_route_tick;
uint32_t (*route_sample)(const uint8_t *, uint64_t, float, uint8_t *, uint64_t) = fosavalo_route_sample;
uint32_t (*log_append)(uint8_t *, uint64_t, uint64_t, const uint8_t *, uint64_t, const uint8_t *, uint64_t) = fosavalo_log_append;
uint32_t (*log_count)(const uint8_t *, uint64_t, uint8_t *, uint64_t) = fosavalo_log_count;
uint32_t (*log_record)(const uint8_t *, uint64_t, uint64_t, uint8_t *, uint64_t) = fosavalo_log_record;
uint32_t (*log_check)(const uint8_t *, uint64_t, uint32_t, float, float, uint8_t *, uint64_t) = fosavalo_log_check;
uint32_t (*flags)(const uint8_t *, uint64_t, float, float, uint8_t *, uint64_t) = fosavalo_flags;
uint32_t (*pattern_expand)(const uint8_t *, uint64_t, uint8_t *, uint64_t, uint8_t *, uint64_t) = fosavalo_pattern_expand;
uint32_t (*desk_setup)(uint8_t *, uint64_t, const uint8_t *, uint64_t) = fosavalo_desk_setup;
uint32_t (*desk_centre)(uint8_t *, uint64_t) = fosavalo_desk_centre;
uint32_t (*desk_tick)(uint8_t *, uint64_t, const uint8_t *, uint64_t, uint8_t *, uint64_t, uint8_t *, uint64_t, uint8_t *, uint64_t) = fosavalo_desk_tick;
uint32_t (*desk_route_tick)(uint8_t *, uint64_t, const uint8_t *, uint64_t, uint8_t *, uint64_t, uint8_t *, uint64_t, const uint8_t *, uint64_t, uint8_t *, uint64_t) = fosavalo_desk_route_tick;

static uint8_t image[FOSAVALO_IMAGE_BYTES], input[FOSAVALO_SETUP_BYTES];
uint32_t begun(void);
uint32_t begun(void) { return fosavalo_setup(image, sizeof image, input, FOSAVALO_SETUP_BYTES); }

uint32_t asked(void);
uint32_t asked(void) { return fosavalo_float_environment(); }
"#;

fn checkout() -> PathBuf {
    PathBuf::from(std::env::var_os("CARGO_MANIFEST_DIR").expect("cargo runs the tests")).join("../..")
}

fn text(path: &str) -> String {
    std::fs::read_to_string(checkout().join(path)).unwrap_or_else(|error| panic!("{path}: {error}"))
}

// under an emulator one that is missing begins too, and fails
fn there(compiler: &str) -> bool {
    Command::new(compiler).arg("--version").output().is_ok_and(|said| said.status.success())
}

/// The targets that can be compiled for: all by clang, or none. That is said past the harness, which shows nothing of a test that passes.
fn targets() -> &'static [Target] {
    static SAID: Once = Once::new();
    if there("clang") {
        return &TARGETS;
    }
    SAID.call_once(|| {
        let _ = writeln!(std::io::stderr(), "no clang in PATH: the headers are tried with this machine's own gcc and g++ alone");
    });
    &[]
}

fn compile(compiler: &str, words: &[&[&str]], include: &Path, program: &str) -> Output {
    let mut command = Command::new(compiler);
    command.arg("-ffreestanding").args(WARNINGS).args(words.concat()).arg("-I").arg(include).arg("-");
    let piped = command.stdin(Stdio::piped()).stdout(Stdio::piped()).stderr(Stdio::piped());
    let mut child = piped.spawn().unwrap_or_else(|error| panic!("{compiler}: {error}"));
    // it may end before it has read all
    let _ = child.stdin.take().expect("a pipe").write_all(program.as_bytes());
    child.wait_with_output().expect("it ends")
}

fn compile_for((name, words, _): Target, more: &[&[&str]], include: &Path, program: &str) -> Output {
    compile("clang", &[&[&format!("--target={name}")], words, &more.concat()], include, program)
}

fn heard(said: &Output) -> std::borrow::Cow<'_, str> {
    String::from_utf8_lossy(&said.stderr)
}

#[test]
fn no_warning_on_any_target() {
    let include = checkout().join("include");
    let targets = targets();
    for program in ["#include \"fosavalo.h\"\n", "#include \"fosavalo_desk.h\"\n", PROGRAM] {
        for (own, language) in [("gcc", C), ("g++", CPP)] {
            if own == "gcc" || there(own) {
                let said = compile(own, &[language, &["-fsyntax-only"]], &include, program);
                assert!(said.status.success(), "{own}: {}", heard(&said));
            }
            for target in targets {
                let said = compile_for(*target, &[language, &["-fsyntax-only"]], &include, program);
                assert!(said.status.success(), "{}, {language:?}: {}", target.0, heard(&said));
            }
        }
    }
}

/// Gone with what is in it.
struct Folder(PathBuf);

impl Drop for Folder {
    fn drop(&mut self) {
        let _ = std::fs::remove_dir_all(&self.0);
    }
}

/// A header's calls that take a length: the line, the call's name, and what it is given.
fn with_lengths(header: &str) -> impl Iterator<Item = (&str, &str, Vec<&str>)> {
    let calls = header.lines().filter_map(|line| Some((line, line.strip_prefix("uint32_t ")?.strip_suffix(");")?.split_once('(')?)));
    calls.map(|(line, (name, given))| (line, name, given.split(", ").collect())).filter(|(line, ..)| line.contains("_len"))
}

/// A length as size_t would be 32 bits wide where the call reads 64. Each of them so declared is noticed by the program above.
#[test]
fn no_length_is_as_wide_as_an_address() {
    for name in ["fosavalo", "fosavalo-desk"] {
        let crate_own = text(&format!("host/{name}/src/calls.rs"));
        let raw = crate_own.split_once("mod raw {").and_then(|(_, after)| after.split_once("\n}\n")).expect("it declares them").0;
        assert!(raw.contains("_len: u64") && !raw.contains("usize"), "{raw}");
    }

    let folder = Folder(std::env::temp_dir().join(format!("fosavalo-targets-{}", std::process::id())));
    std::fs::create_dir_all(&folder.0).expect("a folder for a header that is wrong");
    let write = |name: &str, text: &str| std::fs::write(folder.0.join(name), text).expect("it is written");
    let headers = ["fosavalo.h", "fosavalo_desk.h"].map(|name| (name, text(&format!("include/{name}"))));
    headers.iter().for_each(|(name, header)| write(name, header));
    let narrow: Vec<Target> = targets().iter().filter(|target| NARROW.contains(&target.0)).copied().collect();
    let mut calls = 0;
    for (name, header) in &headers {
        for (line, call, given) in with_lengths(header) {
            assert!(PROGRAM.contains(&format!(" = {call};\n")), "the program has no pointer for {call}");
            calls += 1;
            for length in given.iter().filter(|given| given.ends_with("_len")) {
                assert!(length.starts_with("uint64_t "), "{line}");
                let wrong = line.replace(length, &length.replace("uint64_t", "size_t"));
                write(name, &format!("#include <stddef.h>\n{}", header.replace(line, &wrong)));
                for target in &narrow {
                    let said = compile_for(*target, &[C, &["-fsyntax-only"]], &folder.0, PROGRAM);
                    assert!(heard(&said).contains("incompatible function pointer types"), "{}: {wrong}", target.0);
                }
            }
        }
        write(name, header);
    }
    assert_eq!(calls, PROGRAM.matches("= fosavalo_").count());
}

/// The environment is found by computing on targets too that this machine is none of: three sums, and nothing called for.
#[test]
fn no_compiler_answers_for_the_processor() {
    let include = checkout().join("include");
    for target in targets() {
        for level in ["-O1", "-O3"] {
            for language in [C, CPP] {
                for exact in [&[][..], &["-ffast-math"]] {
                    let said = compile_for(*target, &[language, exact, &[level, "-S", "-o-"]], &include, PROGRAM);
                    let code = String::from_utf8_lossy(&said.stdout);
                    let sums = code.lines().filter(|line| line.split_whitespace().next() == Some(target.2)).count();
                    assert_eq!(sums, 3, "{}, {level}, {language:?}, {exact:?}: {}", target.0, heard(&said));
                    assert!(!code.contains("memcpy"), "{}, {level}, {language:?}, {exact:?}", target.0);
                }
            }
        }
    }
}
