//! The C header, by programs that are compiled and run: what it says is what the crate, the core and its definitions say.

use fosavalo::{
    Refusal, ANSWER_BYTES, DEEPEST_REPEAT, EMPTY_LOG, IMAGE_BYTES, LEG_BYTES, LOG_RIGHT, LOG_TRAILER_BYTES, MOST_LEGS, MOST_MARGINS,
    MOST_RECORDS,
};
use fosavalo::{Route, Segment, SetUp, TickInput, RECORD_BYTES, ROUTE_TRAILER_BYTES, SAMPLE_BYTES, SETUP_BYTES, TICK_BYTES};
use std::collections::BTreeSet;
use std::env::consts::{ARCH, OS};
use std::path::{Path, PathBuf};
use std::process::Command;

/// Cargo says where the crate is when it runs the tests.
fn crate_folder() -> PathBuf {
    PathBuf::from(std::env::var_os("CARGO_MANIFEST_DIR").expect("cargo runs the tests"))
}

fn include() -> PathBuf {
    crate_folder().join("../../include")
}

fn text(path: &str) -> String {
    let path = crate_folder().join("../..").join(path);
    std::fs::read_to_string(&path).unwrap_or_else(|error| panic!("{}: {error}", path.display()))
}

/// A folder for what is compiled, gone with it.
struct Work(PathBuf);

impl Work {
    fn new(name: &str) -> Self {
        let folder = std::env::temp_dir().join(format!("fosavalo-{name}-{}", std::process::id()));
        std::fs::create_dir_all(&folder).expect("a folder for what is compiled");
        Work(folder)
    }

    fn write(&self, name: &str, text: &str) -> PathBuf {
        let path = self.0.join(name);
        std::fs::write(&path, text).expect("it is written");
        path
    }

    /// Compiles the program with this compiler and links it with gcc, each with its flags.
    fn build(&self, compiler: &str, include: &Path, program: &Path, compile: &[&str], link: &[&str]) -> Command {
        let (object, built) = (self.0.join("program.o"), self.0.join("program"));
        let mut first = Command::new(compiler);
        first.args(["-Wall", "-Wextra", "-Wpedantic", "-Werror"]).args(compile).arg("-I").arg(include);
        done(first.arg("-c").arg(program).arg("-o").arg(&object));
        let own = crate_folder().join("../../target/staticlib").join(format!("{ARCH}-{OS}"));
        let archive = std::env::var_os("FOSAVALO_LIB_DIR").map_or(own, PathBuf::from).join("libfosavalo.a");
        done(Command::new("gcc").args(link).arg(&object).arg(archive).arg("-lm").arg("-o").arg(&built));
        Command::new(&built)
    }

    /// And gives what it prints.
    fn run(&self, compiler: &str, include: &Path, program: &Path, compile: &[&str], link: &[&str]) -> String {
        done(&mut self.build(compiler, include, program, compile, link))
    }
}

/// What it prints, where it succeeds.
fn done(command: &mut Command) -> String {
    let said = command.output().unwrap_or_else(|error| panic!("{command:?}: {error}"));
    assert!(said.status.success(), "{command:?}: {}", String::from_utf8_lossy(&said.stderr));
    String::from_utf8(said.stdout).expect("plain text")
}

impl Drop for Work {
    fn drop(&mut self) {
        let _ = std::fs::remove_dir_all(&self.0);
    }
}

/// gcc, which the repository asks for, and of the others those that are there.
fn compilers() -> Vec<(&'static str, &'static [&'static str])> {
    let all: [(&str, &[&str]); 4] =
        [("gcc", &["-std=c11"]), ("clang", &["-std=c11"]), ("g++", &["-std=c++17", "-xc++"]), ("clang++", &["-std=c++17", "-xc++"])];
    // under an emulator one that is missing begins too, and fails
    let there = |name: &str| Command::new(name).arg("--version").output().is_ok_and(|said| said.status.success());
    all.into_iter().filter(|(name, _)| *name == "gcc" || there(name)).collect()
}

/// Rounding by `fesetround`, subnormal numbers by what `-ffast-math` links; told in every build, and never where nothing is wrong.
#[test]
fn the_environment() {
    let (work, program) = (Work::new("environment"), crate_folder().join("tests/c/environment.c"));
    let lost = if cfg!(target_arch = "x86_64") { "2 2" } else { "2" };
    let (right, wrong) = (format!("0, 1 1 1 0, {lost}, 000116c2 00022d84\n"), format!("2, 3 3 3 2, {lost}, 3dcccccd 3e4ccccd\n"));
    for (compiler, language) in compilers() {
        let run = |compile: &[&str], link: &[&str]| work.run(compiler, &include(), &program, &[language, compile].concat(), link);
        for level in ["-O0", "-O3"] {
            assert_eq!(run(&[level], &[]), right, "{compiler} {level}");
            // code so compiled in a program that is not so linked
            assert_eq!(run(&[level, "-ffast-math"], &[]), right, "{compiler} {level}");
            assert_eq!(run(&[level, "-ffast-math"], &["-ffast-math"]), wrong, "{compiler} {level}");
            assert_eq!(run(&[level], &["-ffast-math"]), wrong, "{compiler} {level}");
            // on x86-64 gcc can have the program's own floats on another unit than the core's; other machines have but one
            if cfg!(target_arch = "x86_64") && compiler.starts_with('g') {
                assert_eq!(run(&[level, "-mfpmath=387"], &[]), right, "{compiler} {level}");
                assert_eq!(run(&[level, "-mfpmath=387", "-ffast-math"], &["-ffast-math"]), wrong, "{compiler} {level}");
            }
        }
    }
}

/// The example asks before it sets up.
#[test]
fn the_example_asks_first() {
    let (work, program) = (Work::new("example"), crate_folder().join("../../examples/c/main.c"));
    let said = work.build("gcc", &include(), &program, &["-std=c11"], &["-ffast-math"]).output().expect("it runs");
    let text = String::from_utf8_lossy(&said.stdout);
    assert_eq!((said.status.code(), text.lines().count()), (Some(1), 1), "{text}");
    assert!(text.starts_with("the floating-point environment is wrong: it does not keep subnormal numbers"), "{text}");
}

/// Both examples show where the error that a tick is given comes from: the sample at the image's time.
#[test]
fn the_examples_work_the_tracking_error_out() {
    for (path, shown) in [
        (
            "examples/c/main.c",
            ["fosavalo_route_sample(route, route_len, time, ", "fosavalo_put(input, FOSAVALO_TICK_TRACKING_ERROR, apart)"],
        ),
        ("examples/rust/src/main.rs", [".sample(image.time())?.position", "tracking_error, planner"]),
    ] {
        shown.iter().for_each(|line| assert!(text(path).contains(line), "{path}: {line}"));
    }
}

/// A buffer of length 0 may be NULL: the call refuses its length.
#[test]
fn nothing_at_all() {
    let (work, program) = (Work::new("nothing"), crate_folder().join("tests/c/nothing.c"));
    for (compiler, language) in compilers() {
        let said = work.run(compiler, &include(), &program, &[language, &["-O2"]].concat(), &[]);
        assert_eq!(said, "1 1 2 1 2 1 1 2 3 1 1 6 3 6 2 8 3 2 8 14 8 2 8 2 0 9 9 2 5 9 unchanged\n", "{compiler}");
    }
}

/// What C makes of these expressions, as whole numbers or as text.
fn values(name: &str, format: &str, expressions: &[String]) -> Vec<String> {
    let work = Work::new(name);
    let lines: String = expressions.iter().map(|expression| format!("    printf(\"{format}\\n\", {expression});\n")).collect();
    let program = format!("#include \"fosavalo.h\"\n#include <stdio.h>\n\nint main(void) {{\n{lines}    return 0;\n}}\n");
    let program = work.write("values.c", &program);
    let said = work.run("gcc", &include(), &program, &["-std=c11"], &[]);
    said.lines().map(str::to_string).collect()
}

fn numbers(name: &str, expressions: &[String]) -> Vec<usize> {
    let numbers: Vec<String> = expressions.iter().map(|expression| format!("(unsigned long)({expression})")).collect();
    values(name, "%lu", &numbers).iter().map(|number| number.parse().expect("a whole number")).collect()
}

#[test]
fn lengths_numbers_and_words() {
    let lengths = [
        ("IMAGE_BYTES", IMAGE_BYTES),
        ("SETUP_BYTES", SETUP_BYTES),
        ("TICK_BYTES", TICK_BYTES),
        ("ANSWER_BYTES", ANSWER_BYTES),
        ("LEG_BYTES", LEG_BYTES),
        ("ROUTE_TRAILER_BYTES", ROUTE_TRAILER_BYTES),
        ("MOST_LEGS", MOST_LEGS),
        ("SAMPLE_BYTES", SAMPLE_BYTES),
        ("RECORD_BYTES", RECORD_BYTES),
        ("LOG_TRAILER_BYTES", LOG_TRAILER_BYTES),
        ("MOST_RECORDS", MOST_RECORDS),
        ("MOST_MARGINS", MOST_MARGINS),
        ("LOG_RIGHT", LOG_RIGHT as usize),
        ("DEEPEST_REPEAT", DEEPEST_REPEAT),
    ];
    let refusals = [
        ("WRONG_IMAGE_LENGTH", Refusal::ImageLength),
        ("WRONG_INPUT_LENGTH", Refusal::InputLength),
        ("WRONG_ANSWER_LENGTH", Refusal::AnswerLength),
        ("BROKEN_IMAGE", Refusal::BrokenImage),
        ("WRONG_LEG_COUNT", Refusal::LegCount),
        ("WRONG_ROUTE_LENGTH", Refusal::RouteLength),
        ("LEGS_APART", Refusal::LegsApart(None)),
        ("BROKEN_LOG", Refusal::BrokenLog),
        ("NO_ROOM", Refusal::NoRoom),
        ("WRONG_PROFILE", Refusal::WrongProfile),
        ("PASS_THROUGH", Refusal::PassThrough),
        ("BROKEN_PATTERN", Refusal::BrokenPattern),
        ("NO_RECORD", Refusal::NoRecord),
        ("WRONG_RECORD_LENGTH", Refusal::RecordLength),
    ];
    let numbered = refusals.map(|(name, refusal)| (name, refusal.number().expect("the core's own") as usize));
    let all = || lengths.iter().chain(&numbered);
    let names: Vec<String> = all().map(|(name, _)| format!("FOSAVALO_{name}")).collect();
    assert_eq!(numbers("numbers", &names), all().map(|(_, number)| *number).collect::<Vec<_>>());

    // the crate has the same words for each number, and both have words for the same ones
    let said = values("meanings", "%s", &(1..40u32).map(|number| format!("fosavalo_meaning({number}u)")).collect::<Vec<_>>());
    let own: Vec<String> = (1..40).filter_map(|number| Some(Refusal::from_number(number).err()?.meaning().to_string())).collect();
    assert_eq!(said, own);

    let input = format!("2: the input is not {SETUP_BYTES} bytes long at set-up, {LEG_BYTES} at an exchange, {TICK_BYTES} at a tick");
    assert!(text("host/fosavalo/src/refusal.rs").contains(&input), "{input}");

    let empty: Vec<String> = (0..EMPTY_LOG.len()).map(|at| format!("((const uint8_t[])FOSAVALO_EMPTY_LOG)[{at}]")).collect();
    assert_eq!(numbers("empty", &empty), EMPTY_LOG.map(usize::from));
    assert_eq!(values("version", "%s", &["FOSAVALO_VERSION".to_string()]), [env!("CARGO_PKG_VERSION")]);
}

/// At each call that may return 2, 9 or 12, which other faults share, the header says which of them its own is.
#[test]
fn each_call_says_what_its_numbers_mean() {
    let header = text("include/fosavalo.h");
    for (call, own) in [
        ("setup", &["2 if input_len is not FOSAVALO_SETUP_BYTES"][..]),
        ("exchange", &["2 if segment_len is not FOSAVALO_LEG_BYTES"]),
        ("tick", &["2 if input_len is not FOSAVALO_TICK_BYTES"]),
        ("route_tick", &["up to 4 as a tick"]),
        (
            "log_append",
            &[
                "2 or 3 if the input",
                "9 if under FOSAVALO_RECORD_BYTES of the buffer are beyond the log, or the log has FOSAVALO_MOST_RECORDS",
            ],
        ),
        ("log_count", &["2 if count_len is not 4"]),
        ("log_check", &["2 if verdict_len is not 4"]),
        ("flags", &["9 if flags_len is above FOSAVALO_MOST_MARGINS or margins_len is not four times flags_len"]),
        (
            "pattern_expand",
            &["2 if written_len is not 4", "9 if the route is longer than its buffer", "It is 12 if anywhere an item begins with neither"],
        ),
    ] {
        let before = header.split(&format!("\nuint32_t fosavalo_{call}(")).next().unwrap_or_default();
        let note = before.rsplit("/* ").next().unwrap_or_default().replace("\n * ", " ");
        assert!(own.iter().all(|own| note.contains(own)), "{call}: {note}");
    }
}

/// The numbers of `crates/image/specs/Layout.antt`, by name.
struct Layout(String);

impl Layout {
    fn number(&self, name: &str) -> usize {
        // some have the language's spelling in place of the document's, and some of those a word more
        let plain = name.to_lowercase().replace('-', "_");
        let spellings = [name.to_string(), format!("{plain}_word"), plain];
        let of = |name: &String| self.0.lines().find_map(|line| line.strip_prefix(name.as_str())?.strip_prefix(" = "));
        let is = spellings.iter().find_map(of);
        // a note may follow
        is.and_then(|number| number.split("  -- ").next()?.parse().ok()).unwrap_or_else(|| panic!("{name} is no number of the layout"))
    }
}

/// The fields of a definition of `crates/image/specs/Parts.antt`, in its order: `q.c5`, `q.t_end` of a list, `p0 =` of a record.
fn fields(parts: &str, definition: &str) -> Vec<String> {
    let after = parts.split(&format!("\n{definition} =")).nth(1).unwrap_or_else(|| panic!("{definition} is not defined"));
    let own: Vec<&str> = after.split("\n\n").next().unwrap_or_default().split_whitespace().collect();
    let record = own.windows(2).filter(|two| two[1] == "=").map(|two| two[0]);
    let whole = definition.rsplit(' ').next().unwrap_or_default();
    let list = own.iter().filter_map(|word| word.strip_prefix(whole)?.strip_prefix('.'));
    record.chain(list).map(|word| word.trim_matches(['«', '»', ')'].as_slice()).to_string()).collect()
}

/// Each word of the image, the inputs and the answer has its macro, where the proved definitions have the field.
#[test]
fn words_stand_where_the_definitions_have_them() {
    let (layout, parts) = (Layout(text("crates/image/specs/Layout.antt")), text("crates/image/specs/Parts.antt"));
    // a block: the buffer, where it starts, its macros, how many words each takes, and on how many axes it stands
    let block = |buffer: &str, start: &str, names: &[&str], width: usize, axes: usize| {
        (format!("FOSAVALO_{buffer}_"), layout.number(start), names.iter().map(|name| name.to_uppercase()).collect::<Vec<_>>(), width, axes)
    };
    let of = |definition: &str, instead: &[(&str, &str)], before: &str| -> Vec<String> {
        let renamed =
            |field: &String| instead.iter().find(|(own, _)| own == field).map_or(format!("{before}{field}"), |(_, name)| name.to_string());
        fields(&parts, definition).iter().map(renamed).collect()
    };
    let (gains, set) = (of("floats_of_gains g", &[], ""), of("floats_of_set s", &[("k_r", "set_k_r")], ""));
    let adrc = of("floats_of_adrc_gains g", &[], "");
    let mut axis = of("floats_of_axis a", &[("u_delivered_frac", "fraction")], "");
    assert_eq!(axis.pop().as_deref(), Some("g"));
    axis.extend(adrc.clone());
    let governor = of("floats_of_governor g", &[("s", "time")], "");
    let (quintic, biquad) = (of("floats_of_quintic q", &[], ""), of("floats_of_biquad f", &[], "filter_"));
    let leg = of("leg_at b k", &[], "");
    let (leg_vectors, leg_time) = leg.split_at(6);
    fn names(all: &[String]) -> Vec<&str> {
        all.iter().map(String::as_str).collect()
    }
    let image = [
        block("IMAGE", "COUNT", &["count"], 1, 1),
        block("IMAGE", "GAINS", &names(&gains), 3, 1),
        block("IMAGE", "SET", &names(&set), 1, 1),
        block("IMAGE", "ENTER", &["enter"], 1, 1),
        block("IMAGE", "EXIT", &["exit"], 1, 1),
        block("IMAGE", "ENGAGED", &["engaged"], 1, 1),
        block("IMAGE", "GOVERNOR", &names(&governor), 1, 1),
        block("IMAGE", "SEGMENT", &names(&quintic), 1, 3),
        block("IMAGE", "RATE", &names(&axis), 1, 3),
        block("IMAGE", "LPF", &names(&biquad), 1, 3),
        block("IMAGE", "PROFILE", &["profile"], 1, 1),
        block("IMAGE", "PEAKS", &["peaks"], 3, 1),
    ];
    let set_up = [
        block("SETUP", "SETUP-GAINS", &names(&gains), 3, 1),
        block("SETUP", "SETUP-SET", &names(&set), 1, 1),
        block("SETUP", "SETUP-ENTER", &["enter"], 1, 1),
        block("SETUP", "SETUP-EXIT", &["exit"], 1, 1),
        block("SETUP", "SETUP-BAND", &names(&governor[1..]), 1, 1),
        block("SETUP", "SETUP-LEG", &["leg"], LEG_BYTES / 4, 1),
        block("SETUP", "SETUP-ADRC", &names(&adrc), 1, 3),
        block("SETUP", "SETUP-FC", &["fc"], 1, 1),
        block("SETUP", "SETUP-FS", &["fs"], 1, 1),
        block("SETUP", "SETUP-PROFILE", &["profile"], 1, 1),
    ];
    let input = [
        block("TICK", "GYRO", &["gyro"], 3, 1),
        block("TICK", "QUAT", &["attitude"], 4, 1),
        block("TICK", "TRACK-ERR", &["tracking_error"], 1, 1),
        block("TICK", "YAW", &["yaw"], 1, 1),
        block("TICK", "YAW-RATE", &["yaw_rate"], 1, 1),
        block("TICK", "DT", &["dt"], 1, 1),
        block("TICK", "AGILE", &["planner"], 3, 1),
        block("TICK", "FRACTION", &["delivered"], 3, 1),
    ];
    let answer = [
        block("ANSWER", "TORQUE", &["torque"], 3, 1),
        block("ANSWER", "COMMAND", &["command"], 3, 1),
        block("ANSWER", "FLAG", &["flag"], 1, 1),
        block("ANSWER", "TIME", &["time"], 1, 1),
        block("ANSWER", "PSI", &["psi"], 1, 1),
        block("ANSWER", "MARGIN", &["margin"], 1, 1),
    ];
    let leg = [
        ("FOSAVALO_LEG_".to_string(), 0, leg_vectors.iter().map(|name| name.to_uppercase()).collect(), 3, 1),
        ("FOSAVALO_LEG_".to_string(), 18, leg_time.iter().map(|name| name.to_uppercase()).collect(), 1, 1),
    ];
    // the leg, and four vectors; that they are these, the comparison with the Rust shows
    let vectors = ["POSITION", "VELOCITY", "ACCELERATION", "JERK"].map(str::to_string).to_vec();
    let sample = [("FOSAVALO_SAMPLE_".to_string(), 0, vec!["LEG".to_string()], 1, 1), ("FOSAVALO_SAMPLE_".to_string(), 1, vectors, 3, 1)];
    let mut expected: Vec<(String, usize)> = Vec::new();
    for (blocks, words) in [
        (&image[..], layout.number("IMAGE-WORDS")),
        (&set_up, layout.number("SETUP-WORDS")),
        (&input, layout.number("INPUT-WORDS")),
        (&answer, layout.number("ANSWER-WORDS")),
        (&leg, layout.number("LEG-WORDS")),
        (&sample, SAMPLE_BYTES / 4),
    ] {
        let mut at = 0;
        for (buffer, start, names, width, axes) in blocks {
            assert_eq!(at, *start, "{buffer}{names:?} does not follow what stands before it");
            for axis in 0..*axes {
                let own = names.iter().map(|name| if *axes == 1 { format!("{buffer}{name}") } else { format!("{buffer}{name}({axis})") });
                expected.extend(own.zip((at..).step_by(*width)));
                at += width * names.len();
            }
        }
        assert_eq!(at, words, "not every word has its macro");
    }
    let expressions: Vec<String> = expected.iter().map(|(name, _)| name.clone()).collect();
    let said: Vec<(String, usize)> = expressions.iter().cloned().zip(numbers("words", &expressions)).collect();
    assert_eq!(said, expected);

    // and the header has no other
    let plain = |name: &str| name.split('(').next().unwrap_or_default().to_string();
    let header = text("include/fosavalo.h");
    let buffers = ["IMAGE_", "SETUP_", "TICK_", "ANSWER_", "LEG_", "SAMPLE_"];
    let defined = header.lines().filter_map(|line| line.strip_prefix("#define FOSAVALO_")?.split_whitespace().next());
    let defined = defined.filter(|name| buffers.iter().any(|buffer| name.starts_with(buffer)) && !name.ends_with("_BYTES"));
    let defined: BTreeSet<String> = defined.map(|name| format!("FOSAVALO_{}", plain(name))).collect();
    assert_eq!(defined, expressions.iter().map(|name| plain(name)).collect());
}

/// The helpers put words where the crate puts them, and read them back: the default set-up is the crate's, and so are the default tick and a route's end.
#[test]
fn what_is_put_by_default() {
    let (work, program) = (Work::new("default"), crate_folder().join("tests/c/default.c"));
    let hex = |bytes: &[u8]| bytes.iter().map(|byte| format!("{byte:02x}")).collect::<String>();
    let rest = SetUp::falcon_quad().segment;
    let out = Segment { pf: [3.0, -0.5, 0.1], t: 8.0, ..rest };
    let route = Route::new(&[rest, out]).expect("its legs meet");
    let expected = [
        hex(&SetUp::falcon_quad().to_bytes()),
        hex(&TickInput::default().to_bytes()),
        hex(route.as_bytes()),
        "efbeadde deadbeef c0490fdb -3.14159274".to_string(),
    ];
    for (compiler, language) in compilers() {
        let said = work.run(compiler, &include(), &program, &[language, &["-O2"]].concat(), &[]);
        assert_eq!(said.lines().collect::<Vec<_>>(), expected, "{compiler}");
    }
}

/// A header of another version is found out.
#[test]
fn a_header_of_another_version() {
    let header = text("include/fosavalo.h");
    let work = Work::new("fits");
    let program =
        "#include \"fosavalo.h\"\n#include <stdio.h>\n\nint main(void) {\n    printf(\"%d\", fosavalo_header_fits());\n    return 0;\n}\n";
    let program = work.write("fits.c", program);
    let fits = |header: &str| {
        work.write("fosavalo.h", header);
        work.run("gcc", &work.0, &program, &["-std=c11"], &[])
    };
    assert_eq!(fits(&header), "1");
    for part in ["MAJOR", "MINOR", "PATCH"] {
        let line = header.lines().find(|line| line.starts_with(&format!("#define FOSAVALO_VERSION_{part} "))).expect("the header has it");
        assert_eq!(fits(&header.replace(line, &format!("{line}1"))), "0", "{part}");
    }
}
