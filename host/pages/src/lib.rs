//! crates/MAP.md: a line for each routine of the Rust, with our file, its promise and its tests, as the sources have them.

pub mod definitions;
mod edits;
mod functions;
pub mod logic;
pub mod promises;
pub mod statements;

use functions::Function;
use std::fmt::Write;
use std::path::Path;

/// A module of the Rust: its number, its crate here, its text, the host's comparison, its routines in the Rust's order.
struct Module {
    number: &'static str,
    krate: &'static str,
    rust: &'static str,
    compared: &'static str,
    routines: &'static [&'static str],
}

const MODULES: [Module; 5] = [
    Module {
        number: "004",
        krate: "relay_math",
        rust: "relay-math/src/lib.rs",
        compared: "host/compare/src/numbers.rs",
        routines: &["sqrtf", "sinf", "cosf", "fabsf", "is_finite"],
    },
    Module {
        number: "000",
        krate: "relay_geo",
        rust: "relay-geo/plain/src/lib.rs",
        compared: "host/compare/src/table/geo.rs",
        routines: &[
            "GRAVITY_NED",
            "cross",
            "dot",
            "norm",
            "normalize",
            "identity3",
            "transpose3",
            "matmul3",
            "vee",
            "quat_to_rotmat",
            "desired_attitude",
            "thrust_axis_ned",
            "flatness_omega_ff",
            "GeoGains::FALCON_QUAD",
            "GeoAtt::new",
            "GeoAtt::psi",
            "GeoAtt::attitude_error",
            "GeoAtt::attitude_error_reduced",
            "GeoAtt::moment_reduced",
            "GeoAtt::moment",
            "GeoAtt::desired_rate",
            "GeoAtt::tick",
            "sanitise3",
            "RecoverableSet::new",
            "RecoverableSet::margin",
            "RecoverableSet::recoverable",
            "SimplexShield::new",
            "SimplexShield::fallback_engaged",
            "SimplexShield::filter",
            "SimplexShield::step",
        ],
    },
    Module {
        number: "001",
        krate: "relay_traj",
        rust: "relay-traj/plain/src/lib.rs",
        compared: "host/compare/src/table/traj.rs",
        routines: &[
            "fin",
            "Quintic::new",
            "Quintic::duration",
            "Quintic::eval",
            "Quintic::jerk_coeffs",
            "Quintic::peak_abs_jerk",
            "Sample",
            "Segment3::new",
            "Segment3::rest_to_rest",
            "Segment3::duration",
            "Segment3::eval",
            "Segment3::peak_abs_jerk",
            "Sample3",
            "clamp_to",
            "gate_factor",
            "RefGovernor::new",
            "RefGovernor::gate",
            "RefGovernor::advance",
            "RefGovernor::time",
            "RefGovernor::reset",
        ],
    },
    Module {
        number: "002",
        krate: "relay_adrc",
        rust: "relay-adrc/plain/src/lib.rs",
        compared: "host/compare/src/table/adrc.rs",
        routines: &[
            "AdrcGains::new",
            "AdrcGains::with_tau",
            "AdrcGains::from_bandwidth",
            "AdrcGains::well_separated",
            "AdrcGains::eso_dt_stable",
            "AdrcAxis::new",
            "AdrcAxis::disturbance",
            "AdrcAxis::tick",
            "AdrcAxis::reset",
            "AdrcAxis::set_delivered_fraction",
            "sanitise",
            "Biquad::lowpass",
            "Biquad::passthrough",
            "Biquad::filter",
            "GyroLpf::new",
            "GyroLpf::filter",
            "AdrcRate::new",
            "AdrcRate::falcon_quad",
            "AdrcRate::tick",
            "AdrcRate::reset",
            "AdrcRate::set_delivered_fraction",
            "AdrcRate::disturbance",
            "clamp_sym",
            "CommandFilter::new",
            "CommandFilter::step",
            "CommandFilter::value",
            "CommandFilter::rate",
            "CommandFilter::reset",
            "CommandFilter3::new",
            "CommandFilter3::step",
            "CommandFilter3::reset",
        ],
    },
    Module {
        number: "003",
        krate: "relay_pos",
        rust: "relay-pos/plain/src/lib.rs",
        compared: "host/compare/src/table/pos.rs",
        routines: &["euler_to_quaternion"],
    },
];

/// Ours without a Rust original: crate, function, what it is.
const ADDED: [(&str, &str, &str); 18] = [
    ("joint_tick", "set_up", "set-up over values"),
    ("joint_tick", "exchange", "the exchange of the segment over values"),
    ("joint_tick", "prepare", "the tick's first stage: fractions, gyro filter, governor"),
    ("joint_tick", "reference_at", "the second: where the trajectory is"),
    ("joint_tick", "sample_at", "the same with position and velocity, for a sample of a route"),
    ("joint_tick", "guide_pick_follow", "the third: observers, attitudes, fallback, psi, margin; shield; rate controller"),
    ("calls", "setup", "set-up on lent bytes"),
    ("calls", "exchange", "the exchange of the segment on lent bytes"),
    ("calls", "tick", "the joint tick on lent bytes"),
    ("calls", "tick_refusal", "what a tick would be refused for"),
    ("fosavalo", "fosavalo_setup", "the C call"),
    ("fosavalo", "fosavalo_exchange", "the C call"),
    ("fosavalo", "fosavalo_tick", "the C call"),
    ("fosavalo", "fosavalo_tick_refusal", "the C call"),
    ("route", "route_tick", "the joint tick on a route, on lent bytes"),
    ("fosavalo", "fosavalo_route_tick", "the C call"),
    ("route", "route_sample", "where the craft should be on a route at a time, on lent bytes"),
    ("fosavalo", "fosavalo_route_sample", "the C call"),
];

fn text(path: impl AsRef<Path>) -> Result<String, String> {
    let path = checkout::root()?.join(path);
    std::fs::read_to_string(&path).map_err(|error| format!("{}: {error}", path.display()))
}

/// The line, counted from 1, at which a routine of this name begins: `Type::name` within an `impl Type`, `name` outside of any.
fn line_of(text: &str, routine: &str) -> Option<usize> {
    let (owner, name) = routine.split_once("::").map_or((None, routine), |(owner, name)| (Some(owner), name));
    let mut inside: Option<&str> = None;
    for (at, line) in text.lines().enumerate() {
        if let Some(rest) = line.strip_prefix("impl ") {
            inside = rest.split([' ', '{']).next();
        } else if line.starts_with('}') {
            inside = None;
        }
        let item = line.trim_start();
        let item = item.strip_prefix("pub ").or(item.strip_prefix("pub(crate) ")).unwrap_or(item);
        let item = item.strip_prefix("extern \"C\" ").unwrap_or(item);
        let is_constant = item.strip_prefix("const ").is_some_and(|rest| rest.strip_prefix(name).is_some_and(|rest| rest.starts_with(':')));
        let item = item.strip_prefix("const ").unwrap_or(item);
        let is_function = item.strip_prefix("fn ").is_some_and(|rest| rest.strip_prefix(name).is_some_and(|rest| rest.starts_with('(')));
        let is_struct = item.strip_prefix("struct ").is_some_and(|rest| rest.split([' ', '(', '{']).next() == Some(name));
        if inside == owner && (is_function || is_constant || is_struct) {
            return Some(at + 1);
        }
    }
    None
}

/// The names of a folder's files, in order.
fn entries(folder: &str) -> Result<Vec<String>, String> {
    let entries = std::fs::read_dir(checkout::root()?.join(folder)).map_err(|error| format!("{folder}: {error}"))?;
    let mut names: Vec<String> = entries.flatten().map(|entry| entry.file_name().to_string_lossy().into_owned()).collect();
    names.sort();
    Ok(names)
}

/// Our file that has the routine.
fn ours(krate: &str, routine: &str) -> Result<String, String> {
    let folder = format!("crates/{krate}/src");
    for name in entries(&folder)? {
        if line_of(&text(format!("{folder}/{name}"))?, routine).is_some() {
            return Ok(name);
        }
    }
    Err(format!("no file of {folder} has {routine}"))
}

/// The promise above a function's body, a clause each; a constant or a struct has none.
fn promise(functions: &[Function], krate: &str, routine: &str) -> Vec<String> {
    let function = functions.iter().find(|function| function.krate == krate && function.routine == routine);
    function.map_or(Vec::new(), |function| function.ensures.iter().map(|clause| functions::shown(clause)).collect())
}

/// The file of definitions that has this name: the crate's own first.
fn definition(krate: &str, name: &str) -> Result<Option<String>, String> {
    let mut crates = entries("crates")?;
    crates.sort_by_key(|other| (other != krate, other.clone()));
    for folder in crates.iter().map(|krate| format!("crates/{krate}/specs")) {
        for file in entries(&folder).unwrap_or_default() {
            let text = text(format!("{folder}/{file}"))?;
            // a record's name stands before its parameters
            let mut heads = text.lines().filter_map(|line| line.split_once(" : ")).filter_map(|(head, _)| head.split(" (").next());
            if heads.any(|head| head.split(' ').next_back() == Some(name) && !head.starts_with([' ', '-'])) {
                return Ok(Some(format!("{folder}/{file}")));
            }
        }
    }
    Ok(None)
}

/// Each clause, with a link to the definition that it names.
fn promised(krate: &str, clauses: &[String]) -> Result<String, String> {
    let mut cells = Vec::new();
    for clause in clauses {
        let named = clause.split_once('≡').map_or(clause.as_str(), |(_, right)| right);
        let name = named.split_whitespace().next().unwrap_or_default();
        let file = definition(krate, name)?;
        let label = |path: &str| path.rsplit('/').next().unwrap_or_default().to_string();
        cells.push(format!("`{clause}`{}", file.map_or(String::new(), |path| format!(" ({})", link(&label(&path), &path)))));
    }
    Ok(cells.join("; "))
}

/// The name under which the test face has it.
fn face(routine: &str) -> String {
    routine.to_lowercase().replace("::", "_")
}

/// The tests of a file whose text uses any of these words.
fn tests_using(text: &str, words: &[String]) -> Vec<String> {
    let mut found: Vec<String> = Vec::new();
    let (mut test, mut next) = (None, false);
    for line in text.lines() {
        if line.trim() == "#[test]" {
            next = true;
        } else if let Some(rest) = line.strip_prefix("fn ") {
            test = rest.split('(').next().filter(|_| next).map(str::to_string);
            next = false;
        }
        if let Some(name) = test.as_ref().filter(|_| words.iter().any(|word| line.contains(word.as_str()))) {
            if !found.contains(name) {
                found.push(name.clone());
            }
        }
    }
    found
}

/// From crates/.
fn link(label: &str, path: &str) -> String {
    match path.strip_prefix("crates/") {
        Some(path) => format!("[{label}]({path})"),
        None => format!("[{label}](../{path})"),
    }
}

/// The whole page.
fn page() -> Result<String, String> {
    let mut page = String::from(
        "# Map\n\n\
         A line for each routine of the Rust: where it stands there, in which of our files it is under the same name, what it promises, and\n\
         what tests it. A promise names a definition, whose file stands behind it; it is proved for every argument (`b′` is what a lent `b` holds\n\
         afterwards). `make map` writes this page from the sources, and the gate sees that it is current.\n\n\
         **Tests.** *Rows* is the routine's row in the host's comparison with the Rust: a million cases in the gate, as many as you like with\n\
         `make routines ROWS=n`. *Figures* are tests of [document 01's worked figures](../docs/REQUEST.md#worked-figures) and of edges, in\n\
         [host/compare/tests/figures.rs](../host/compare/tests/figures.rs). *Wrong* counts the versions that look right and are not, of which\n\
         the comparison has to catch each ([wrong.rs](../host/compare/src/table/wrong.rs)).\n",
    );
    let functions = functions::all()?;
    let figures = text("host/compare/tests/figures.rs")?;
    let wrong = text("host/compare/src/table/wrong.rs")?;
    for module in &MODULES {
        let rust_path = format!("docs/src/crates/{}", module.rust);
        let rust = text(&rust_path)?;
        let compared = text(module.compared)?;
        let _ = write!(page, "\n## {}: `{}`\n\n", module.number, module.krate);
        let _ = writeln!(page, "The Rust is {}.\n", link(&rust_path, &rust_path));
        let _ = writeln!(page, "| Routine | Rust | Ours | Promise | Tests |\n|---|---|---|---|---|");
        for routine in module.routines {
            let there = line_of(&rust, routine)
                .map_or("written out".to_string(), |line| link(&format!("line {line}"), &format!("{rust_path}#L{line}")));
            let file = ours(module.krate, routine)?;
            let promised = match (promise(&functions, module.krate, routine), routine.starts_with("Sample")) {
                (clauses, _) if !clauses.is_empty() => promised(module.krate, &clauses)?,
                (_, false) => "a constant".to_string(),
                (_, true) => "a struct of floats".to_string(),
            };
            let mut tests = Vec::new();
            let row = if module.krate == "relay_math" { format!("{routine}(") } else { format!("\"{routine}\"") };
            if compared.contains(&row) {
                tests.push(link("rows", module.compared));
            }
            let names = tests_using(&figures, &[format!("::{}(", face(routine))]);
            if !names.is_empty() {
                tests.push(format!("figures: {}", names.iter().map(|name| format!("`{name}`")).collect::<Vec<_>>().join(", ")));
            }
            let instead = wrong.matches(&format!("instead(\"{routine}\"")).count();
            if instead > 0 {
                tests.push(format!("wrong: {instead}"));
            }
            if let Some(sampled) = [("Sample", "Quintic::eval"), ("Sample3", "Segment3::eval")].iter().find(|(name, _)| name == routine) {
                tests.push(format!("in those of `{}`", sampled.1));
            }
            if tests.is_empty() {
                return Err(format!("{routine} has no test"));
            }
            let our_path = format!("crates/{}/src/{file}", module.krate);
            let _ = writeln!(page, "| `{routine}` | {there} | {} | {promised} | {} |", link(&file, &our_path), tests.join("; "));
        }
    }
    let _ = write!(
        page,
        "\n## Added: set-up and the joint tick\n\n\
         [Document 01](../docs/REQUEST.md#the-joint-tick) is their original, of `route` [document 02](../docs/REQUEST.md#the-fourteen-requests).\n\
         They are run against the Rust's calls made in its order, and the third demand is checked by looking back over the margins.\n\
         The tests are {} and {}; `make ticks TICKS=n` runs as many as you like.\n\n\
         | Routine | Ours | Promise | What |\n|---|---|---|---|\n",
        link("host/compare/tests/joint.rs", "host/compare/tests/joint.rs"),
        link("routes.rs", "host/compare/tests/routes.rs"),
    );
    for (krate, routine, what) in ADDED {
        let file = ours(krate, routine)?;
        let path = format!("crates/{krate}/src/{file}");
        let promised = promised(krate, &promise(&functions, krate, routine))?;
        let _ = writeln!(page, "| `{routine}` | {} | {promised} | {what} |", link(&format!("{krate}/{file}"), &path));
    }
    page.push_str(
        "\nNot ported: `reduce`, `sin_poly`, `cos_poly` as published (our own steps stand in, [ANGLES.md](../docs/ANGLES.md)), `atan2f`, `acosf`,\n\
         `remainderf`; of 003 all but `euler_to_quaternion`; 005; the Kani blocks.\n",
    );
    Ok(page)
}

/// The pages that are written from the sources.
pub fn written() -> [(&'static str, Result<String, String>); 4] {
    [
        ("crates/MAP.md", page()),
        ("crates/PROMISES.md", promises::page()),
        ("crates/STATEMENTS.md", statements::page()),
        ("crates/EDITS.md", edits::page()),
    ]
}

/// The routines on the page.
pub fn routines() -> impl Iterator<Item = &'static str> {
    MODULES.iter().flat_map(|module| module.routines.iter().copied())
}
