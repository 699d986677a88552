//! crates/PROMISES.md: what every public function promises and asks, and that no second answer fits.

use crate::functions::{all, crates, shown, Function};
use crate::text;
use std::fmt::Write;

/// The test face, whose calls promise what their routines promise.
const FACE: &str = "probe";

/// By hand: the public functions of which no `OneAnswer` can be stated, the theorem that each has instead, and why.
const EXCEPTIONS: [(&str, &str, &str); 5] = [
    (
        "relay_geo::lent::SimplexShield::step_lent",
        "step_lent_once",
        "The state is lent, and its promise is written out beside the theorem. \
         It is `OneAnswer` of that promise, and `step_lent_says` that the function's own clause is that promise.",
    ),
    ("relay_traj::lent::RefGovernor::advance_lent", "advance_lent_once", "The same, with `advance_lent_says`."),
    ("flight_log::reader::moved", "moved_once", "The same, of a struct that holds a reference, with `moved_says`."),
    (
        "flight_log::reader::next",
        "next_once",
        "The same, with `next_says`. It answers a part of the lent log: what the part holds is fixed; where it lies is not said, and no code of the language can ask.",
    ),
    (
        "lent_tick::tick::tick_toward",
        "tick_toward_once",
        "It takes a source of references, a closure of any type. It is `OneAnswer` of the function's own contract, for every source of whose own promise the same holds. \
         That the two that there are give one reference is what the promises of `calls::tick` and `route::route_tick` rest on (`ticked_by`).",
    ),
];

/// By hand: the crates whose public functions may ask something of their caller, and why.
const ASKING: [(&str, &str); 4] = [
    ("words", "A word is read or written within lengths that the caller tested once, and read untested where a scan found no NaN's pattern. A test for each word would be paid at every tick. What a scan found is a fact that `Words` carries: whoever makes one by hand owes `Plain plain bytes`."),
    ("image", "The same, part by part: `lent_tick` tests the lengths of a tick and `calls` those of its other calls, then they read and write."),
    ("route", "`legs_meet` compares two legs that lie within lengths which `route` and `pattern` have tested: a route tick compares up to 31 joins."),
    ("lent_tick", "The tick that a plain tick and a route tick are asks that its source can be called. Its parts are called once it has tested the lengths, and nothing is written before it knows that the image is unbroken."),
];

/// The names of the functions of which a crate's proofs/OneAnswer.antt has the theorem, by its statement; and that file.
fn proved(krate: &str) -> (Vec<String>, String) {
    let file = text(format!("crates/{krate}/proofs/OneAnswer.antt")).unwrap_or_default();
    let stated = file.lines().filter_map(|line| line.strip_prefix("pub ")?.split_once(" : OneAnswer ")?.1.split_once(' '));
    // the contracts of this crate, by the name that the file gives them
    let promised = if file.contains(&format!("\nuse Rattle.{krate}.specs.contracts as promised\n")) { "promised." } else { "" };
    let same = stated.filter_map(|(ended, post)| {
        let name = ended.strip_suffix(".ended")?;
        let name = name.strip_prefix(promised).unwrap_or(name);
        (post.strip_suffix(".Reads.Post") == Some(name)).then_some(name)
    });
    (same.map(|name| format!("{krate}::{}", name.replace('.', "::"))).collect(), file)
}

/// The value that an equation gives to the answer.
fn value(clause: &[String]) -> Option<&[String]> {
    match clause {
        [answer, equals, value @ ..] if answer == "result" && equals == "≡" => Some(value),
        _ => None,
    }
}

/// A clause of a function, with each name of a definition made whole, and each parameter replaced.
fn with(function: &Function, clause: &[String], arguments: &[Vec<String>]) -> Vec<String> {
    let mut replaced = Vec::new();
    for word in clause {
        match (function.parameters.iter().position(|(name, _)| name == word), function.scope.get(word)) {
            (Some(at), _) if arguments[at].len() == 1 => replaced.extend_from_slice(&arguments[at]),
            (Some(at), _) => replaced.extend([&["(".to_string()], &arguments[at][..], &[")".to_string()]].concat()),
            (None, Some(file)) => replaced.push(format!("{file}.{word}")),
            (None, None) => replaced.push(word.clone()),
        }
    }
    replaced
}

/// What a call promises of its answer by the promise of the function that it calls, in words that name definitions whole.
fn promised(call: &str, face: &Function, all: &[Function]) -> Option<Vec<Vec<String>>> {
    let (called, given) = call.strip_suffix(')')?.split_once('(')?;
    let mut given: Vec<&str> = top_level(given);
    let kind = |name: &str| face.parameters.iter().find(|(own, _)| own == name).map(|(_, kind)| kind);
    let meant = match called.split_once('.') {
        Some((receiver, method)) => {
            given.insert(0, receiver);
            format!("{}::{method}", kind(receiver)?.trim_start_matches("&mut "))
        }
        None => called.to_string(),
    };
    let function = match meant.split_once("::") {
        Some((krate, name)) if krate.starts_with(char::is_lowercase) => {
            all.iter().find(|function| function.krate == krate && function.routine == name)
        }
        Some(_) => all.iter().find(|function| function.krate != face.krate && function.routine == meant),
        None => all.iter().find(|function| function.krate == face.krate && function.routine == meant),
    }?;
    let arguments = given.iter().map(|argument| match kind(argument) {
        Some(_) => Some(vec![argument.to_string()]),
        None => value(&promised(argument, face, all)?[0]).map(<[String]>::to_vec),
    });
    let arguments: Vec<Vec<String>> = arguments.collect::<Option<_>>()?;
    // an equation of the answer says all where nothing is lent to be changed
    let lent = function.parameters.iter().any(|(_, kind)| kind.starts_with("&mut "));
    let equation = function.ensures.iter().find(|clause| !lent && value(clause).is_some());
    let clauses = equation.map_or(&function.ensures[..], std::slice::from_ref);
    (arguments.len() == function.parameters.len()).then(|| clauses.iter().map(|clause| with(function, clause, &arguments)).collect())
}

/// Arguments apart, each with its own brackets.
fn top_level(given: &str) -> Vec<&str> {
    let (mut depth, mut from, mut parts) = (0, 0, Vec::new());
    for (at, mark) in given.char_indices() {
        match mark {
            '(' => depth += 1,
            ')' => depth -= 1,
            ',' if depth == 0 => {
                parts.push(given[from..at].trim());
                from = at + 1;
            }
            _ => {}
        }
    }
    parts.push(given[from..].trim());
    parts.retain(|part| !part.is_empty());
    parts
}

/// Whether a call of the test face promises, word for word, what the routine in its body promises.
fn is_its_routines(face: &Function, all: &[Function]) -> bool {
    let own: Vec<Vec<String>> = face.parameters.iter().map(|(name, _)| vec![name.clone()]).collect();
    let said: Vec<Vec<String>> = face.ensures.iter().map(|clause| with(face, clause, &own)).collect();
    promised(&face.body, face, all).is_some_and(|promised| promised == said)
}

/// What is wrong with the public face: nothing, if the gate is to pass.
pub fn faults() -> Result<Vec<String>, String> {
    let all = all()?;
    let mut faults = Vec::new();
    let public = || all.iter().filter(|function| function.public);
    for function in public() {
        let name = function.name();
        let excepted = EXCEPTIONS.iter().any(|(excepted, _, _)| *excepted == name);
        let theorem = proved(&function.krate).0.contains(&name);
        if function.ensures.iter().all(Vec::is_empty) {
            faults.push(format!("{name} has no promise"));
        }
        if theorem && excepted {
            faults.push(format!("{name} has its theorem, and is no exception"));
        } else if !(theorem || excepted || function.krate == FACE && is_its_routines(function, &all)) {
            faults.push(format!("{name} has no theorem in proofs/OneAnswer.antt that no second answer fits its promise"));
        }
        if !function.requires.is_empty() && !ASKING.iter().any(|(krate, _)| *krate == function.krate) {
            faults.push(format!("{name} asks something of its caller, and its crate gives no reason"));
        }
    }
    for (name, theorem, _) in EXCEPTIONS {
        match public().find(|function| function.name() == name) {
            None => faults.push(format!("{name}, an exception, is no public function")),
            Some(function) if !proved(&function.krate).1.contains(&format!("pub {theorem} :")) => {
                faults.push(format!("{name}: no theorem {theorem}"))
            }
            Some(_) => {}
        }
    }
    for (krate, _) in ASKING {
        if !public().any(|function| function.krate == krate && !function.requires.is_empty()) {
            faults.push(format!("{krate} asks nothing, and needs no reason"));
        }
    }
    Ok(faults)
}

fn row(page: &mut String, name: &str, cells: [String; 2]) {
    let _ = writeln!(page, "| `{name}` | {} | {} |", cells[0], cells[1].replace('|', "\\|"));
}

fn clauses(clauses: &[Vec<String>]) -> String {
    clauses.iter().map(|clause| format!("`{}`", shown(clause))).collect::<Vec<_>>().join("; ")
}

/// The whole page.
pub(crate) fn page() -> Result<String, String> {
    let all = all()?;
    let mut page = String::from(
        "# Promises\n\n\
         What every public function promises: its `ensures`, proved for all arguments, and the comment above it. The answer is `result`; `b′` is what\n\
         a lent `b` holds afterwards; the other names are definitions of `crates/*/specs/`. `make map` writes this page from the sources. The gate (`host/pages/tests`) holds it\n\
         to them, and fails on a public function that has no promise or no theorem of the kind below.\n\n\
         **No second answer.** `OneAnswer` (`crates/laws/proofs/Determined.antt`) says of a function's own contract: of the same arguments, two outcomes (the answer, and\n\
         the later contents of every lent buffer) that both meet it are equal. Each crate's `proofs/OneAnswer.antt` proves it of each public function, by one law,\n\
         `no_second`: a promise that names its one value has one. NaNs are counted alike, as everywhere.\n\n\
         ## Exceptions\n\n\
         Of these the toolchain makes no contract that `OneAnswer` could be stated of as it stands. Each has a theorem of its own beside the others.\n\n\
         | function | theorem | reason |\n|---|---|---|\n",
    );
    for (name, theorem, reason) in EXCEPTIONS {
        row(&mut page, name, [format!("`{theorem}`"), reason.to_string()]);
    }
    page.push_str("\n## What asks something of its caller\n\nEverything else is for any argument at all.\n\n| crate | functions | reason |\n|---|---|---|\n");
    for (krate, reason) in ASKING {
        let asking = all.iter().filter(|function| function.public && function.krate == krate && !function.requires.is_empty());
        row(&mut page, krate, [asking.map(|function| format!("`{}`", function.path)).collect::<Vec<_>>().join(", "), reason.to_string()]);
    }
    for (krate, what) in crates()? {
        let public: Vec<&Function> = all.iter().filter(|function| function.public && function.krate == krate).collect();
        if public.is_empty() {
            continue;
        }
        let (first, rest) = what.split_at(1);
        let _ = write!(page, "\n## {krate}\n\n{}{rest}.\n\n| function | promise | what |\n|---|---|---|\n", first.to_uppercase());
        let (same, own): (Vec<&Function>, Vec<&Function>) =
            public.iter().partition(|function| krate == FACE && is_its_routines(function, &all));
        for function in own {
            let asked = if function.requires.is_empty() { String::new() } else { format!(" if {}", clauses(&function.requires)) };
            row(&mut page, &function.path, [clauses(&function.ensures) + &asked, function.comment.clone()]);
        }
        if !same.is_empty() {
            let what = format!("{} calls more. The body is a call of the routine, and the gate sees that the `ensures` is that routine's with the arguments put in.", same.len());
            row(&mut page, "probe_*", ["the routine's own, word for word".to_string(), what]);
        }
    }
    Ok(page)
}

#[cfg(test)]
mod tests {
    use crate::functions::{shown, tokens};

    #[test]
    fn a_clause_is_shortened() {
        let clause = tokens("left result b.new ≡ f b.old «log_len» (g i.now)");
        assert_eq!(shown(&clause), "left result b′ ≡ f b log_len (g i)");
    }
}
