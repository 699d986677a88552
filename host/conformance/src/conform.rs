//! Runs the vectors of the conformance kit through a program that reads a line and answers one, and says which rules it keeps.
//! One file and the standard library: `rustc --edition 2021 -O conform.rs`. `conform --help` has its use, CONFORMANCE.md the protocol and the form of the vectors.

use std::collections::BTreeMap;
use std::fmt::Write as _;
use std::io::{BufRead, BufReader, Read as _, Write as _};
use std::path::{Path, PathBuf};
use std::process::{Child, Command, ExitCode, Stdio};
use std::sync::mpsc::{self, RecvTimeoutError};
use std::time::{Duration, Instant};

const HELP: &str = "conform [--level rule|bits|bytes] [--only NAME,..] [--json] [--vectors FOLDER] [--timeout SECONDS] PROGRAM [ARGUMENT..]
  --level    what is claimed: rule (who flies; another sine is allowed), bits (every answer, NaNs alike) or bytes (images, every length,
             a refused call changes nothing too). Without it, bytes
  --only     the rules whose file begins with one of these names
  --json     the report for scripts
  --vectors  where they are; without it, the folder `vectors` beside this program or here
  --timeout  how long an answer may take, in seconds; without it, 20
Status 0: all that was asked is passed. 1: something broke, or is unsupported. 2: it could not be run.";

/// How closely a line is looked at, and from which on it is.
#[derive(Clone, Copy, PartialEq, Eq, PartialOrd, Ord, Debug)]
pub enum Level {
    Rule,
    Bits,
    Bytes,
}

pub const LEVELS: [Level; 3] = [Level::Rule, Level::Bits, Level::Bytes];

impl Level {
    pub fn name(self) -> &'static str {
        ["rule", "bits", "bytes"][self as usize]
    }

    fn of(name: &str) -> Option<Level> {
        LEVELS.into_iter().find(|level| level.name() == name)
    }
}

/// A question, and the answer of the Rust.
pub struct Line {
    pub level: Level,
    /// Where it stands in its file.
    pub at: usize,
    pub question: String,
    pub expected: Answer,
}

/// A rule of the documents, and the lines that try it: one file.
pub struct Rule {
    pub file: String,
    pub name: String,
    pub words: Vec<String>,
    pub place: String,
    pub lines: Vec<Line>,
}

/// What a line may be answered with.
#[derive(Clone, PartialEq, Eq, Debug)]
pub enum Answer {
    Unsupported,
    /// A call's number and the buffers that it tells.
    Said(u32, Vec<Vec<u8>>),
    /// Anything else.
    Odd(String),
}

/// The bytes of a word: parts joined by `+`, each hexadecimal digits, `*N` after them for so many times; `-` for none.
pub fn bytes_of(word: &str) -> Option<Vec<u8>> {
    let mut bytes = Vec::new();
    if word == "-" {
        return Some(bytes);
    }
    for part in word.split('+') {
        let (digits, times) = match part.split_once('*') {
            Some((digits, times)) => (digits, times.parse::<usize>().ok().filter(|times| *times <= 1 << 24)?),
            None => (part, 1),
        };
        if digits.is_empty() || digits.len() % 2 != 0 || !digits.is_ascii() {
            return None;
        }
        let digit = |at: usize| (digits.as_bytes()[at] as char).to_digit(16);
        let one: Option<Vec<u8>> = (0..digits.len() / 2).map(|k| Some((16 * digit(2 * k)? + digit(2 * k + 1)?) as u8)).collect();
        let one = one?;
        if one.len().saturating_mul(times) > 1 << 24 {
            return None;
        }
        (0..times).for_each(|_| bytes.extend_from_slice(&one));
    }
    Some(bytes)
}

/// Bytes as a word, a byte that stands there many times written once.
pub fn word_of(bytes: &[u8]) -> String {
    if bytes.is_empty() {
        return "-".to_string();
    }
    let (mut parts, mut digits, mut at) = (Vec::new(), String::new(), 0);
    while at < bytes.len() {
        let run = bytes[at..].iter().take_while(|byte| **byte == bytes[at]).count();
        // whole words, so that the others can be read
        let run = if at + run == bytes.len() { run } else { run & !3 };
        if at % 4 == 0 && run >= 24 {
            if !digits.is_empty() {
                parts.push(std::mem::take(&mut digits));
            }
            parts.push(format!("{:02x}*{run}", bytes[at]));
            at += run;
        } else {
            let _ = write!(digits, "{:02x}", bytes[at]);
            at += 1;
        }
    }
    if !digits.is_empty() {
        parts.push(digits);
    }
    parts.join("+")
}

impl Answer {
    pub fn read(text: &str) -> Answer {
        let mut words = text.split_whitespace();
        let first = words.next();
        if first == Some("unsupported") {
            return Answer::Unsupported;
        }
        let number = first.and_then(|word| word.parse().ok());
        let buffers: Option<Vec<Vec<u8>>> = words.map(bytes_of).collect();
        match (number, buffers) {
            (Some(number), Some(buffers)) => Answer::Said(number, buffers),
            _ => Answer::Odd(text.trim_end().chars().take(400).collect()),
        }
    }

    pub fn text(&self) -> String {
        match self {
            Answer::Unsupported => "unsupported".to_string(),
            Answer::Said(number, buffers) => {
                std::iter::once(number.to_string()).chain(buffers.iter().map(|bytes| word_of(bytes))).collect::<Vec<_>>().join(" ")
            }
            Answer::Odd(text) => text.clone(),
        }
    }

    /// With every word that is a NaN made 7fc00000.
    fn canonical(&self) -> Answer {
        match self {
            Answer::Said(number, buffers) => Answer::Said(*number, buffers.iter().map(|bytes| alike(bytes)).collect()),
            other => other.clone(),
        }
    }
}

/// NaNs alike, in bytes that are words.
fn alike(bytes: &[u8]) -> Vec<u8> {
    let mut bytes = bytes.to_vec();
    if bytes.len() % 4 == 0 {
        for word in bytes.chunks_exact_mut(4) {
            if f32::from_le_bytes([word[0], word[1], word[2], word[3]]).is_nan() {
                word.copy_from_slice(&0x7fc0_0000u32.to_le_bytes());
            }
        }
    }
    bytes
}

fn word(bytes: &[u8], at: usize) -> u32 {
    match bytes.get(4 * at..4 * at + 4) {
        Some(&[a, b, c, d]) => u32::from_le_bytes([a, b, c, d]),
        _ => 0,
    }
}

fn float(bytes: &[u8], at: usize) -> f32 {
    f32::from_bits(word(bytes, at))
}

/// A rule's file: lines `rule`, `words`, `where`, `level`; then `? ` a question and `= ` its answer, by turns.
pub fn read_rule(file: &str, text: &str) -> Result<Rule, String> {
    let mut rule = Rule { file: file.to_string(), name: String::new(), words: Vec::new(), place: String::new(), lines: Vec::new() };
    let (mut level, mut question) = (Level::Bytes, None);
    for (at, line) in text.lines().enumerate() {
        let wrong = || format!("{file}:{}: this is no line of vectors", at + 1);
        let (kind, rest) = line.split_once(' ').unwrap_or((line, ""));
        match kind {
            "#" | "" => {}
            "rule" => rule.name = rest.to_string(),
            "words" => rule.words.push(rest.to_string()),
            "where" => rule.place = rest.to_string(),
            "level" => level = Level::of(rest).ok_or_else(wrong)?,
            "?" => question = Some((at + 1, rest.to_string())),
            "=" => {
                let (at, question) = question.take().ok_or_else(wrong)?;
                let expected = Answer::read(rest);
                if !matches!(expected, Answer::Said(..)) {
                    return Err(wrong());
                }
                rule.lines.push(Line { level, at, question, expected });
            }
            _ => return Err(wrong()),
        }
    }
    if rule.lines.is_empty() || question.is_some() {
        return Err(format!("{file}: the vectors are cut"));
    }
    Ok(rule)
}

/// How a shield steps: the right one, and those of known wrong versions.
#[derive(Clone, Copy)]
struct Steps {
    name: &'static str,
    releases: fn(f32, f32, f32) -> bool,
    engages: fn(f32, f32) -> bool,
    /// What an exchange does to who flies.
    exchanged: Option<bool>,
    /// Whether what is passed on is made finite, and its third word zero with a rotor lost.
    cleans: bool,
    third: bool,
}

const RIGHT: Steps = Steps {
    name: "right",
    releases: |_, exit, margin| margin.is_finite() && margin > exit,
    engages: |enter, margin| !margin.is_finite() || margin < enter,
    exchanged: None,
    cleans: true,
    third: true,
};

/// Those that the rule alone can tell, whatever the margins are.
const KNOWN_STEPS: [Steps; 7] = [
    Steps { name: "released in the band", releases: |enter, _, margin| margin > enter, ..RIGHT },
    Steps { name: "released at exit itself", releases: |_, exit, margin| margin.is_finite() && margin >= exit, ..RIGHT },
    Steps { name: "engaged at enter itself", engages: |enter, margin| !margin.is_finite() || margin <= enter, ..RIGHT },
    Steps { name: "an exchange that resets the shield", exchanged: Some(true), ..RIGHT },
    Steps { name: "an exchange that gives the planner control", exchanged: Some(false), ..RIGHT },
    Steps { name: "a non-finite pick passed on", cleans: false, ..RIGHT },
    Steps { name: "the planner's third kept", third: false, ..RIGHT },
];

/// The check of a log, record by record, as `fosavalo_log_check` has it: its flag is the one that the margins up to it demand of a fresh shield, its command
/// the one that goes with the flag.
#[derive(Clone, Copy)]
pub struct Log {
    steps: Steps,
    profile: u32,
    enter: f32,
    exit: f32,
    engaged: bool,
}

impl Log {
    /// Of a run from a set-up with these; the thresholds are mended as a set-up does.
    pub fn new(profile: u32, enter: f32, exit: f32) -> Log {
        let enter = if enter.is_finite() && enter > 0.0 { enter } else { 0.1 };
        let exit = if exit.is_finite() && exit > enter { exit } else { enter * 2.0 };
        Log { steps: RIGHT, profile, enter, exit, engaged: true }
    }

    /// What is wrong with the next record, a tick's 68 bytes and an answer's 40.
    pub fn next(&mut self, input: &[u8], answer: &[u8]) -> Option<&'static str> {
        let margin = float(answer, 9);
        self.engaged = match self.engaged {
            true => !(self.steps.releases)(self.enter, self.exit, margin),
            false => (self.steps.engages)(self.enter, margin),
        };
        let fits = |k: usize| {
            let (own, planner) = (word(answer, 3 + k), word(input, 11 + k));
            let finite = |bits: u32| f32::from_bits(bits).is_finite();
            match self.engaged {
                true => finite(own) || !self.steps.cleans,
                false if k == 2 && self.profile == 1 && self.steps.third => own == 0,
                false if !finite(planner) && self.steps.cleans => own == 0,
                false => own == planner || (f32::from_bits(own).is_nan() && f32::from_bits(planner).is_nan()),
            }
        };
        if word(answer, 6) != u32::from(self.engaged) {
            Some("flag")
        } else if !(0..3).all(fits) {
            Some("command")
        } else {
            None
        }
    }
}

/// What the rule alone asks, from a set-up on.
#[derive(Clone)]
enum Event {
    SetUp(Log),
    Exchange,
    Record(Vec<u8>, Vec<u8>),
}

/// A margin may be another sine's: it is near where they differ by a 1024th, of the margin itself if that is larger than 1.
fn near(own: f32, right: f32) -> bool {
    match (own.is_finite(), right.is_finite()) {
        (true, true) => (own - right).abs() <= right.abs().max(1.0) / 1024.0,
        (own, right) => own == right,
    }
}

/// Which level a line breaks, from which on it is looked at.
#[derive(Default)]
struct Judge {
    log: Option<Log>,
    events: Vec<Event>,
}

impl Judge {
    /// What is wrong at the level of the rule, in words where it has its own; None where nothing is.
    fn rule(&mut self, question: &str, expected: &Answer, got: &Answer) -> Option<String> {
        let mut words = question.split(' ');
        let call = words.next().unwrap_or_default();
        let (Answer::Said(right, _), Answer::Said(number, buffers)) = (expected, got) else { return Some(String::new()) };
        if number != right {
            return Some(String::new());
        }
        let input = words.next().and_then(bytes_of).unwrap_or_default();
        match call {
            "setup" if *number == 0 => {
                let log = Log::new(word(&input, 50), float(&input, 12), float(&input, 13));
                self.log = Some(log);
                self.events.push(Event::SetUp(log));
            }
            "exchange" if *number == 0 => self.events.push(Event::Exchange),
            "tick" | "route" if *number == 0 => {
                let (Some(answer), Answer::Said(_, right)) = (buffers.first().filter(|answer| answer.len() == 40), expected) else {
                    return Some(String::new());
                };
                self.events.push(Event::Record(input.clone(), answer.clone()));
                let (own, right) = (float(answer, 9), float(right.first().map_or(&[][..], |right| right), 9));
                let log = self.log.as_mut()?;
                return match log.next(&input, answer) {
                    Some("flag") => Some(format!(
                        "flag {}, and the margins so far, of which the last is {own}, demand {}; enter {}, exit {}",
                        word(answer, 6),
                        u32::from(log.engaged),
                        log.enter,
                        log.exit
                    )),
                    Some(_) => {
                        let three = |bytes: &[u8], at: usize| {
                            format!("{:08x} {:08x} {:08x}", word(bytes, at), word(bytes, at + 1), word(bytes, at + 2))
                        };
                        let (command, planner) = (three(answer, 3), three(&input, 11));
                        Some(format!("command {command} does not go with flag {} and the planner's words {planner}", word(answer, 6)))
                    }
                    None => (!near(own, right)).then(|| format!("margin {own}, not near {right}")),
                };
            }
            "tick" | "route" | "setup" | "exchange" => {}
            _ if got.canonical() != expected.canonical() => return Some(String::new()),
            _ => {}
        }
        None
    }

    /// The known shields whose records these are.
    fn named(&self) -> Vec<&'static str> {
        let fits = |steps: &Steps| {
            let mut log = None;
            self.events.iter().all(|event| match event {
                Event::SetUp(fresh) => {
                    log = Some(Log { steps: *steps, ..*fresh });
                    true
                }
                Event::Exchange => {
                    if let (Some(log), Some(engaged)) = (&mut log, steps.exchanged) {
                        log.engaged = engaged;
                    }
                    true
                }
                Event::Record(input, answer) => log.as_mut().and_then(|log| log.next(input, answer)).is_none(),
            })
        };
        if self.events.is_empty() || fits(&RIGHT) {
            return Vec::new();
        }
        KNOWN_STEPS.iter().filter(|steps| fits(steps)).map(|steps| steps.name).collect()
    }
}

/// A line that broke.
#[derive(Clone)]
pub struct Broken {
    pub at: usize,
    pub question: String,
    pub expected: String,
    pub got: String,
    pub words: String,
}

/// What a rule came to at one level.
#[derive(Clone, Default)]
pub struct Told {
    pub passed: usize,
    pub broken: usize,
    pub unsupported: usize,
    pub first: Option<Broken>,
    /// Of the lines that broke and what they were answered with.
    pub digest: u64,
}

/// A run of the vectors; by rule, by level.
pub struct Report {
    pub told: Vec<[Told; 3]>,
    /// Known wrong versions that the rule tells by its own.
    pub by_rule: Vec<&'static str>,
}

/// FNV-1a.
fn mix(digest: u64, bytes: &[u8]) -> u64 {
    let start = if digest == 0 { 0xcbf2_9ce4_8422_2325 } else { digest };
    bytes.iter().fold(start, |hash, byte| (hash ^ u64::from(*byte)).wrapping_mul(0x0000_0100_0000_01b3))
}

/// Whether later answers may hang on this call: where it is unsupported, what differs behind it is no fault of its own.
fn moves(question: &str) -> bool {
    let (call, more) = question.split_once(' ').unwrap_or((question, ""));
    match call {
        "image" | "deskimage" => !more.is_empty(),
        "refusal" | "bytes" | "count" | "record" | "check" | "flags" | "expand" | "sample" => false,
        _ => true,
    }
}

/// Asks every line up to the claimed level, in their order, and judges each at every level up to it.
pub fn run<E>(rules: &[&Rule], claimed: Level, mut ask: impl FnMut(&Rule, &Line) -> Result<Answer, E>) -> Result<Report, E> {
    let (mut judge, mut all) = (Judge::default(), Vec::new());
    for rule in rules {
        let mut told: [Told; 3] = Default::default();
        let mut adrift = false;
        judge.log = None;
        for line in rule.lines.iter().filter(|line| line.level <= claimed) {
            let got = ask(rule, line)?;
            adrift |= got == Answer::Unsupported && moves(&line.question);
            for level in LEVELS.into_iter().filter(|level| line.level <= *level && *level <= claimed) {
                let told = &mut told[level as usize];
                // in the order of the levels: the rule's judge keeps a log
                let wrong = match level {
                    Level::Rule => judge.rule(&line.question, &line.expected, &got),
                    Level::Bits => (got != line.expected && got.canonical() != line.expected.canonical()).then(String::new),
                    Level::Bytes => (got != line.expected).then(String::new),
                };
                match (&got, wrong) {
                    (Answer::Unsupported, _) => told.unsupported += 1,
                    (_, None) => told.passed += 1,
                    (_, Some(_)) if adrift => told.unsupported += 1,
                    (_, Some(what)) => {
                        told.broken += 1;
                        let said = if level == Level::Bytes { got.text() } else { got.canonical().text() };
                        told.digest = mix(told.digest, format!("{} {said}\n", line.at).as_bytes());
                        if told.first.is_none() {
                            told.first = Some(broken(line, &got, level, &what));
                        }
                    }
                }
            }
        }
        all.push(told);
    }
    Ok(Report { told: all, by_rule: judge.named() })
}

const ANSWER: [&str; 10] = ["torque x", "torque y", "torque z", "command x", "command y", "command z", "flag", "time", "psi", "margin"];
const INPUT: [&str; 17] = [
    "gyro x",
    "gyro y",
    "gyro z",
    "attitude w",
    "attitude x",
    "attitude y",
    "attitude z",
    "tracking error",
    "yaw",
    "yaw rate",
    "dt",
    "planner x",
    "planner y",
    "planner z",
    "delivered x",
    "delivered y",
    "delivered z",
];
const SAMPLE: [&str; 13] = [
    "leg",
    "position x",
    "position y",
    "position z",
    "velocity x",
    "velocity y",
    "velocity z",
    "acceleration x",
    "acceleration y",
    "acceleration z",
    "jerk x",
    "jerk y",
    "jerk z",
];

/// What stands at a word of an image.
fn image_word(at: usize) -> String {
    let parts: [(usize, usize, &[&str]); 8] = [
        (0, 1, &["count of words"]),
        (1, 9, &["gain"]),
        (10, 10, &["set k_r", "set lambda_j", "set psi_max", "enter", "exit", "engaged", "time", "err_lo", "err_hi", "g_min"]),
        (20, 21, &["c5", "c4", "c3", "c2", "c1", "c0", "t_end"]),
        (41, 27, &["z1", "z2", "u_prev", "u_act", "fraction", "omega_o", "omega_c", "b0", "tau"]),
        (68, 27, &["filter b0", "filter b1", "filter b2", "filter a1", "filter a2", "filter x1", "filter x2", "filter y1", "filter y2"]),
        (95, 1, &["profile"]),
        (96, 3, &["peak jerk"]),
    ];
    let found = parts.iter().find(|(from, count, _)| (*from..from + count).contains(&at));
    found.map_or(format!("word {at}"), |(from, _, names)| format!("word {at}, {}", names[(at - from) % names.len()]))
}

fn name_of(call: &str, buffer: usize, at: usize) -> String {
    let names: &[&str] = match (call, buffer) {
        ("tick" | "route" | "desk" | "deskroute", 0) => &ANSWER,
        ("desk" | "deskroute", 1) => &INPUT,
        ("sample", 0) => &SAMPLE,
        ("record", 0) if at < 17 => &INPUT,
        ("record", 0) => return ANSWER.get(at - 17).map_or(format!("word {at}"), |name| name.to_string()),
        ("image", 0) => return image_word(at),
        _ => &[],
    };
    names.get(at).map_or(format!("word {at}"), |name| name.to_string())
}

/// The words that differ, the first few of them.
fn differ(call: &str, right: &[Vec<u8>], own: &[Vec<u8>], level: Level) -> Vec<String> {
    let mut found = Vec::new();
    for (buffer, right) in right.iter().enumerate() {
        let Some(own) = own.get(buffer) else { continue };
        if own.len() != right.len() {
            found.push(format!("{} bytes, not {}", own.len(), right.len()));
            continue;
        }
        if call == "flags" {
            let wrong = (0..right.len()).filter(|at| right[*at] != own[*at]);
            found.extend(wrong.map(|at| format!("flag {at} {}, not {}", own[at], right[at])));
            continue;
        }
        for at in 0..right.len().div_ceil(4) {
            let (a, b) = (&right[4 * at..right.len().min(4 * at + 4)], &own[4 * at..own.len().min(4 * at + 4)]);
            if a == b || (level != Level::Bytes && alike(a) == alike(b)) {
                continue;
            }
            let (a, b) = (word(right, at), word(own, at));
            let whole = |x: u32| x < 1 << 17 || x == u32::MAX;
            found.push(match whole(a) && whole(b) {
                true => format!("{} {b}, not {a}", name_of(call, buffer, at)),
                false => format!("{} {b:08x} ({}), not {a:08x} ({})", name_of(call, buffer, at), f32::from_bits(b), f32::from_bits(a)),
            });
        }
    }
    found
}

fn broken(line: &Line, got: &Answer, level: Level, what: &str) -> Broken {
    let call = line.question.split(' ').next().unwrap_or_default();
    let words = match (&line.expected, got) {
        (Answer::Said(right, _), Answer::Said(number, _)) if right != number => format!("number {number}, not {right}"),
        (Answer::Said(_, right), Answer::Said(_, own)) if right.len() != own.len() => {
            format!("{} buffers told, not {}", own.len(), right.len())
        }
        _ if !what.is_empty() => what.to_string(),
        (Answer::Said(_, right), Answer::Said(_, own)) => {
            let all = differ(call, right, own, level);
            let rest = all.len().saturating_sub(4);
            let more = if rest > 0 { format!("; {rest} more") } else { String::new() };
            format!("{}{more}", all[..all.len().min(4)].join("; "))
        }
        _ => "this is no answer".to_string(),
    };
    let short = |text: &str| match text.char_indices().nth(200) {
        Some((at, _)) => format!("{}.. ({} characters)", &text[..at], text.len()),
        None => text.to_string(),
    };
    Broken { at: line.at, question: short(&line.question), expected: short(&line.expected.text()), got: short(&got.text()), words }
}

/// What a known wrong version breaks: by file, lines and digest at bits and at bytes.
pub type Known = BTreeMap<String, [(usize, u64); 2]>;

/// A line `version NAME`, then `FILE LINES DIGEST LINES DIGEST` for each rule that it breaks.
pub fn read_known(text: &str) -> Option<Vec<(String, Known)>> {
    let mut all: Vec<(String, Known)> = Vec::new();
    for line in text.lines().filter(|line| !line.is_empty() && !line.starts_with('#')) {
        if let Some(name) = line.strip_prefix("version ") {
            all.push((name.to_string(), Known::new()));
            continue;
        }
        let words: Vec<&str> = line.split(' ').collect();
        let [file, bits, bits_digest, bytes, bytes_digest] = words[..] else { return None };
        let pair = |lines: &str, digest: &str| Some((lines.parse().ok()?, u64::from_str_radix(digest, 16).ok()?));
        all.last_mut()?.1.insert(file.to_string(), [pair(bits, bits_digest)?, pair(bytes, bytes_digest)?]);
    }
    Some(all)
}

/// The known wrong versions whose answers these are: in every rule all of whose lines are supported, at the claimed level or else at bits.
pub fn named(rules: &[&Rule], report: &Report, claimed: Level, known: &[(String, Known)]) -> Vec<String> {
    let compared = |known: &Known| {
        let mut broke = false;
        let all = rules.iter().zip(&report.told).all(|(rule, told)| {
            let level = [Level::Bytes, Level::Bits].into_iter().find(|level| *level <= claimed && told[*level as usize].unsupported == 0);
            let Some(level) = level else { return true };
            let (own, at) = (&told[level as usize], level as usize - 1);
            let theirs = known.get(&rule.file).map_or((0, 0), |pairs| pairs[at]);
            broke |= own.broken > 0;
            theirs == (own.broken, own.digest)
        });
        all && broke
    };
    let found: Vec<String> = known.iter().filter(|(_, known)| compared(known)).map(|(name, _)| name.clone()).collect();
    if found.is_empty() {
        report.by_rule.iter().map(|name| name.to_string()).collect()
    } else {
        found
    }
}

/// The longest answer that is read, in bytes: more than any call can tell.
const LONGEST: u64 = 1 << 25;

/// The program that is asked. All questions are on their way at once, so that it is not waited for line by line.
struct Asked {
    child: Child,
    answers: mpsc::Receiver<Vec<u8>>,
    timeout: Duration,
}

impl Asked {
    fn start(words: &[String], questions: String, timeout: Duration) -> Result<Asked, String> {
        let [program, arguments @ ..] = words else { return Err("which program?".to_string()) };
        let mut child = Command::new(program)
            .args(arguments)
            .stdin(Stdio::piped())
            .stdout(Stdio::piped())
            .spawn()
            .map_err(|error| format!("{program} cannot be started: {error}"))?;
        let (Some(mut to), Some(from)) = (child.stdin.take(), child.stdout.take()) else {
            return Err(format!("{program} has no standard input or output"));
        };
        // where it ends early, what is missing is seen among the answers
        std::thread::spawn(move || to.write_all(questions.as_bytes()).is_ok());
        let (sender, answers) = mpsc::sync_channel(256);
        std::thread::spawn(move || {
            let mut from = BufReader::with_capacity(1 << 16, from);
            loop {
                let mut line = Vec::new();
                match from.by_ref().take(LONGEST).read_until(b'\n', &mut line) {
                    Ok(1..) if sender.send(line).is_ok() => {}
                    _ => return,
                }
            }
        });
        Ok(Asked { child, answers, timeout })
    }

    fn answer(&mut self, place: impl Fn() -> String) -> Result<Answer, String> {
        match self.answers.recv_timeout(self.timeout) {
            Ok(line) => Ok(Answer::read(&String::from_utf8_lossy(&line))),
            Err(RecvTimeoutError::Timeout) => {
                let _ = self.child.kill();
                Err(format!("the program did not answer {} within {} s", place(), self.timeout.as_secs()))
            }
            Err(RecvTimeoutError::Disconnected) => {
                let ended = self.child.wait().map_or("how is not known".to_string(), |status| status.to_string());
                Err(format!("the program ended ({ended}) and did not answer {}", place()))
            }
        }
    }
}

impl Drop for Asked {
    fn drop(&mut self) {
        let _ = self.child.kill();
        let _ = self.child.wait();
    }
}

struct Options {
    level: Level,
    only: Vec<String>,
    json: bool,
    vectors: PathBuf,
    timeout: Duration,
    program: Vec<String>,
}

fn options() -> Result<Option<Options>, String> {
    let beside = std::env::current_exe().ok().and_then(|own| Some(own.parent()?.join("vectors"))).filter(|folder| folder.is_dir());
    let mut given = Options {
        level: Level::Bytes,
        only: Vec::new(),
        json: false,
        vectors: beside.unwrap_or_else(|| PathBuf::from("vectors")),
        timeout: Duration::from_secs(20),
        program: Vec::new(),
    };
    let mut words = std::env::args_os().skip(1).map(|word| word.to_string_lossy().into_owned());
    while let Some(option) = words.next() {
        let mut value = || words.next().ok_or_else(|| format!("{option} wants a word after it\n{HELP}"));
        match option.as_str() {
            "--help" | "-h" => return Ok(None),
            "--level" => {
                let level = value()?;
                given.level = Level::of(&level).ok_or_else(|| format!("there is no level {level}: rule, bits or bytes"))?;
            }
            "--only" => given.only.extend(value()?.split(',').filter(|name| !name.is_empty()).map(str::to_string)),
            "--json" => given.json = true,
            "--vectors" => given.vectors = PathBuf::from(value()?),
            "--timeout" => {
                let seconds = value()?;
                let read = seconds.parse().ok().filter(|seconds| (1..=86_400).contains(seconds));
                given.timeout =
                    Duration::from_secs(read.ok_or_else(|| format!("--timeout takes whole seconds, 1 to 86400, not {seconds}"))?);
            }
            _ if option.starts_with('-') => return Err(format!("there is no option {option}\n{HELP}")),
            _ => {
                given.program.push(option);
                given.program.extend(words.by_ref());
            }
        }
    }
    if given.program.is_empty() {
        return Err(format!("which program?\n{HELP}"));
    }
    Ok(Some(given))
}

/// The rules of a folder, by the names of their files.
pub fn read_folder(folder: &Path) -> Result<Vec<Rule>, String> {
    let told = |error: std::io::Error| format!("{}: {error}", folder.display());
    let mut files: Vec<PathBuf> = std::fs::read_dir(folder).map_err(told)?.filter_map(|entry| Some(entry.ok()?.path())).collect();
    files.retain(|file| file.extension().is_some_and(|extension| extension == "txt"));
    files.sort();
    let mut rules = Vec::new();
    for file in files {
        let name = file.file_name().map_or(String::new(), |name| name.to_string_lossy().into_owned());
        let text = std::fs::read_to_string(&file).map_err(|error| format!("{}: {error}", file.display()))?;
        rules.push(read_rule(&name, &text)?);
    }
    match rules.is_empty() {
        true => Err(format!("{}: no vectors are there", folder.display())),
        false => Ok(rules),
    }
}

/// A text as JSON has it.
fn quoted(text: &str) -> String {
    let mut out = String::from("\"");
    for c in text.chars() {
        match c {
            '"' | '\\' => out.extend(['\\', c]),
            c if (c as u32) < 32 => {
                let _ = write!(out, "\\u{:04x}", c as u32);
            }
            c => out.push(c),
        }
    }
    out + "\""
}

/// Each level's sum over the rules.
fn sums(report: &Report) -> [Told; 3] {
    let mut sums: [Told; 3] = Default::default();
    for told in &report.told {
        for (sum, told) in sums.iter_mut().zip(told) {
            sum.passed += told.passed;
            sum.broken += told.broken;
            sum.unsupported += told.unsupported;
        }
    }
    sums
}

fn as_json(rules: &[&Rule], report: &Report, claimed: Level, names: &[String], took: Duration) -> String {
    let counts = |told: &Told| format!("\"passed\": {}, \"broken\": {}, \"unsupported\": {}", told.passed, told.broken, told.unsupported);
    let levels = |told: &[Told; 3], first: bool| {
        let one = |level: &Level| {
            let told = &told[*level as usize];
            let broke = told.first.as_ref().filter(|_| first).map_or(String::new(), |broken| {
                let Broken { at, question, expected, got, words } = broken;
                format!(
                    ", \"first\": {{\"line\": {at}, \"call\": {}, \"expected\": {}, \"got\": {}, \"words\": {}}}",
                    quoted(question),
                    quoted(expected),
                    quoted(got),
                    quoted(words)
                )
            });
            format!("{}: {{{}{broke}}}", quoted(level.name()), counts(told))
        };
        LEVELS.iter().filter(|level| **level <= claimed).map(one).collect::<Vec<_>>().join(", ")
    };
    let each: Vec<String> = rules
        .iter()
        .zip(&report.told)
        .map(|(rule, told)| {
            let words: Vec<String> = rule.words.iter().map(|words| quoted(words)).collect();
            format!(
                "    {{\"rule\": {}, \"file\": {}, \"where\": {}, \"words\": [{}], {}}}",
                quoted(&rule.name),
                quoted(&rule.file),
                quoted(&rule.place),
                words.join(", "),
                levels(told, true)
            )
        })
        .collect();
    let names: Vec<String> = names.iter().map(|name| quoted(name)).collect();
    format!(
        "{{\n  \"claimed\": {},\n  \"seconds\": {:.3},\n  {},\n  \"answers_of\": [{}],\n  \"rules\": [\n{}\n  ]\n}}\n",
        quoted(claimed.name()),
        took.as_secs_f64(),
        levels(&sums(report), false),
        names.join(", "),
        each.join(",\n")
    )
}

/// A line a rule: passed, or the first line that broke at the lowest level that did.
fn as_text(rules: &[&Rule], report: &Report, claimed: Level, names: &[String], took: Duration) -> String {
    let mut out = String::new();
    for (rule, told) in rules.iter().zip(&report.told) {
        let top = &told[claimed as usize];
        let unsupported = if top.unsupported > 0 { format!(", {} unsupported", top.unsupported) } else { String::new() };
        let broke = LEVELS.into_iter().find_map(|level| Some((level, told[level as usize].first.as_ref()?)));
        let _ = match broke {
            None if top.passed + top.unsupported == 0 => writeln!(out, "-            {}: nothing of it at this level", rule.name),
            None if top.unsupported > 0 => writeln!(out, "UNSUPPORTED  {}: {} lines passed{unsupported}", rule.name, top.passed),
            None => writeln!(out, "passed       {}: {} lines", rule.name, top.passed),
            Some((level, broken)) => {
                let Broken { at, question, expected, got, words } = broken;
                writeln!(
                    out,
                    "BROKEN       {}: at {}, {} of {} lines{unsupported}; first {}:{at}: {words}; asked {question}; expected {expected}; got {got}; \"{}\", {}",
                    rule.name, level.name(), told[level as usize].broken,
                    told[level as usize].passed + told[level as usize].broken, rule.file, rule.words.join("; "), rule.place
                )
            }
        };
    }
    for (level, sum) in LEVELS.iter().zip(sums(report)).filter(|(level, _)| **level <= claimed) {
        let verdict = match (sum.passed, sum.broken + sum.unsupported) {
            (0, 0) => "not asked",
            (_, 0) => "passed",
            _ => "NOT passed",
        };
        let _ = writeln!(
            out,
            "{:5} {verdict}: {} lines passed, {} broken, {} unsupported",
            level.name(),
            sum.passed,
            sum.broken,
            sum.unsupported
        );
    }
    if !names.is_empty() {
        let _ = writeln!(out, "these are the answers of: {}", names.join(", or of: "));
    }
    let _ = writeln!(out, "{:.2} s", took.as_secs_f64());
    out
}

fn conform(given: &Options) -> Result<(String, bool), String> {
    let rules = read_folder(&given.vectors)?;
    let asked = |rule: &&Rule| given.only.is_empty() || given.only.iter().any(|name| rule.file.starts_with(name.as_str()));
    let rules: Vec<&Rule> = rules.iter().filter(asked).collect();
    if rules.is_empty() {
        return Err(format!("no rule's file begins with {}", given.only.join(" or ")));
    }
    let known = match std::fs::read_to_string(given.vectors.join("known.wrong")) {
        Ok(text) => read_known(&text).ok_or("known.wrong has another form than this program's")?,
        Err(_) => Vec::new(),
    };
    let lines = || rules.iter().flat_map(|rule| rule.lines.iter()).filter(|line| line.level <= given.level);
    if lines().next().is_none() {
        return Err(format!("none of these rules has a line at the level of {}", given.level.name()));
    }
    let mut questions = String::with_capacity(lines().map(|line| line.question.len() + 1).sum());
    lines().for_each(|line| {
        questions.push_str(&line.question);
        questions.push('\n');
    });
    let start = Instant::now();
    let mut program = Asked::start(&given.program, questions, given.timeout)?;
    let place = |rule: &Rule, line: &Line| format!("{}:{} ({:.60})", rule.file, line.at, line.question);
    let report = run(&rules, given.level, |rule, line| program.answer(|| place(rule, line)))?;
    let (took, names) = (start.elapsed(), named(&rules, &report, given.level, &known));
    let passed = sums(&report).iter().all(|sum| sum.broken + sum.unsupported == 0);
    let text = if given.json { as_json } else { as_text };
    Ok((text(&rules, &report, given.level, &names, took), passed))
}

pub fn main() -> ExitCode {
    let (text, status) = match options().and_then(|given| given.as_ref().map(conform).transpose()) {
        Ok(None) => (format!("{HELP}\n"), 0),
        Ok(Some((text, passed))) => (text, u8::from(!passed)),
        Err(text) => {
            let _ = writeln!(std::io::stderr(), "conform: {text}");
            return ExitCode::from(2);
        }
    };
    // a reader may go away
    let _ = std::io::stdout().write_all(text.as_bytes());
    ExitCode::from(status)
}
