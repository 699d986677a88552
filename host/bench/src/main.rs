//! `make bench`: each of our calls beside what it is measured against, through the same kind of call, in one run.
//! `make stack`: the stack that each of the core's calls takes.

mod angles;
mod desk;
mod flown;
mod joint;
mod log;
mod pattern;
mod route;
mod slow;
mod stack;
mod tries;

use compare::println;
use std::hint::black_box;
use std::process::ExitCode;
use std::time::Instant;

/// The other side's calls, kept out of line as ours are.
mod theirs {
    #[inline(never)]
    pub extern "C" fn sqrtf(x: f32) -> f32 {
        x.sqrt()
    }
}

/// The run in the profile for a lost rotor.
const LOST: &str = "rotor lost";

const CALLS: usize = 4096;
const ROUNDS: usize = 60;
const TRIES: usize = 101;

/// The least over many tries of the nanoseconds that one call takes, the two sides taking turns: what else the machine does only adds.
fn pair(ours: impl Fn(f32) -> f32, theirs: impl Fn(f32) -> f32, inputs: &[f32]) -> (f64, f64) {
    let once = |f: &dyn Fn(&[f32]) -> f32| {
        let start = Instant::now();
        for _ in 0..ROUNDS {
            black_box(f(black_box(inputs)));
        }
        start.elapsed().as_nanos() as f64 / (ROUNDS * inputs.len()) as f64
    };
    // independent calls: no call waits for the answer of the one before it
    let a = |xs: &[f32]| xs.iter().fold(0.0f32, |last, &x| if ours(x) == -7.0 { x } else { last });
    let b = |xs: &[f32]| xs.iter().fold(0.0f32, |last, &x| if theirs(x) == -7.0 { x } else { last });
    (0..TRIES).fold((f64::INFINITY, f64::INFINITY), |least, _| (once(&a).min(least.0), once(&b).min(least.1)))
}

/// Numbers in 0..1, the same every time.
pub struct Rng(u64);

impl Rng {
    pub fn draw(&mut self) -> f64 {
        self.0 = self.0.wrapping_mul(6_364_136_223_846_793_005).wrapping_add(1_442_695_040_888_963_407);
        (self.0 >> 11) as f64 / (1u64 << 53) as f64
    }
}

fn line(name: &str, (ours, theirs): (f64, f64), bar: f64) -> bool {
    let ratio = ours / theirs;
    let verdict = if ratio <= bar { "within" } else { "OVER" };
    println!("{name:48} ours {ours:6.2} ns  other {theirs:6.2} ns  ratio {ratio:5.2}  ({verdict} the bar of {bar})");
    ratio <= bar
}

/// The same with no bar.
fn free(name: &str, (ours, theirs): (f64, f64)) {
    println!("{name:48} ours {ours:6.2} ns  other {theirs:6.2} ns  ratio {:5.2}  (no bar)", ours / theirs);
}

/// The longest log beside the shortest: what goes with the length would be thousands of times as much. A bar leaves room for what the longest
/// log, seven megabytes, costs the memory. An append has a bar in nanoseconds too, at each length.
fn logs() -> bool {
    let Some(times) = log::times() else {
        println!("flight log: a call is refused");
        return false;
    };
    let mut good = true;
    for (name, times, bar, longest) in [("append", times.append, 1.5, Some(log::BAR)), ("read, a record", times.read, 3.0, None)] {
        let [one, thousand, most] = times;
        let (ratio, [_, _, count]) = (most / one, log::COUNTS);
        let within = ratio <= bar && longest.is_none_or(|longest| times.iter().all(|&time| time <= longest));
        let verdict = if within { "within" } else { "OVER" };
        let bars = longest.map_or(format!("bar of {bar}"), |longest| format!("bars of {bar} and {longest} ns"));
        println!(
            "{:48} 1: {one:5.2} ns  1000: {thousand:5.2} ns  {count}: {most:5.2} ns  ratio {ratio:5.2}  ({verdict} the {bars})",
            format!("flight log, {name}, by the records in it")
        );
        good &= within;
    }
    good
}

/// The check of the longest log, beside reading each of its records once.
fn checks() -> bool {
    let Some(times) = log::checked() else {
        println!("log check: a call is refused, or a verdict is wrong");
        return false;
    };
    let mut good = true;
    for ((flown, _), [ours, read]) in log::FLOWN.into_iter().zip(times) {
        good &= line(&format!("log check, a record, {flown}"), (ours, read), 3.0);
    }
    good
}

/// The route tick by the legs of the route and the leg flown, beside the Rust's calls on the same legs.
fn routes() -> bool {
    let Some(times) = route::times(&joint::pass()) else {
        println!("route tick: the sides answer differently");
        return false;
    };
    let mut good = true;
    for ((legs, flown), [ours, theirs, no_joins, plain]) in route::CASES.into_iter().zip(times) {
        good &= line(&format!("route tick, leg {} of {legs}, Rust from the bytes", flown + 1), (ours, theirs), 1.0);
        free("  .. and Rust that compares no joins", (ours, no_joins));
        let name = "  .. and a plain tick";
        if legs == 1 {
            good &= line(name, (ours, plain), route::BAR);
        } else {
            free(name, (ours, plain));
        }
    }
    good
}

/// The slow shield's longest search, and the longest list with none.
fn slow_shield() -> bool {
    let Some([far, near]) = slow::times() else {
        println!("slow shield: a call is refused, or a flag is wrong");
        return false;
    };
    let (name, within) = ("slow shield, 65,535 margins", far <= slow::BAR);
    let verdict = if within { "within" } else { "OVER" };
    println!("{name:48} far back: {far:5.2} s  not at all: {:5.2} ms  ({verdict} the bar of {} s)", near * 1e3, slow::BAR);
    within
}

/// The desk tick, and its stack: the least of visits that are seconds apart.
fn desks(visits: &[Option<desk::Times>]) -> bool {
    let Some(visits) = visits.iter().copied().collect::<Option<Vec<_>>>() else {
        println!("desk tick: a call is refused, or the sides answer differently");
        return false;
    };
    let never = (f64::INFINITY, f64::INFINITY);
    let times = visits.iter().fold(never, |least, (now, _)| (least.0.min(now.0), least.1.min(now.1)));
    let depth = visits.iter().filter_map(|(_, depth)| *depth).max();
    let within = line("desk tick, against a plain tick of what it flies", times, desk::BAR);
    let shallow = depth.map(|depth| {
        println!("{:48} {depth:6} B   (the bar is {} B)", "  .. and the stack that one takes", stack::BAR);
        depth <= stack::BAR
    });
    within && shallow.unwrap_or(true)
}

/// The patterns that would take longest if a body were walked as often as it is flown.
fn patterns() -> bool {
    let Some([alone, beside, about]) = pattern::times() else {
        println!("pattern: another number is said");
        return false;
    };
    let within = alone.max(beside) <= pattern::BAR;
    println!(
        "{:48} alone: {alone:5.3} ms  between legs: {beside:5.3} ms  ({} the bar of {} ms)  about a leg flown 27 times: {about:5.3} ms  (no bar)",
        "pattern, 16,381 empty repeats in three of 9",
        if within { "within" } else { "OVER" },
        pattern::BAR
    );
    within
}

/// The stack of each call, the most over a slow pass, one with random headings, one with a rotor lost and one with a NaN in its image.
fn stacks() -> bool {
    let runs = [joint::pass(), joint::headings(), joint::lost_rotor(), joint::with_a_nan()];
    let Some(depths) = runs.iter().map(joint::stacks).collect::<Option<Vec<_>>>() else {
        println!("the stack is not measured on this machine");
        return false;
    };
    let Some(by_desk) = desk::stacks(&runs[0], compare::joint::bytes::MOST_LEGS) else {
        println!("a desk tick is refused");
        return false;
    };
    let most = |k: usize| depths.iter().map(|depths| depths[k]).max().unwrap_or(0);
    let (ours, rust) = joint::CALLS.split_at(joint::RUST);
    let mut good = true;
    for (name, bytes) in ours.iter().zip((0..).map(most)).chain(desk::CALLS.iter().zip(by_desk)) {
        let within = bytes <= stack::BAR;
        println!("{name:28} {bytes:6} B  ({} the bar of {})", if within { "within" } else { "OVER" }, stack::BAR);
        good &= within;
    }
    rust.iter().for_each(|name| println!("{name:28} {:6} B  (no bar)", most(joint::RUST)));
    good
}

const USAGE: &str = "bench          times, as ratios to the other side in one run; ends with 1 where one is over its bar
bench stack    the stack that each C call takes
bench --help   this";

fn main() -> ExitCode {
    let words: Vec<String> = std::env::args_os().skip(1).map(|word| word.to_string_lossy().into_owned()).collect();
    let words: Vec<&str> = words.iter().map(String::as_str).collect();
    let good = match words[..] {
        [] => all(),
        ["stack"] => stacks(),
        ["--help" | "-h"] => {
            println!("{USAGE}");
            true
        }
        _ => {
            eprintln!("bench: `{}` is nothing that it measures (bench --help)", words.join(" "));
            return ExitCode::from(2);
        }
    };
    ExitCode::from(u8::from(!good))
}

/// Every row; whether each is within its bar.
fn all() -> bool {
    let mut rng = Rng(1);
    let positive: Vec<f32> = (0..CALLS).map(|_| (rng.draw() * 1000.0) as f32).collect();
    // Three visits, with the ticks between them: what disturbs the machine for a second or two meets one of them only.
    let mut least = (f64::INFINITY, f64::INFINITY);
    let mut visit = || {
        let now = pair(archives::sqrtf, |x| theirs::sqrtf(x), &positive);
        least = (least.0.min(now.0), least.1.min(now.1));
    };
    let mut good = flown::rows();
    visit();
    let mut whole = f64::INFINITY;
    for (name, run) in [("slow pass", joint::pass()), ("headings", joint::headings()), (LOST, joint::lost_rotor())] {
        if !joint::alike(&run) {
            println!("joint tick, {name}: the sides answer differently");
            good = false;
        }
        let times = joint::times(&run);
        let made = format!("joint tick, {name}, Rust made from the image");
        if name == LOST {
            // no sine nor cosine and fewer roots, of which our time is made
            free(&made, (times.ours, times.made));
            good &= line("  .. and with all rotors, the quicker of both", (times.ours, whole), 0.6);
        } else {
            good &= line(&made, (times.ours, times.made), 0.7);
            whole = whole.min(times.ours);
        }
        free("  .. and Rust with its objects kept", (times.ours, times.kept));
        if let Some(before) = times.before.filter(|_| name != LOST) {
            free("  .. and the archive before", (times.ours, before));
        }
        match joint::stacks(&run) {
            Some(depths) => println!(
                "{:48} ours {:6} B   other {:6} B",
                "  .. and the stack that one tick takes",
                depths[joint::TICKED],
                depths[joint::RUST]
            ),
            None => println!("  .. and the stack that one tick takes: not measured on this machine"),
        }
        visit();
    }
    good &= line("root, against the hardware's", least, 2.5);
    let pass = joint::pass();
    let mut desk = vec![desk::times(&pass)];
    good &= angles::rows(&mut rng);
    desk.push(desk::times(&pass));
    good &= routes();
    good &= logs();
    good &= checks();
    desk.push(desk::times(&pass));
    good &= desks(&desk);
    good &= slow_shield();
    good &= patterns();
    good
}
