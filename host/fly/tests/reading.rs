//! Checking takes hardly longer than reading. By itself: the time that other tests' programs take would count.

use fosavalo::{Log, Record, MOST_RECORDS};
use std::io::Write;
use std::path::Path;
use std::process::{Command, Stdio};

/// User and system time of the programs that have ended, in the kernel's ticks.
fn spent() -> Option<u64> {
    let text = std::fs::read_to_string("/proc/self/stat").ok()?;
    let (_, fields) = text.rsplit_once(')')?;
    let field = |at: usize| fields.split_whitespace().nth(at)?.parse::<u64>().ok();
    Some(field(13)? + field(14)?)
}

fn time(command: &mut Command) -> u64 {
    let before = spent().unwrap_or(0);
    assert!(command.stdout(Stdio::null()).stderr(Stdio::null()).status().expect("it runs").success());
    spent().unwrap_or(0) - before
}

/// Three hundred full logs: at most three times `cat`'s time, in one run.
#[cfg(unix)]
#[test]
fn three_hundred_full_logs() {
    if spent().is_none() || Command::new("cat").arg("/dev/null").status().is_err() {
        eprintln!("no /proc or no cat, so nothing was looked at");
        return;
    }
    let folder = checkout::scratch("three-hundred");
    let mut log = Log::with_capacity(MOST_RECORDS);
    let mut record = [0; 108];
    record[104..].copy_from_slice(&2f32.to_le_bytes());
    log.try_extend(std::iter::repeat_n(Record::from_bytes(&record).expect("it has the length"), MOST_RECORDS)).expect("it fits");
    let file = |k: usize| folder.join(format!("{k:03}.log"));
    std::fs::write(file(0), log.as_bytes()).expect("it is written");
    (1..300).for_each(|k| std::os::unix::fs::symlink(file(0), file(k)).expect("a link"));
    let program: &Path = &checkout::program("fosavalo");
    let mut best = f64::INFINITY;
    for _ in 0..3 {
        let cat = time(Command::new("cat").args((0..300).map(file))).max(1);
        let check = time(Command::new(program).args(["check", "--enter=0.5", "--exit=1"]).arg(&folder));
        best = best.min(check as f64 / cat as f64);
    }
    // in the gate's own log, where the lines of a test that passes are not shown
    let _ = writeln!(std::io::stderr(), "check of 300 full logs: {best:.2} of the time of cat, at most 3 are wanted");
    assert!(best <= 3.0, "{best}");
}
