//! `fly` says what set-up mended of a scenario, and which filter it took though it is no use; and nothing where there is nothing to say.

use std::process::Command;

fn said(scenario: &str, name: &str) -> String {
    let folder = checkout::scratch(name);
    let file = folder.join("flight.txt");
    std::fs::write(&file, scenario).expect("it is written");
    // no gnuplot is found
    let flown = Command::new(checkout::program("fosavalo"))
        .arg("fly")
        .arg(&file)
        .arg("--out")
        .arg(&folder)
        .env("PATH", "")
        .output()
        .expect("it runs");
    assert_eq!(flown.status.code(), Some(0), "{}", String::from_utf8_lossy(&flown.stderr));
    String::from_utf8(flown.stdout).expect("it is text")
}

#[test]
fn an_exit_under_its_enter() {
    let flown = said("enter 0.5\nexit 0.25\ntick 10\n", "mended");
    let lines: Vec<&str> = flown.lines().collect();
    assert_eq!(lines[0], "set-up mended exit: given 0.25, kept 1: it has to be finite and above enter");
    assert!(lines[1].starts_with("flight: ") && lines[1].ends_with("enter 0.5, exit 1"), "{}", lines[1]);
    assert!(!said("enter 0.5\nexit 0.75\ntick 10\n", "as-it-is").contains("mended"));
}

#[test]
fn a_filter_that_is_taken_and_no_use() {
    let first = |scenario: &str, name: &str| said(scenario, name).lines().next().unwrap_or_default().to_string();
    let off = "set-up took the filter, but the cut-off fc is below fs / 25586: nothing is let through, and the filtered rate is 0 for ever";
    assert_eq!(first("fc 0.03\nfs 1000\ntick 10\n", "switched-off"), off);
    let open = "set-up took the filter, but the cut-off fc is next to half of fs: next to nothing is filtered";
    assert_eq!(first("fc 499\nfs 1000\ntick 10\n", "hardly"), open);
    assert!(first("fc 80\nfs 1000\ntick 10\n", "usual").starts_with("flight: "));
}
