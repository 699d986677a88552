//! The command `expand`: the legs that it lists, the bytes that it writes, and what it says of a bad pattern.

use std::path::PathBuf;
use std::process::Command;

fn said(arguments: &[&str], folder: &PathBuf) -> (Option<i32>, String, String) {
    let output = Command::new(checkout::program("fosavalo")).arg("expand").args(arguments).current_dir(folder).output().expect("it runs");
    let text = |bytes: &[u8]| String::from_utf8_lossy(bytes).into_owned();
    (output.status.code(), text(&output.stdout), text(&output.stderr))
}

/// A leg at rest at these numbers, in its nineteen words.
fn words(at: [f32; 3], t: f32) -> Vec<u8> {
    let numbers = [&at[..], &[0.0; 6], &at, &[0.0; 6], &[t]].concat();
    numbers.iter().flat_map(|x| x.to_le_bytes()).collect()
}

/// Worked out by hand: two legs, of which the second is flown twice.
#[test]
fn by_hand() {
    let folder = checkout::scratch("expands");
    let text = "# waits\nleg 1 -0.5 -4  0 0 0  0 0 0  1 -0.5 -4  0 0 0  0 0 0  2\nrepeat 2 {\n  leg 1 -0.5 -4  0 0 0  0 0 0  1 -0.5 -4  0 0 0  0 0 0  0.25 }\n";
    std::fs::write(folder.join("two waits.txt"), text).expect("it is written");
    let list = "# two_waits: 3 legs, 2.5 s; a pattern of 158 bytes, a route of 236
leg 1 -0.5 -4  0 0 0  0 0 0  1 -0.5 -4  0 0 0  0 0 0  2    # 1, of line 2
leg 1 -0.5 -4  0 0 0  0 0 0  1 -0.5 -4  0 0 0  0 0 0  0.25    # 2, of line 4
leg 1 -0.5 -4  0 0 0  0 0 0  1 -0.5 -4  0 0 0  0 0 0  0.25    # 3, of line 4
";
    let (first, second) = (words([1.0, -0.5, -4.0], 2.0), words([1.0, -0.5, -4.0], 0.25));
    let pattern = [&[0], &first[..], &[1, 2, 77, 0], &[0], &second].concat();
    let route = [&first[..], &second, &second, &3u32.to_le_bytes(), &228u32.to_le_bytes()].concat();
    for (arguments, to) in [(&["two waits.txt"][..], "flights"), (&["two waits.txt", "--out", "else/where"], "else/where")] {
        let wrote = format!("the bytes: {to}/two_waits.pattern, {to}/two_waits.route\n");
        assert_eq!(said(arguments, &folder), (Some(0), list.to_string(), wrote));
        let written = ["two_waits.pattern", "two_waits.route"].map(|name| std::fs::read(folder.join(to).join(name)).expect("it is there"));
        assert_eq!(written, [pattern.clone(), route.clone()]);
    }
    // it reads the bytes that it wrote, and tells each leg by its place there
    let by_bytes = list.replace("of line 2", "of leg 1").replace("of line 4", "of leg 2");
    let wrote = "the bytes: there/two_waits.pattern, there/two_waits.route\n".to_string();
    assert_eq!(said(&["flights/two_waits.pattern", "--out", "there"], &folder), (Some(0), by_bytes, wrote));
    let written = ["two_waits.pattern", "two_waits.route"].map(|name| std::fs::read(folder.join("there").join(name)).expect("it is there"));
    assert_eq!(written, [pattern.clone(), route.clone()]);
    // the list is a pattern again, of the same route
    std::fs::write(folder.join("again.txt"), list).expect("it is written");
    assert_eq!(said(&["again.txt"], &folder).0, Some(0));
    assert_eq!(std::fs::read(folder.join("flights/again.route")).expect("it is there"), route);
}

/// Numbers that take care: the list has the very bits.
#[test]
fn every_bit_is_listed() {
    let folder = checkout::scratch("expands-bits");
    let text =
        "leg 0x7f800001 nan -inf  1e-45 -0 0x80000001  3.4e38 0.1 16777217  inf 0x7fffffff 1e30  1e-4 123456.7 -1e-9  0 0 0  0xffc00000\n";
    std::fs::write(folder.join("bits.txt"), text).expect("it is written");
    let (code, list, _) = said(&["bits.txt"], &folder);
    assert_eq!(code, Some(0));
    std::fs::write(folder.join("again.txt"), list).expect("it is written");
    assert_eq!(said(&["again.txt"], &folder).0, Some(0));
    let [one, other] = ["bits", "again"].map(|name| std::fs::read(folder.join(format!("flights/{name}.route"))).expect("it is there"));
    assert_eq!((one == other, one.len(), &one[..4], &one[72..76]), (true, 84, &[1, 0, 0x80, 0x7f][..], &[0, 0, 0xc0, 0xff][..]));
}

#[test]
fn mistakes() {
    let folder = checkout::scratch("expands-not");
    std::fs::write(folder.join("bad.txt"), "repeat 3 {\n  leg 1 2 3\n}\n").expect("it is written");
    std::fs::write(folder.join("none.txt"), "tick 5\n").expect("it is written");
    std::fs::write(folder.join("bad.pattern"), [1, 10, 0, 0]).expect("it is written");
    let apart = [&[0], &words([0.0; 3], 1.0)[..], &[0], &words([1.0; 3], 1.0)].concat();
    std::fs::write(folder.join("apart.pattern"), apart).expect("it is written");
    for (arguments, what) in [
        (&["bad.txt"][..], "expand: bad.txt: line 2: leg: takes 19 numbers, here are 3\n"),
        (&["none.txt"], "expand: none.txt: no legs: "),
        (&["bad.pattern"], "expand: bad.pattern: refused (12): the pattern has a tag, a count, a depth or a length that none has\n"),
        (&["apart.pattern"], "expand: apart.pattern: refused (7): leg 2 of the route does not start where leg 1 ends\n"),
        (&["missing.txt"], "expand: missing.txt: "),
        (&[], "expand: which pattern? "),
        (&["bad.txt", "bad.txt"], "expand: one pattern at a time"),
        (&["--other"], "expand: `--other` is no option"),
        (&["--out"], "expand: --out wants a folder"),
    ] {
        let (code, out, err) = said(arguments, &folder);
        assert_eq!((code, out.as_str(), err.starts_with(what), err.lines().count()), (Some(2), "", true, 1), "{err}");
    }
    assert!(!folder.join("flights").exists());
    let (code, out, _) = said(&["--help"], &folder);
    assert!(code == Some(0) && ["repeat N { .. }", "leg NUMBERS", "--out FOLDER", "--help"].iter().all(|word| out.contains(word)));
}
