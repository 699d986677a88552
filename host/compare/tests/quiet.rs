//! `table | head` ends quietly.

use std::process::{Command, Stdio};

#[test]
fn a_reader_that_goes_away_is_no_mistake() {
    // as it was built with this test, which is in a folder `deps` beside it
    let test = std::env::current_exe().expect("a test knows where it is");
    let program = test.ancestors().nth(2).expect("a folder").join("table");
    let mut child = Command::new(program).stdout(Stdio::piped()).stderr(Stdio::piped()).spawn().expect("it runs");
    drop(child.stdout.take());
    let ended = child.wait_with_output().expect("it ends");
    assert_eq!((ended.status.code(), String::from_utf8_lossy(&ended.stderr).as_ref()), (Some(0), ""));
}
