//! MAP.md, PROMISES.md, STATEMENTS.md and EDITS.md of crates/ are what the sources say; the map has every routine that is compared, the public face is as promised,
//! and what the documents name is there.

#[test]
fn the_pages_are_current() {
    for (file, now) in pages::written() {
        let now = now.unwrap_or_else(|text| panic!("{file}: {text}"));
        let kept = checkout::root().map(|top| std::fs::read_to_string(top.join(file)).unwrap_or_default()).expect("a checkout");
        let differs = now.lines().zip(kept.lines()).find(|(now, kept)| now != kept);
        assert!(now == kept, "{file} is not what the sources say; `make map` writes it anew. First line that differs: {differs:?}");
    }
}

#[test]
fn the_map_has_every_routine() {
    assert_eq!(pages::routines().count(), 87);
}

/// Every public function has a promise, and no second answer fits it.
#[test]
fn the_public_face_has_no_fault() {
    let faults = pages::promises::faults().unwrap_or_else(|text| panic!("{text}"));
    assert!(faults.is_empty(), "{}", faults.join("\n"));
}

/// Every theorem stands in the file that the documents name, and every must-fail edit is named.
#[test]
fn the_documents_name_what_there_is() {
    let named = pages::logic::Logic::read().and_then(|logic| pages::statements::named(&logic)).unwrap_or_else(|text| panic!("{text}"));
    assert!(named.faults.is_empty(), "{}", named.faults.join("\n"));
    assert!(!named.items.is_empty() && !named.edits.is_empty());
}

/// What README and READING show of definitions, theorems and promises stands so in the crates, line by line.
#[test]
fn what_is_shown_is_there() {
    let top = checkout::root().expect("a checkout");
    let mut there = std::collections::HashSet::new();
    let mut folders = vec![top.join("crates")];
    while let Some(folder) = folders.pop() {
        for entry in std::fs::read_dir(folder).expect("a folder").flatten() {
            let path = entry.path();
            if path.is_dir() {
                folders.push(path);
            } else if path.extension().is_some_and(|kind| kind == "antt" || kind == "rt") {
                let text = std::fs::read_to_string(path).expect("it is text");
                there.extend(text.lines().map(|line| line.trim().to_string()));
            }
        }
    }
    for (page, least) in [("README.md", 4), ("docs/READING.md", 14)] {
        let (mut shown, mut fenced) = (0, false);
        for line in std::fs::read_to_string(top.join(page)).expect("a page").lines().map(str::trim) {
            match line.starts_with("```") {
                true => fenced = !fenced,
                false if fenced => {
                    assert!(there.contains(line), "{page} shows `{line}`, which no file of crates/ has");
                    shown += 1;
                }
                false => {}
            }
        }
        assert!(shown >= least, "{page}: {shown} lines");
    }
}
