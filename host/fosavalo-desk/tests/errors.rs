//! A report that goes down an error's sources says each thing once, for both crates.

use fosavalo::{FloatFault, VersionFault};
use std::error::Error;

/// An error and its sources, as reports print them.
fn reported(error: &dyn Error) -> Vec<String> {
    let (mut said, mut next) = (vec![error.to_string()], error.source());
    while let Some(source) = next {
        said.push(source.to_string());
        next = source.source();
    }
    said
}

#[test]
fn nothing_is_said_twice() {
    let core = [
        fosavalo::Refusal::BrokenImage,
        fosavalo::Refusal::Floats(FloatFault::Both),
        fosavalo::Refusal::Version(VersionFault { archive: "fosavalo", version: 0 }),
    ];
    for refusal in core {
        let desk = fosavalo_desk::Refusal::from(refusal);
        for said in [reported(&refusal), reported(&desk)] {
            let words = refusal.meaning().to_string();
            assert_eq!(said.iter().filter(|line| line.contains(&words)).count(), 1, "{said:?}");
        }
        assert_eq!((desk.to_string(), desk.number()), (refusal.to_string(), refusal.number()));
    }
}
