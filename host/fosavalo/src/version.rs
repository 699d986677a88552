use core::fmt;

/// The crate's own version, of the form of [`calls::version`](crate::calls::version).
const OWN: u32 = (digits(env!("CARGO_PKG_VERSION_MAJOR")) << 16)
    + (digits(env!("CARGO_PKG_VERSION_MINOR")) << 8)
    + digits(env!("CARGO_PKG_VERSION_PATCH"));

const fn digits(text: &str) -> u32 {
    let (mut left, mut number) = (text.as_bytes(), 0);
    while let [digit, rest @ ..] = left {
        number = 10 * number + (*digit - b'0') as u32;
        left = rest;
    }
    number
}

/// That an archive is of another version than the crate that it is linked with: what a word means may then differ, so set-up is refused.
///
/// ```
/// use fosavalo::{calls, VersionFault};
///
/// assert_eq!(VersionFault::check("fosavalo", calls::version()), Ok(()));
/// let told = VersionFault::check("fosavalo", 0x0e02).map_err(|fault| fault.to_string());
/// let own = env!("CARGO_PKG_VERSION");
/// let both = format!("libfosavalo.a is of version 0.14.2, its crate of {own}");
/// assert_eq!(told, Err(format!("{both}: link both of one release")));
/// ```
#[derive(Clone, Copy, Debug, PartialEq, Eq, Hash)]
pub struct VersionFault {
    /// The archive's name, between `lib` and `.a`.
    pub archive: &'static str,
    /// What it says of itself, as [`calls::version`](crate::calls::version) has it.
    pub version: u32,
}

impl VersionFault {
    /// Whether an archive that says this of itself is of the crate's version.
    pub const fn check(archive: &'static str, version: u32) -> Result<(), VersionFault> {
        if version == OWN {
            Ok(())
        } else {
            Err(VersionFault { archive, version })
        }
    }
}

impl fmt::Display for VersionFault {
    fn fmt(&self, f: &mut fmt::Formatter<'_>) -> fmt::Result {
        let [_, major, minor, patch] = self.version.to_be_bytes();
        let own = env!("CARGO_PKG_VERSION");
        write!(f, "lib{}.a is of version {major}.{minor}.{patch}, its crate of {own}: link both of one release", self.archive)
    }
}

impl core::error::Error for VersionFault {}
