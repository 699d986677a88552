//! Where the checkout is and what was built in it, asked when a program runs. A path that `env!` puts into a program stays that of the
//! checkout where it was compiled: cargo takes the program as current in a copy of it, which would then work on the original.

use std::path::{Path, PathBuf};

/// What the top of a checkout has, and no folder below it.
const TOP: [&str; 2] = ["crates.txt", "host/Cargo.toml"];

/// The top of the checkout that the current directory is in.
pub fn root() -> Result<PathBuf, String> {
    let here = std::env::current_dir().map_err(|error| format!("the current directory: {error}"))?;
    root_of(&here)
        .map(Path::to_path_buf)
        .ok_or_else(|| format!("{} is in no checkout of this repository: run it inside of one", here.display()))
}

fn root_of(folder: &Path) -> Option<&Path> {
    folder.ancestors().find(|above| TOP.iter().all(|file| above.join(file).is_file()))
}

/// The folder of the programs that were built with this test: it stands in `deps` there.
fn built() -> PathBuf {
    let test = std::env::current_exe().expect("a test knows its own executable");
    test.ancestors().nth(2).expect("a test is built into a folder `deps`").to_path_buf()
}

/// For tests: a program of the test's own package, as it was built with it.
pub fn program(name: &str) -> PathBuf {
    built().join(name)
}

/// For tests: a folder of this name to write into, empty.
pub fn scratch(name: &str) -> PathBuf {
    let folder = built().join("scratch").join(name);
    if folder.exists() {
        std::fs::remove_dir_all(&folder).unwrap_or_else(|error| panic!("{}: {error}", folder.display()));
    }
    std::fs::create_dir_all(&folder).unwrap_or_else(|error| panic!("{}: {error}", folder.display()));
    folder
}

#[cfg(test)]
mod tests {
    use super::*;

    /// The top is found from anywhere below it, the copy within another checkout as itself, and outside of any there is none.
    #[test]
    fn the_nearest_top_is_found() {
        let top = scratch("tops");
        let inner = top.join("copies/inner");
        for top in [&top, &inner] {
            std::fs::create_dir_all(top.join("host/pages")).expect("a folder");
            TOP.iter().for_each(|file| std::fs::write(top.join(file), "").expect("a file"));
        }
        assert_eq!(root_of(&top.join("host/pages")), Some(top.as_path()));
        assert_eq!(root_of(&top.join("copies")), Some(top.as_path()));
        assert_eq!(root_of(&inner.join("host")), Some(inner.as_path()));
        assert_eq!(root_of(Path::new("/")), None);
    }

    #[test]
    fn a_test_is_in_its_own_checkout() {
        assert_eq!(root().map(|top| top.join("host/checkout")), std::env::current_dir().map_err(|error| error.to_string()));
    }
}
