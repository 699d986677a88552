/// The sources are of another package: cargo knows such files by their whole path, and in a copy of the checkout would look at those of the original.
fn main() {
    println!("cargo:rerun-if-changed=../compare/src");
}
