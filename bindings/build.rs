//! Links the static library that `rt lib` writes in `crates/exports`. The
//! timed test of the reads finds `libtimed.a` in `crates/timed`, if it is
//! there.

use std::path::Path;

fn main() {
    let crates = Path::new(env!("CARGO_MANIFEST_DIR")).join("../crates");
    let library = crates.join("exports/out/libexports.a");
    if !library.exists() {
        panic!(
            "{} is missing: run `rt lib` in crates/exports",
            library.display()
        );
    }
    for (name, archive) in [("exports", "libexports.a"), ("timed", "libtimed.a")] {
        let folder = crates.join(name).join("out");
        println!("cargo:rerun-if-changed={}", folder.join(archive).display());
        println!("cargo:rustc-link-search=native={}", folder.display());
    }
    println!("cargo:rustc-link-lib=static=exports");
}
