//! Links the proved library, `libexports.a`.

use std::env;
use std::path::{Path, PathBuf};

fn main() {
    println!("cargo::rerun-if-env-changed=RULES_LIB_DIR");
    let folder = match env::var_os("RULES_LIB_DIR") {
        Some(folder) => PathBuf::from(folder),
        None => (Path::new(env!("CARGO_MANIFEST_DIR")).ancestors().nth(3))
            .expect("the repository")
            .join("target/staticlib"),
    };
    let library = folder.join("libexports.a");
    println!("cargo::rerun-if-changed={}", library.display());
    if !library.is_file() {
        println!(
            "cargo::error={} is missing: run `make library` first, or set RULES_LIB_DIR to its folder",
            library.display()
        );
    }
    println!("cargo::rustc-link-search=native={}", folder.display());
    println!("cargo::rustc-link-lib=static=exports");
}
