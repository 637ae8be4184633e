//! Links the verified implementation's static libraries where the feature `verified` is on.

use std::env;
use std::path::Path;

/// Names the folder of the static libraries. A relative one is taken from this crate's folder.
const FOLDER: &str = "VEMBOPU_STATICLIB";

fn main() {
    println!("cargo::rerun-if-changed=build.rs");
    println!("cargo::rerun-if-env-changed={FOLDER}");
    if env::var_os("CARGO_FEATURE_VERIFIED").is_some() {
        link();
    }
}

fn link() {
    let here = env::var_os("CARGO_MANIFEST_DIR").expect("cargo names the crate's folder");
    let given = env::var_os(FOLDER).unwrap_or_else(|| "../target/staticlib".into());
    let folder = Path::new(&here).join(given);
    println!("cargo::rustc-link-search=native={}", folder.display());
    for name in ["exports", "controller", "lent", "offer_calls"] {
        let library = folder.join(format!("lib{name}.a"));
        if !library.is_file() {
            let library = library.display();
            println!(
                "cargo::error={library} isn't there: ./build {name} makes it; {FOLDER} names its folder"
            );
        }
        println!("cargo::rerun-if-changed={}", library.display());
        println!("cargo::rustc-link-lib=static={name}");
    }
}
