//! Links the proved library where the feature `proved` asks for it.

use std::env;
use std::path::Path;

fn main() {
    println!("cargo:rerun-if-changed=build.rs");
    if env::var_os("CARGO_FEATURE_PROVED").is_none() {
        return;
    }
    let here = env::var("CARGO_MANIFEST_DIR").expect("cargo names the package's folder");
    let built = Path::new(&here).join("../target/staticlib");
    println!("cargo:rustc-link-search=native={}", built.display());
    println!("cargo:rustc-link-lib=static=justification");
    println!("cargo:rerun-if-changed={}", built.join("libjustification.a").display());
}
