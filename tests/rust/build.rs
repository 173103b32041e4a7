//! Links the proved library where one of its functions is called: the archive that
//! `rt lib` writes in `crates/exports`, or the one in the folder `FADZGIME_LIBRARY`.

use std::env;
use std::path::PathBuf;

fn main() {
    println!("cargo::rerun-if-env-changed=FADZGIME_LIBRARY");
    if env::var_os("CARGO_FEATURE_LINKED").is_none() {
        return;
    }
    let manifest = PathBuf::from(env::var_os("CARGO_MANIFEST_DIR").expect("set by cargo"));
    let built = || manifest.join("../../crates/exports/out");
    let folder = env::var_os("FADZGIME_LIBRARY").map_or_else(built, PathBuf::from);
    println!("cargo::rerun-if-changed={}", folder.join("libexports.a").display());
    println!("cargo::rustc-link-search=native={}", folder.display());
    println!("cargo::rustc-link-lib=static=exports");
    println!("cargo::rustc-env=FADZGIME_ARCHIVE={}", folder.join("libexports.a").display());
}
