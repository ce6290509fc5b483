//! Links libgitaymba.a from the directory that GITAYMBA_LIB_DIR names, or from where `rt lib` in crates/gitaymba writes it.
use std::env;
use std::path::PathBuf;

fn main() {
    println!("cargo::rerun-if-env-changed=GITAYMBA_LIB_DIR");
    let dir = env::var_os("GITAYMBA_LIB_DIR").map_or_else(|| PathBuf::from("../../crates/gitaymba/out"), PathBuf::from);
    // the linker runs in another directory than this script: the path must not be relative
    let Ok(archive) = dir.join("libgitaymba.a").canonicalize() else {
        println!(
            "cargo::error=there is no libgitaymba.a in {}: run `rt lib` in crates/gitaymba, or set GITAYMBA_LIB_DIR to the directory that holds it",
            dir.display()
        );
        return;
    };
    println!("cargo::rerun-if-changed={}", archive.display());
    println!("cargo::rustc-link-search=native={}", archive.parent().expect("a file stands in a directory").display());
    println!("cargo::rustc-link-lib=static=gitaymba");
}
