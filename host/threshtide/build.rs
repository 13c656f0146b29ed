//! Finds the static library that host/archive makes.

use std::path::PathBuf;
use std::process::exit;

fn main() {
    println!("cargo::rerun-if-env-changed=THRESHTIDE_LIB");
    let here = PathBuf::from(std::env::var_os("CARGO_MANIFEST_DIR").expect("run by cargo"));
    let top = here.ancestors().nth(2).expect("a crate of host/");
    let given = std::env::var_os("THRESHTIDE_LIB").map(PathBuf::from);
    let place = given.clone().unwrap_or_else(|| top.join("target/staticlib"));
    let is_file = place.extension().is_some_and(|e| e == "a");
    let archive = if is_file { place } else { place.join("libthreshtide.a") };
    println!("cargo::rerun-if-changed={}", archive.display());
    if !archive.is_file() || archive.file_name().is_none_or(|n| n != "libthreshtide.a") {
        let why = if given.is_some() { "THRESHTIDE_LIB names no such file" } else { "it is not made yet" };
        println!(
            "cargo::error=the static library {} is not there ({why}). Make it with host/archive, or set THRESHTIDE_LIB to the folder that holds libthreshtide.a",
            archive.display()
        );
        exit(1);
    }
    let folder = archive.parent().expect("a file in a folder");
    println!("cargo::rustc-link-search=native={}", folder.display());
    println!("cargo::rustc-link-lib=static=threshtide");
}
