//! Links libfront_end.a from the folder that FRONT_END_LIB names; without it, from target/staticlib of the repository.
use std::{env, path::Path};

fn main() {
    let machine = std::env::var("CARGO_CFG_TARGET_ARCH").unwrap_or_default();
    if machine != "x86_64" {
        eprintln!("libfront_end.a is for x86-64, and this build is for {}: build with --target x86_64-unknown-linux-gnu", machine);
        std::process::exit(1);
    }
    println!("cargo:rerun-if-env-changed=FRONT_END_LIB");
    let own = Path::new(&env::var("CARGO_MANIFEST_DIR").unwrap()).join("../../target/staticlib");
    let folder = env::var("FRONT_END_LIB").unwrap_or_else(|_| own.display().to_string());
    let archive = format!("{}/libfront_end.a", folder);
    assert!(Path::new(&archive).exists(), "{} is missing: `scripts/archive` makes it", archive);
    println!("cargo:rerun-if-changed={}", archive);
    println!("cargo:rustc-link-search=native={}", folder);
    println!("cargo:rustc-link-lib=static=front_end");
}
