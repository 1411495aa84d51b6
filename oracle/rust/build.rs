//! Names the Rust's files, wherever they are, as modules: none of them is copied.
use std::{env, fs, path::Path};

fn main() {
    let from = env::var("PUREMP3").expect("PUREMP3: the folder of decoder.rs; oracle/build sets it");
    println!("cargo:rerun-if-env-changed=PUREMP3");
    let here = env::var("CARGO_MANIFEST_DIR").unwrap();
    let mut text = String::new();
    for name in &["error", "huffman", "requantize", "stereo", "synthesis", "types"] {
        text += &format!("#[path = {:?}] pub mod {};\n", format!("{}/{}.rs", from, name), name);
    }
    let tables = format!("{}/tables.rs", from);
    if env::var("CARGO_FEATURE_STANDARD_BANDS").is_ok() {
        text += &format!("pub mod tables {{ mod published {{ include!({:?}); }} include!(\"{}/../rust/bands.rs\"); }}\n", tables, here);
    } else {
        text += &format!("#[path = {:?}] pub mod tables;\n", tables);
    }
    // What stands beside the included file can call its private functions.
    text += &format!("pub mod decoder {{ include!(\"{}/decoder.rs\"); include!(\"{}/../rust/inside.rs\"); }}\n", from, here);
    fs::write(Path::new(&env::var("OUT_DIR").unwrap()).join("modules.rs"), text).unwrap();
}
