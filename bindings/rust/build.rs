//! Links the archive that `./library` makes in the repository's root.

use std::path::Path;

fn main() {
    let root = Path::new(env!("CARGO_MANIFEST_DIR")).join("../..");
    let folder = root.join("target/staticlib");
    let archive = folder.join("libflorinhado.a");
    println!("cargo:rerun-if-changed=build.rs");
    println!("cargo:rerun-if-changed={}", archive.display());
    if !archive.is_file() {
        let missing = "target/staticlib/libflorinhado.a is missing";
        let remedy = "run ./test (or ./library) in the repository's root first";
        eprintln!("{missing}: {remedy}");
        std::process::exit(1);
    }
    println!("cargo:rustc-link-search=native={}", folder.display());
    println!("cargo:rustc-link-lib=static=florinhado");
}
