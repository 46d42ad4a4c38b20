//! Links the archive that `./library bench_reader` makes in the repository's root.

use std::path::Path;

fn main() {
    let folder = Path::new(env!("CARGO_MANIFEST_DIR")).join("../target/staticlib");
    let archive = folder.join("libbench_reader.a");
    println!("cargo:rerun-if-changed=build.rs");
    println!("cargo:rerun-if-changed={}", archive.display());
    if !archive.is_file() {
        let missing = "target/staticlib/libbench_reader.a is missing";
        let remedy = "run ./test (or ./library bench_reader) in the repository's root first";
        eprintln!("{missing}: {remedy}");
        std::process::exit(1);
    }
    println!("cargo:rustc-link-search=native={}", folder.display());
    println!("cargo:rustc-link-lib=static=bench_reader");
    if std::env::var_os("CARGO_FEATURE_RECORDS").is_some() {
        let code = folder.join("../records/fill.o");
        println!("cargo:rerun-if-changed={}", code.display());
        println!("cargo:rustc-link-arg-bin=records={}", code.display());
    }
}
