//! Finds the static library that `tools/dev staticlib wakeluri` makes of the proved code, and links it.

use std::env;
use std::path::PathBuf;
use std::process::exit;

fn main() {
    println!("cargo::rerun-if-env-changed=WAKELURI_LIB");
    let target = env::var("TARGET").unwrap_or_default();
    let root = PathBuf::from(env::var_os("CARGO_MANIFEST_DIR").unwrap_or_default()).join("../..");
    // WAKELURI_LIB names the library or its folder; without it, the library is where the tool puts it
    let library = match env::var_os("WAKELURI_LIB").map(PathBuf::from) {
        Some(named) if named.is_dir() => named.join("libwakeluri.a"),
        Some(named) => named,
        None => root.join("target").join(&target).join("libwakeluri.a"),
    };
    println!("cargo::rerun-if-changed={}", library.display());
    let (Ok(library), "libwakeluri.a") =
        (library.canonicalize(), library.file_name().unwrap_or_default().to_str().unwrap_or_default())
    else {
        println!("cargo::error=no proved library at {}", library.display());
        println!(
            "cargo::error=make it with `tools/dev staticlib {target} wakeluri`, or name a libwakeluri.a in WAKELURI_LIB"
        );
        exit(1);
    };
    // which kit proved it stands beside it, if the tool made it
    let kit = std::fs::read_to_string(library.with_extension("kit")).unwrap_or_default();
    let kit = kit.lines().next().unwrap_or("a kit that is not known");
    println!("cargo::rustc-env=WAKELURI_KIT={kit}");
    if let Some(folder) = library.parent() {
        println!("cargo::rustc-link-search=native={}", folder.display());
    }
    println!("cargo::rustc-link-lib=static=wakeluri");
    // for the test that calls the same library from C
    println!("cargo::rustc-env=WAKELURI_LINKED={}", library.display());
}
