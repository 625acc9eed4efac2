//! Links the proved rules, which `panel/archive` writes to target/staticlib.

use std::env;
use std::path::Path;
use std::process::exit;

fn main() {
    let panel = env::var("CARGO_MANIFEST_DIR").expect("cargo sets CARGO_MANIFEST_DIR");
    let folder = Path::new(&panel).join("../target/staticlib");
    let archive = folder.join("librules.a");
    println!("cargo:rerun-if-changed={}", archive.display());
    if !archive.is_file() {
        eprintln!("panel: there is no {}", archive.display());
        eprintln!("panel: run 'panel/archive' at the repository's root first");
        exit(1);
    }
    println!("cargo:rustc-link-search=native={}", folder.display());
    println!("cargo:rustc-link-lib=static=rules");
}
