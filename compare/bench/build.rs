//! Links the library of another commit beside ours, where `compare/before` has made one.

use std::path::Path;

fn main() {
    println!("cargo:rustc-check-cfg=cfg(before, values(\"none\", \"scalars\", \"header\"))");
    for name in ["SIRVESHAN_BEFORE_LIB_DIR", "SIRVESHAN_BEFORE_FORM"] {
        println!("cargo:rerun-if-env-changed={name}");
    }
    println!("cargo:rustc-cfg=before=\"{}\"", form());
}

/// The form of the call in the library that is linked: see src/before.rs.
fn form() -> String {
    let Ok(folder) = std::env::var("SIRVESHAN_BEFORE_LIB_DIR") else { return "none".into() };
    let archive = Path::new(&folder).join("libbefore.a");
    if !archive.is_absolute() || !archive.exists() {
        eprintln!("{} is not there: compare/before REV makes it", archive.display());
        std::process::exit(1);
    }
    println!("cargo:rerun-if-changed={}", archive.display());
    println!("cargo:rustc-link-search=native={folder}");
    println!("cargo:rustc-link-lib=static=before");
    std::env::var("SIRVESHAN_BEFORE_FORM").unwrap_or_default()
}
