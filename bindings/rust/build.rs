//! Links the proved static library, libsirveshan.a: the one in the folder that SIRVESHAN_LIB_DIR names, or the one that
//! `rt lib` writes in crates/sirveshan. Says what is missing, and how to get it, where it cannot.

use std::ffi::OsStr;
use std::path::{Path, PathBuf};

const FOLDER: &str = "SIRVESHAN_LIB_DIR";
const ARCHIVE: &str = "libsirveshan.a";

fn main() {
    println!("cargo:rerun-if-env-changed={FOLDER}");
    println!("cargo:rerun-if-changed=build.rs");
    let chosen = std::env::var_os(FOLDER).filter(|folder| !folder.is_empty());
    let archive = match &chosen {
        Some(folder) => seen_from_caller(folder).join(ARCHIVE),
        None => project().join("crates/sirveshan/out").join(ARCHIVE),
    };
    println!("cargo:rerun-if-changed={}", archive.display());
    if let Some(words) = what_is_missing(&archive, chosen.is_some()) {
        eprintln!("\n{words}\n");
        std::process::exit(1);
    }
    let archive = archive.canonicalize().expect("a file that is there has a path");
    let folder = archive.parent().expect("a file stands in a folder");
    println!("cargo:rustc-link-search=native={}", folder.display());
    println!("cargo:rustc-link-lib=static=sirveshan");
}

/// A build script runs in the crate's folder, but a relative folder was meant from where cargo was called.
fn seen_from_caller(folder: &OsStr) -> PathBuf {
    if Path::new(folder).is_absolute() {
        return PathBuf::from(folder);
    }
    println!("cargo:rerun-if-env-changed=PWD");
    std::env::var_os("PWD").map(PathBuf::from).unwrap_or_default().join(folder)
}

/// The folder two above this crate's.
fn project() -> PathBuf {
    let here = Path::new(env!("CARGO_MANIFEST_DIR"));
    here.ancestors().nth(2).unwrap_or(here).to_path_buf()
}

fn what_is_missing(archive: &Path, chosen: bool) -> Option<String> {
    let target = std::env::var("CARGO_CFG_TARGET_ARCH").unwrap_or_default();
    if !chosen && target != "x86_64" {
        return Some(format!(
            "The proved library is for x86-64, and this build is for {target}. Either build for x86-64\n\
             (cargo --target x86_64-unknown-linux-gnu, run under an emulator), or make a library for this processor,\n\
             `compare/native FOLDER PROCESSOR` at the project's root on an x86-64 machine, and set {FOLDER}=FOLDER here."
        ));
    }
    if archive.is_file() {
        return None;
    }
    Some(if chosen {
        format!(
            "{FOLDER} is set, but {} is not there: name the folder that has {ARCHIVE}.",
            archive.display()
        )
    } else {
        format!(
            "The proved library is not there: {}. Run `rt lib` in crates/sirveshan\n\
             (rt is the Rattle toolchain; the first call proves everything, some minutes),\n\
             or set {FOLDER} to the folder that has {ARCHIVE}.",
            archive.display()
        )
    })
}
