//! Finds the archive to link: in the folder that CALSTWID_LIB names, or the file that it names; else in the repository's target/lib, built there where
//! it is missing.
use std::path::{Path, PathBuf};
use std::process::{exit, Command, Stdio};

const ARCHIVE: &str = "libcalstwid.a";
const TO_RUN: &str = "run tools/library/build in a clone of Calstwid, or set CALSTWID_LIB to the folder that has libcalstwid.a";

fn stop(why: &str) -> ! {
    eprintln!("calstwid: {why}: {TO_RUN}");
    exit(1)
}

/// The archive in the clone that this crate stands in.
fn of_the_clone() -> PathBuf {
    let root = Path::new(env!("CARGO_MANIFEST_DIR")).join("../..");
    let root = root.canonicalize().unwrap_or(root);
    let archive = root.join("target/lib").join(ARCHIVE);
    if archive.exists() {
        return archive;
    }
    let build = root.join("tools/library/build");
    if !build.exists() {
        stop(&format!("neither {} nor {} is there", archive.display(), build.display()));
    }
    // What it prints goes to standard error: cargo reads a build script's standard output.
    let ran = Command::new(&build).current_dir(&root).stdout(Stdio::from(std::io::stderr())).status();
    if !matches!(ran, Ok(status) if status.success()) || !archive.exists() {
        eprintln!("calstwid: {} failed; CALSTWID_LIB may name a folder that has {ARCHIVE}", build.display());
        exit(1);
    }
    archive
}

fn main() {
    println!("cargo:rerun-if-env-changed=CALSTWID_LIB");
    let archive = match std::env::var_os("CALSTWID_LIB").map(PathBuf::from) {
        None => of_the_clone(),
        Some(path) if path.is_dir() => path.join(ARCHIVE),
        Some(path) => path,
    };
    if !archive.exists() {
        stop(&format!("{} is not there", archive.display()));
    }
    let name = archive.file_name().and_then(|name| name.to_str()).and_then(|name| name.strip_prefix("lib")?.strip_suffix(".a"));
    let (Some(folder), Some(name)) = (archive.parent(), name) else {
        stop(&format!("{} is no archive named lib...a", archive.display()));
    };
    println!("cargo:rerun-if-changed={}", archive.display());
    println!("cargo:rustc-link-search=native={}", folder.display());
    println!("cargo:rustc-link-lib=static={name}");
}
