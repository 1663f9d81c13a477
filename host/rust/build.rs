//! Finds the archive: in the folder that ROYUKEZAN_LIB_DIR names, else in target/staticlib of this repository.

use std::env;
use std::path::PathBuf;
use std::process::exit;

const FOLDER: &str = "ROYUKEZAN_LIB_DIR";
const ARCHIVE: &str = "libroyukezan.a";

fn stop(why: String) -> ! {
    eprintln!("royukezan: {why}");
    exit(1);
}

/// What cargo tells of a build; empty where it tells nothing.
fn told(name: &str) -> String {
    env::var(name).unwrap_or_default()
}

/// The folder of the archive: the one that was named, else that of the repository around this package.
fn folder() -> PathBuf {
    match env::var_os(FOLDER).map(PathBuf::from) {
        Some(named) if named.is_absolute() => named,
        Some(named) => stop(format!("{FOLDER} is {}, which is no absolute path", named.display())),
        None => PathBuf::from(told("CARGO_MANIFEST_DIR")).join("../../target/staticlib"),
    }
}

fn main() {
    println!("cargo:rerun-if-changed=build.rs");
    println!("cargo:rerun-if-env-changed={FOLDER}");
    if told("CARGO_CFG_TARGET_ARCH") != "x86_64" || told("CARGO_CFG_TARGET_OS") != "linux" {
        stop(format!("the archive is for Linux on x86-64, not for {}", told("TARGET")));
    }
    let folder = folder();
    let archive = folder.join(ARCHIVE);
    println!("cargo:rerun-if-changed={}", archive.display());
    println!("cargo:rustc-link-search=native={}", folder.display());
    if !archive.is_file() {
        let folder = folder.display();
        stop(format!(
            "there is no {ARCHIVE} in {folder}: run tools/build royukezan in the repository, or name the archive's \
             folder in {FOLDER}"
        ));
    }
}
