//! Links the proved static library `libexports.a`: that of the folder in `FIRROZUN_LIB`, as it is; or else that in
//! `crates/exports/out` of the repository, which `tools/build library` brings up to date first. If it cannot, nothing is linked.

use std::path::{Path, PathBuf};
use std::process::{exit, Command, Stdio};
use std::{env, io};

const ARCHIVE: &str = "libexports.a";
/// The script that tells whether the library is up to date, and builds it if it is not. Only building wants `rt`.
const BUILD: &str = "tools/build";

fn main() {
    println!("cargo:rerun-if-env-changed=FIRROZUN_LIB");
    println!("cargo:rerun-if-changed=build.rs");
    let target = |name: &str| env::var(name).unwrap_or_default();
    if target("CARGO_CFG_TARGET_ARCH") != "x86_64" || target("CARGO_CFG_TARGET_OS") != "linux" {
        refuse("the proved library is compiled for Linux on x86-64 only");
    }
    let folder = match env::var_os("FIRROZUN_LIB") {
        Some(folder) => lent(Path::new(&folder)),
        None => own(),
    };
    println!("cargo:rerun-if-changed={}", folder.join(ARCHIVE).display());
    println!("cargo:rustc-link-search=native={}", folder.display());
    println!("cargo:rustc-link-lib=static=exports");
}

/// The folder that `FIRROZUN_LIB` names.
fn lent(folder: &Path) -> PathBuf {
    match folder.canonicalize() {
        Ok(folder) if folder.join(ARCHIVE).is_file() => folder,
        _ => refuse(&format!(
            "FIRROZUN_LIB is {}, and there is no {ARCHIVE} in it",
            folder.display()
        )),
    }
}

/// The repository's own folder, with the library up to date. Cargo runs this again when a source of the library has changed.
fn own() -> PathBuf {
    let here = PathBuf::from(env::var_os("CARGO_MANIFEST_DIR").unwrap_or_default());
    let root = match here.join("../..").canonicalize() {
        Ok(root) if root.join("crates.txt").is_file() => root,
        _ => refuse(&format!(
            "this crate does not stand in Firrozun's repository; set FIRROZUN_LIB to the folder of {ARCHIVE}"
        )),
    };
    for source in ["crates.txt", BUILD] {
        println!("cargo:rerun-if-changed={}", root.join(source).display());
    }
    let crates = root.join("crates");
    for part in below(&crates).iter().flat_map(|folder| below(folder)) {
        // There rt puts what it makes.
        if part.file_name() != Some("out".as_ref()) {
            println!("cargo:rerun-if-changed={}", part.display());
        }
    }
    bring_up_to_date(&root);
    crates.join("exports").join("out")
}

/// The files and folders in a folder; none in a file.
fn below(folder: &Path) -> Vec<PathBuf> {
    let entries = folder.read_dir().into_iter().flatten();
    entries.flatten().map(|entry| entry.path()).collect()
}

fn bring_up_to_date(root: &Path) {
    let elsewhere = format!("to link a {ARCHIVE} as it is, set FIRROZUN_LIB to its folder");
    // What a build script writes to standard output is for cargo.
    let status = Command::new(root.join(BUILD))
        .arg("library")
        .stdin(Stdio::null())
        .stdout(io::stderr())
        .status();
    match status {
        Ok(status) if status.success() => {}
        Ok(status) => refuse(&format!(
            "`{BUILD} library` in {} failed ({status}), and said why above; {elsewhere}",
            root.display()
        )),
        Err(error) => refuse(&format!(
            "`{BUILD} library` in {} could not be started, and wants bash: {error}; {elsewhere}",
            root.display()
        )),
    }
}

fn refuse(why: &str) -> ! {
    eprintln!("firrozun: {why}");
    exit(1);
}
