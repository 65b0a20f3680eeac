//! Takes the published module by path, tests its sha256 and hands it to the compiler from OUT_DIR.

use std::path::{Path, PathBuf};
use std::process::{Command, exit};
use std::{env, fs};

const NAME: &str = "polynomial_evaluation.rs";
const DEFAULT: &str = "../../shared/docs/src/poulpy-core/src/layouts/polynomial_evaluation.rs";

fn main() {
    let here = PathBuf::from(env::var("CARGO_MANIFEST_DIR").unwrap());
    let source = match env::var_os("POULPY") {
        Some(path) => PathBuf::from(path),
        None => here.join(DEFAULT),
    };
    println!("cargo::rerun-if-env-changed=POULPY");
    println!("cargo::rerun-if-changed={}", source.display());
    println!("cargo::rerun-if-changed=SHA256");
    println!("cargo::rerun-if-changed=build.rs");

    let out = PathBuf::from(env::var("OUT_DIR").unwrap());
    let copy = out.join(NAME);
    // The copy is tested and compiled, so no later change of the source can slip in between.
    let bytes = fs::read(&source).unwrap_or_else(|e| refuse(&format!("{}: {e}", source.display())));
    fs::write(&copy, bytes).unwrap();
    let want = fs::read_to_string(here.join("SHA256")).unwrap();
    let want = want.split_whitespace().next().unwrap_or("");
    let found = sha256(&copy);
    if found != want {
        fs::remove_file(&copy).unwrap();
        refuse(&format!(
            "{} has sha256 {found}, not {want}",
            source.display()
        ));
    }
    // include! takes no file with inner doc comments, a module by path does.
    let module =
        format!("#[allow(dead_code)]\n#[path = {copy:?}]\npub mod polynomial_evaluation;\n");
    fs::write(out.join("module.rs"), module).unwrap();
}

fn sha256(path: &Path) -> String {
    let run = Command::new("sha256sum").arg(path).output();
    let run = run.unwrap_or_else(|e| refuse(&format!("sha256sum: {e}")));
    let text = String::from_utf8_lossy(&run.stdout).into_owned();
    text.split_whitespace().next().unwrap_or("").to_string()
}

fn refuse(why: &str) -> ! {
    println!("cargo::error=the published Rust is refused: {why}");
    eprintln!("the published Rust is refused: {why}");
    exit(1)
}
