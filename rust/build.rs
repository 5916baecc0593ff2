//! Finds the library: `libplanner.a` in the directory that `PLANNER_LIB_DIR` names; if that is not
//! set, in `../lib`, where the bundle has it, or in `../target/lib`, where the repository makes it.
//! All are seen from this file. A directory that is named is the only one that is looked into.

use std::env;
use std::path::PathBuf;
use std::process::ExitCode;

const FILE: &str = "libplanner.a";
const NAMED: &str = "PLANNER_LIB_DIR";

fn places() -> Vec<PathBuf> {
    // cargo runs this in the crate's directory, and says where that is
    let here = PathBuf::from(env::var_os("CARGO_MANIFEST_DIR").unwrap_or_default());
    match env::var_os(NAMED) {
        Some(named) => vec![here.join(named)],
        None => vec![here.join("../lib"), here.join("../target/lib")],
    }
}

fn main() -> ExitCode {
    println!("cargo:rerun-if-changed=build.rs");
    println!("cargo:rerun-if-env-changed={NAMED}");
    let places = places();
    let Some(found) = places.iter().find(|place| place.join(FILE).is_file()) else {
        let looked: Vec<String> = places.iter().map(|place| place.display().to_string()).collect();
        eprintln!(
            "planner: there is no {FILE} in {}: set {NAMED} to the directory that has it, or make it \
             with `bash examples/prove libplanner` in the planner's repository.",
            looked.join(" or ")
        );
        return ExitCode::FAILURE;
    };
    println!("cargo:rerun-if-changed={}", found.join(FILE).display());
    println!("cargo:rustc-link-search=native={}", found.display());
    println!("cargo:rustc-link-lib=static=planner");
    ExitCode::SUCCESS
}
