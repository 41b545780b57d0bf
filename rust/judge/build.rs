//! Links libjudge.a, which `tools/archive.sh` leaves in target/staticlib; JUDGE_LIB names another directory.

use std::path::PathBuf;
use std::process::ExitCode;

fn main() -> ExitCode {
    println!("cargo:rerun-if-env-changed=JUDGE_LIB");
    let beside = || PathBuf::from(env!("CARGO_MANIFEST_DIR")).join("../../target/staticlib");
    let directory = std::env::var_os("JUDGE_LIB").map_or_else(beside, PathBuf::from);
    let archive = directory.join("libjudge.a");
    println!("cargo:rerun-if-changed={}", archive.display());
    if !archive.is_file() {
        eprintln!("there is no {}; `tools/archive.sh` makes it", archive.display());
        return ExitCode::FAILURE;
    }
    println!("cargo:rustc-link-search=native={}", directory.display());
    println!("cargo:rustc-link-lib=static=judge");
    ExitCode::SUCCESS
}
