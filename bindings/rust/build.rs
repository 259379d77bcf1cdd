//! Finds the proved archive and links it.

use std::env;
use std::path::{Path, PathBuf};
use std::process::ExitCode;

/// Where the archive is looked for if the environment does not say.
const DEFAULT_DIR: &str = "../../target/staticlib";
const DIR_VARIABLE: &str = "RAWDHUSAQ_LIB_DIR";

fn main() -> ExitCode {
    match link() {
        Ok(()) => ExitCode::SUCCESS,
        Err(message) => {
            eprintln!("rawdhusaq: {message}");
            ExitCode::FAILURE
        }
    }
}

fn link() -> Result<(), String> {
    println!("cargo:rerun-if-env-changed={DIR_VARIABLE}");
    println!("cargo:rerun-if-changed=build.rs");
    check_target()?;
    let dir = archive_dir();
    let archive = dir.join("libfirmware.a");
    println!("cargo:rerun-if-changed={}", archive.display());
    check_archive(&archive)?;
    println!("cargo:rustc-link-search=native={}", dir.display());
    println!("cargo:rustc-link-lib=static=firmware");
    Ok(())
}

/// The archive is machine code for one kind of machine. The pointers' width tells
/// x32 apart, which has the same name for both machine and system.
fn check_target() -> Result<(), String> {
    let part = |name: &str| env::var(format!("CARGO_CFG_TARGET_{name}")).unwrap_or_default();
    if [part("ARCH"), part("OS"), part("POINTER_WIDTH")] == ["x86_64", "linux", "64"] {
        return Ok(());
    }
    let target = env::var("TARGET").unwrap_or_default();
    Err(format!(
        "the archive is for Linux on x86-64 alone, and the target is {target}"
    ))
}

/// A relative folder counts from the manifest's: the folder in which the compiler
/// runs is not always the one in which cargo was called.
fn archive_dir() -> PathBuf {
    let base = env::var_os("CARGO_MANIFEST_DIR").unwrap_or_default();
    let named = env::var_os(DIR_VARIABLE).filter(|dir| !dir.is_empty());
    Path::new(&base).join(named.unwrap_or_else(|| DEFAULT_DIR.into()))
}

fn check_archive(archive: &Path) -> Result<(), String> {
    if archive.is_file() {
        return Ok(());
    }
    Err(format!(
        "there is no {}: make it by `tools/archive` in the repository's root, \
         or name its folder in {DIR_VARIABLE}",
        archive.display()
    ))
}
