//! Links `libdebctl.a` from the folder that `DEBCTL_LIBRARY_DIR` names; without that variable the
//! shared library, from where the linker looks for it.

use std::env::{self, var_os};
use std::ffi::OsStr;
use std::path::Path;
use std::process::{exit, Command, Stdio};

const VARIABLE: &str = "DEBCTL_LIBRARY_DIR";

/// Returns the folder that the variable names, or what is wrong with it.
pub fn folder_of(value: &OsStr) -> Result<&str, String> {
    let folder = value.to_str().filter(|folder| !folder.contains('\n'));
    let folder = folder.ok_or_else(|| format!("{value:?} isn't a path that cargo can print"))?;
    if !Path::new(folder).is_absolute() {
        return Err(format!(
            "{folder:?} is a relative path: name an absolute one"
        ));
    }
    if !Path::new(folder).join("libdebctl.a").is_file() {
        return Err(format!(
            "{folder:?} has no libdebctl.a: make it with libs/build"
        ));
    }
    Ok(folder)
}

/// Returns whether the C compiler, which rustc links with, finds the shared library; `None` if that
/// can't be tried.
fn finds_shared_library() -> Option<bool> {
    if env::var("TARGET") != env::var("HOST") {
        return None;
    }
    let out = Path::new(&var_os("OUT_DIR")?).join("tried");
    let mut compiler = Command::new("cc");
    compiler.args(["-shared", "-x", "c", "/dev/null", "-ldebctl", "-o"]);
    compiler
        .arg(out)
        .stdout(Stdio::null())
        .stderr(Stdio::null());
    Some(compiler.status().ok()?.success())
}

fn main() {
    println!("cargo:rerun-if-changed=build.rs");
    println!("cargo:rerun-if-env-changed={VARIABLE}");
    match var_os(VARIABLE).as_deref().map(folder_of) {
        Some(Ok(folder)) => {
            println!("cargo:rerun-if-changed={folder}/libdebctl.a");
            println!("cargo:rustc-link-search=native={folder}");
            println!("cargo:rustc-link-lib=static=debctl");
        }
        Some(Err(wrong)) => {
            eprintln!("error: {VARIABLE}: {wrong}");
            exit(1);
        }
        None => {
            if finds_shared_library() == Some(false) {
                println!(
                    "cargo:warning=the linker may not find libdebctl: install libdebctl-dev, or \
                     set {VARIABLE} to the folder that libs/build wrote"
                );
            }
            println!("cargo:rustc-link-lib=debctl");
        }
    }
}
