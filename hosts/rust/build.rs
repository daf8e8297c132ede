//! Links libkrowjyvan.a: the one in the folder that KROWJYVAN_ARCHIVE names, or the released one of this repository.

use std::env;
use std::path::PathBuf;

fn main() {
    println!("cargo::rerun-if-env-changed=KROWJYVAN_ARCHIVE");
    if let Err(error) = link() {
        println!("cargo::error={error}");
    }
}

fn link() -> Result<(), String> {
    let is = |variable: &str, wanted: &str| env::var(variable).is_ok_and(|found| found == wanted);
    if !(is("CARGO_CFG_TARGET_ARCH", "x86_64")
        && is("CARGO_CFG_TARGET_OS", "linux")
        && is("CARGO_CFG_TARGET_POINTER_WIDTH", "64"))
    {
        let target = env::var("TARGET").unwrap_or_default();
        return Err(format!("libkrowjyvan.a is for Linux on x86-64, and this build is for {target}: build with '--target x86_64-unknown-linux-gnu'."));
    }
    let released = PathBuf::from(env::var_os("CARGO_MANIFEST_DIR").unwrap_or_default()).join("../../release");
    let named = env::var_os("KROWJYVAN_ARCHIVE").filter(|folder| !folder.is_empty()).map_or(released, PathBuf::from);
    let archive = named.join("libkrowjyvan.a").canonicalize().map_err(|_| {
        format!(
            "there is no {}/libkrowjyvan.a: let KROWJYVAN_ARCHIVE name its folder by the whole path.",
            named.display()
        )
    })?;
    println!("cargo::rerun-if-changed={}", archive.display());
    println!("cargo::rustc-link-search=native={}", archive.parent().unwrap_or(&named).display());
    println!("cargo::rustc-link-lib=static=krowjyvan");
    Ok(())
}
