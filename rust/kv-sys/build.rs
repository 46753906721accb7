//! Links the static library for what is built, and tells dependents the archive's name.
mod archive;

use archive::archive_for;
use std::path::{self, PathBuf};
use std::{env, process};

/// What cargo says of the target.
fn said(part: &str) -> String {
    env::var(format!("CARGO_CFG_TARGET_{part}")).unwrap_or_default()
}

/// The folder where `tools/archive` puts a target's archive.
fn made(target: &str) -> PathBuf {
    let manifest = PathBuf::from(env::var_os("CARGO_MANIFEST_DIR").unwrap_or_default());
    manifest.join("../../target/staticlib").join(target)
}

/// Fails the build with one line that says why.
fn stop(why: &str) -> ! {
    println!("cargo::error={why}");
    process::exit(0);
}

fn main() {
    println!("cargo::rerun-if-env-changed=KV_LIB_DIR");
    let [arch, os, features] = ["ARCH", "OS", "FEATURE"].map(said);
    let target = archive_for(&arch, &os, &features);
    let named = env::var_os("KV_LIB_DIR").map(PathBuf::from);
    let Some(folder) = named.or_else(|| target.map(made)) else {
        stop(&format!(
            "there is no archive for {arch} {os}; there are x86-64, x86-64-v3, aarch64 and aarch64-android"
        ));
    };
    // The linker runs in another folder than this script.
    let folder = path::absolute(&folder).unwrap_or(folder);
    let archive = folder.join("libhost.a");
    println!("cargo::rerun-if-changed={}", archive.display());
    if !archive.is_file() {
        stop(&format!(
            "{} is missing: make it with `tools/archive {}` at the repository's root, or name its folder in KV_LIB_DIR",
            archive.display(),
            target.unwrap_or("TARGET")
        ));
    }
    println!("cargo::rustc-link-search=native={}", folder.display());
    println!("cargo::rustc-link-lib=static=host");
    let name = folder.file_name().unwrap_or_default();
    println!("cargo::metadata=archive={}", name.to_string_lossy());
}
