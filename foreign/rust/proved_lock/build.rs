// SPDX-License-Identifier: MIT OR Apache-2.0
//! Links `liblock_c.a`: the file that `PROVED_LOCK_LIB` names, or that of `prebuilt/` for the target. Without one, only the
//! documentation can be built.
use std::env;
use std::path::PathBuf;

fn var(name: &str) -> String {
    env::var(name).expect("cargo sets it")
}

fn main() {
    let target = format!("{}-{}", var("CARGO_CFG_TARGET_ARCH"), var("CARGO_CFG_TARGET_OS"));
    let prebuilt = PathBuf::from(var("CARGO_MANIFEST_DIR")).join("prebuilt").join(target).join("liblock_c.a");
    let archive = env::var_os("PROVED_LOCK_LIB").map_or(prebuilt, PathBuf::from);
    println!("cargo::rerun-if-env-changed=PROVED_LOCK_LIB");
    println!("cargo::rerun-if-env-changed=DOCS_RS");
    println!("cargo::rerun-if-changed={}", archive.display());
    println!("cargo::rustc-check-cfg=cfg(archive_is_missing)");
    if let Ok(archive) = archive.canonicalize() {
        println!("cargo::rustc-link-search=native={}", archive.parent().expect("a file").display());
        println!("cargo::rustc-link-lib=static:+verbatim={}", archive.file_name().expect("a file").to_string_lossy());
    } else {
        println!("cargo::warning=no archive of the locks is here: only the documentation can be built");
        println!("cargo::rustc-env=MISSING_ARCHIVE={}", archive.display());
        if env::var_os("DOCS_RS").is_none() {
            println!("cargo::rustc-cfg=archive_is_missing");
        }
    }
}
