// SPDX-License-Identifier: Apache-2.0
//! Finds libcuzhaveli.a: in the folder that CUZHAVELI_LIB_DIR names, else in build/ of the
//! repository or lib/ of a release, else where the program pkg-config says. Where that folder has
//! libcuzhaveli_fast.a too, it is taken instead, unless the feature `plain` is on.

use std::env;
use std::path::{Path, PathBuf};
use std::process::Command;

const ARCHIVE: &str = "libcuzhaveli.a";
const FAST: &str = "libcuzhaveli_fast.a";

fn main() {
    println!("cargo:rerun-if-env-changed=CUZHAVELI_LIB_DIR");
    println!("cargo:rerun-if-env-changed=PKG_CONFIG_PATH");
    let folder = named().or_else(built).or_else(installed).unwrap_or_else(|| {
        panic!(
            "no {ARCHIVE}: CUZHAVELI_LIB_DIR is not set, neither build/ nor lib/ beside rust/ has it, and pkg-config \
             knows no cuzhaveli. Run `make` in the repository, or set CUZHAVELI_LIB_DIR to the folder \
             that holds {ARCHIVE}"
        )
    });
    let name = if takes_fast(&folder) { "cuzhaveli_fast" } else { "cuzhaveli" };
    // The plain one too: it is new whenever the other comes or goes.
    for archive in [ARCHIVE, &format!("lib{name}.a")] {
        println!("cargo:rerun-if-changed={}", folder.join(archive).display());
    }
    println!("cargo:rustc-link-search=native={}", folder.display());
    println!("cargo:rustc-link-lib=static={name}");
}

/// Whether to link the archive that chooses by the processor: its choice is made by the loader of
/// glibc, which other C libraries lack.
fn takes_fast(folder: &Path) -> bool {
    let glibc = env::var("CARGO_CFG_TARGET_ENV").is_ok_and(|env| env == "gnu");
    let plain = env::var_os("CARGO_FEATURE_PLAIN").is_some();
    glibc && !plain && folder.join(FAST).is_file()
}

/// The folder that the environment names; one without an archive is an error, not a reason to look on.
fn named() -> Option<PathBuf> {
    let folder = PathBuf::from(env::var_os("CUZHAVELI_LIB_DIR")?);
    let folder = folder.canonicalize().unwrap_or(folder);
    assert!(
        folder.join(ARCHIVE).is_file(),
        "CUZHAVELI_LIB_DIR is {}, which has no {ARCHIVE}: set it to the folder that has, or unset it",
        folder.display()
    );
    Some(folder)
}

fn built() -> Option<PathBuf> {
    let root = env::var_os("CARGO_MANIFEST_DIR").expect("cargo sets CARGO_MANIFEST_DIR");
    let folders = ["../../build", "../../lib"].map(|folder| Path::new(&root).join(folder));
    folders.into_iter().find(|folder| folder.join(ARCHIVE).is_file())
}

fn installed() -> Option<PathBuf> {
    let output =
        Command::new("pkg-config").args(["--variable=libdir", "cuzhaveli"]).output().ok()?;
    let folder = PathBuf::from(String::from_utf8(output.stdout).ok()?.trim());
    folder.join(ARCHIVE).is_file().then_some(folder)
}
