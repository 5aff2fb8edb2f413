//! Links the archive of the proved mapper, which `rt lib --cpu x86-64` writes in crates/mapper_c; or that of
//! another folder, where the variable PDDM_STATICLIB names it. Where PDDM_BEFORE names the folder of an archive
//! of before a change, three of its calls are linked beside them, with `before_` in front of their names.
use std::path::{Path, PathBuf};
use std::process::Command;

/// Where this tree's archive is written.
fn built() -> PathBuf {
    Path::new(&std::env::var("CARGO_MANIFEST_DIR").unwrap()).join("../crates/mapper_c/out")
}

/// The archive in a folder.
fn archive_in(folder: &Path) -> PathBuf {
    let archive = folder.join("libmapper_c.a");
    println!("cargo::rerun-if-changed={}", archive.display());
    if !archive.exists() {
        println!(
            "cargo::error={} is missing: run `rt lib --cpu x86-64` in crates/mapper_c first",
            archive.display()
        );
    }
    archive
}

/// The calls of the archive of before that are used.
const CALLS: [&str; 3] = ["pddm_public_find", "pddm_hidden_find", "pddm_write"];

/// Runs objcopy on an archive.
fn copy(from: &Path, to: &Path, changes: impl Iterator<Item = String>) {
    let status = Command::new("objcopy").args(changes).args([from, to]).status();
    if !status.is_ok_and(|status| status.success()) {
        println!("cargo::error=objcopy could not rename the calls of {}", from.display());
    }
}

/// Links an archive's calls under other names; its other names are its own.
fn link_before(folder: &Path) {
    let out = PathBuf::from(std::env::var("OUT_DIR").unwrap());
    let (renamed, linked) = (out.join("renamed.a"), out.join("libbefore.a"));
    copy(
        &archive_in(folder),
        &renamed,
        CALLS.iter().map(|call| format!("--redefine-sym={call}=before_{call}")),
    );
    copy(&renamed, &linked, CALLS.iter().map(|call| format!("--keep-global-symbol=before_{call}")));
    println!("cargo::rustc-link-search=native={}", out.display());
    println!("cargo::rustc-link-lib=static=before");
    println!("cargo::rustc-cfg=before");
}

fn main() {
    println!("cargo::rustc-check-cfg=cfg(before)");
    println!("cargo::rerun-if-env-changed=PDDM_STATICLIB");
    println!("cargo::rerun-if-env-changed=PDDM_BEFORE");
    let folder = std::env::var("PDDM_STATICLIB").map_or_else(|_| built(), PathBuf::from);
    archive_in(&folder);
    println!("cargo::rustc-link-search=native={}", folder.display());
    println!("cargo::rustc-link-lib=static=mapper_c");
    if let Ok(before) = std::env::var("PDDM_BEFORE") {
        link_before(Path::new(&before));
    }
}
