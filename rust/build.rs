//! Builds the proved translator with `rt lib` in crates/capi and links it.
//!
//! EMUKO_CAPI_ARCHIVE names an archive that is already built; then `rt` is not needed.

use std::env;
use std::fs;
use std::io::stderr;
use std::path::{Path, PathBuf};
use std::process::{exit, Command};

fn main() {
    println!("cargo:rerun-if-changed=build.rs");
    println!("cargo:rerun-if-env-changed=EMUKO_CAPI_ARCHIVE");

    let arch = env::var("CARGO_CFG_TARGET_ARCH").unwrap();
    let os = env::var("CARGO_CFG_TARGET_OS").unwrap();
    if arch != "x86_64" || os != "linux" {
        stop(&format!(
            "the archive holds code for x86-64 Linux, not for {arch} {os}"
        ));
    }

    let archive = match env::var_os("EMUKO_CAPI_ARCHIVE") {
        Some(path) => {
            println!("cargo:rerun-if-changed={}", Path::new(&path).display());
            PathBuf::from(path)
        }
        None => build(),
    };

    // A copy, so that a later `rt ci`, which sets aside what `rt` has built, does not take the library away; under a name that no
    // other library has.
    let out = PathBuf::from(env::var_os("OUT_DIR").unwrap());
    if let Err(error) = fs::copy(&archive, out.join("libemuko_x64_blocks.a")) {
        stop(&format!("cannot read {}: {error}", archive.display()));
    }
    println!("cargo:rustc-link-search=native={}", out.display());
    println!("cargo:rustc-link-lib=static=emuko_x64_blocks");
    // For crates that depend on this one: DEP_EMUKO_X64_BLOCKS_ROOT.
    println!("cargo:root={}", out.display());
}

/// Proves and compiles the crate capi; gives the archive. What `rt` prints goes to standard error as it comes: cargo shows it where this
/// fails, and while it runs under `-vv`.
fn build() -> PathBuf {
    let manifest = PathBuf::from(env::var_os("CARGO_MANIFEST_DIR").unwrap());
    let root = manifest
        .parent()
        .expect("this folder stands in the repository");
    watch(root);
    let capi = root.join("crates/capi");
    let status = match Command::new("rt")
        .arg("lib")
        .current_dir(&capi)
        .stdout(stderr())
        .status()
    {
        Ok(status) => status,
        Err(error) => stop(&format!(
            "cannot start `rt` ({error}). Put the Rattle kit's `rt` on the PATH, or set EMUKO_CAPI_ARCHIVE to a libcapi.a that \
             `rt lib` in crates/capi has built"
        )),
    };
    if !status.success() {
        stop(&format!(
            "`rt lib` in crates/capi failed ({status}); its output stands above"
        ));
    }
    capi.join("out/libcapi.a")
}

/// Names to cargo the files that `rt` reads: the list of crates, and code, definitions and proofs of each. A crate's out/, which `rt`
/// writes, is not among them: else cargo would run this again each time.
fn watch(root: &Path) {
    let list = root.join("crates.txt");
    println!("cargo:rerun-if-changed={}", list.display());
    let crates = match fs::read_dir(root.join("crates")) {
        Ok(crates) => crates,
        Err(error) => stop(&format!("cannot read the folder crates: {error}")),
    };
    for folder in crates.flatten() {
        for part in ["src", "specs", "proofs"] {
            let path = folder.path().join(part);
            // A path that is not there would count as changed.
            if path.exists() {
                println!("cargo:rerun-if-changed={}", path.display());
            }
        }
    }
}

fn stop(message: &str) -> ! {
    eprintln!("emuko-x64-blocks: {message}");
    exit(1)
}
