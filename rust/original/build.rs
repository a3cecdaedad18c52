//! Copies emuko's files and the stubs into OUT_DIR, where they are compiled, twice: as they are, and in the folder `linked` with
//! linked/emuko.patch applied and linked/jit_amd64_blocks.rs added, as emuko's maintainers would. Beyond that one line of each copy is
//! changed, so that the harness stands inside the module of jit_amd64.rs: what it calls is private there.

use std::env;
use std::fs;
use std::path::{Path, PathBuf};

const LINE: &str = "#[path = \"hart/jit_amd64.rs\"]\n";
const INSTEAD: &str = "#[path = \"hart/jit_amd64_with_harness.rs\"]\n";

fn main() {
    println!("cargo:rerun-if-changed=build.rs");
    println!("cargo:rerun-if-changed=emuko");
    println!("cargo:rerun-if-changed=linked");
    println!("cargo:rerun-if-changed=stubs");
    let here = PathBuf::from(env::var_os("CARGO_MANIFEST_DIR").unwrap());
    let out = PathBuf::from(env::var_os("OUT_DIR").unwrap());

    let original = out.join("original");
    copy(&here.join("emuko/src"), &original.join("src"));
    copy(&here.join("stubs"), &original.join("src"));
    let linked = out.join("linked");
    copy(&original, &linked);
    apply(&here.join("linked/emuko.patch"), &linked);
    let blocks = "jit_amd64_blocks.rs";
    fs::copy(
        here.join("linked").join(blocks),
        linked.join("src/hart").join(blocks),
    )
    .unwrap();

    let harness = here.join("src/harness.rs");
    let emission = here.join("src/emission.rs");
    add_modules(&original, &[("harness", &harness), ("emission", &emission)]);
    add_modules(&linked, &[("harness", &harness)]);

    // The two share what the patch does not touch.
    let mut text = String::new();
    for module in ["bus", "csr", "dev", "disas", "hart", "isa", "sbi", "trap"] {
        let path = original.join(format!("src/{module}.rs"));
        text += &format!("#[allow(warnings)]\n#[path = {path:?}]\nmod {module};\n");
    }
    let path = linked.join("src/hart.rs");
    text += &format!("#[allow(warnings)]\n#[path = {path:?}]\nmod linked;\n");
    fs::write(out.join("modules.rs"), text).unwrap();
}

fn copy(from: &Path, to: &Path) {
    fs::create_dir_all(to).unwrap();
    for entry in fs::read_dir(from).unwrap() {
        let path = entry.unwrap().path();
        let target = to.join(path.file_name().unwrap());
        if path.is_dir() {
            copy(&path, &target);
        } else {
            fs::write(&target, fs::read(&path).unwrap()).unwrap();
        }
    }
}

/// Modules beside jit_amd64.rs's own text, as children of its module.
fn add_modules(root: &Path, modules: &[(&str, &Path)]) {
    let hart = fs::read_to_string(root.join("src/hart.rs")).unwrap();
    assert_eq!(hart.matches(LINE).count(), 1);
    fs::write(root.join("src/hart.rs"), hart.replace(LINE, INSTEAD)).unwrap();
    let mut text = fs::read_to_string(root.join("src/hart/jit_amd64.rs")).unwrap();
    for (name, path) in modules {
        text += &format!("\n#[path = {path:?}]\nmod {name};\n");
    }
    fs::write(root.join("src/hart/jit_amd64_with_harness.rs"), text).unwrap();
}

/// Applies a patch as `diff -u` writes it. Every line must stand where the patch says.
fn apply(patch: &Path, root: &Path) {
    let patch = fs::read_to_string(patch).unwrap();
    let mut files = patch.split("--- a/");
    assert_eq!(files.next(), Some(""));
    for file in files {
        let (name, hunks) = file.split_once("\n+++ b/").unwrap();
        let (same_name, hunks) = hunks.split_once('\n').unwrap();
        assert_eq!(name, same_name);
        let path = root.join(name);
        let patched = patched(&fs::read_to_string(&path).unwrap(), hunks);
        fs::write(path, patched).unwrap();
    }
}

fn patched(text: &str, hunks: &str) -> String {
    let old: Vec<&str> = text.lines().collect();
    let mut new = Vec::new();
    let mut at = 0;
    for line in hunks.lines() {
        if let Some(range) = line.strip_prefix("@@ -") {
            let (from, _) = range.split_once(',').unwrap();
            let from = from.parse::<usize>().unwrap() - 1;
            new.extend(&old[at..from]);
            at = from;
        } else if let Some(added) = line.strip_prefix('+') {
            new.push(added);
        } else {
            assert_eq!(old[at], &line[1..], "line {} of the original", at + 1);
            if line.starts_with(' ') {
                new.push(old[at]);
            }
            at += 1;
        }
    }
    new.extend(&old[at..]);
    new.join("\n") + "\n"
}
