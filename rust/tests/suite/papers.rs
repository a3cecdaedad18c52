//! What the papers say of the repository itself: the index of modules, the line counts, the files that they link to.

use std::fs;
use std::path::Path;
use std::process::Command;

const ROOT: &str = concat!(env!("CARGO_MANIFEST_DIR"), "/..");

/// Runs a script of checks/ that compares a page with what it would write.
fn as_written(script: &str) {
    let checked = Command::new("python3")
        .arg(format!("{ROOT}/checks/{script}"))
        .arg("--check")
        .output()
        .expect("python3 runs the scripts of checks/");
    let said = String::from_utf8_lossy(&checked.stderr);
    assert!(checked.status.success(), "{said}");
}

#[test]
fn every_module_in_its_index() {
    as_written("modules.py");
}

#[test]
fn line_counts() {
    as_written("lines.py");
}

/// The targets of a page's links, without those that lead out of the repository.
fn links(page: &str) -> impl Iterator<Item = &str> {
    page.split("](")
        .skip(1)
        .filter_map(|behind| behind.split(')').next())
        .filter(|target| !target.contains("://") && !target.starts_with('#'))
}

#[test]
fn links_lead_to_files() {
    let mut pages = vec![format!("{ROOT}/README.md")];
    for entry in fs::read_dir(format!("{ROOT}/docs")).unwrap() {
        let path = entry.unwrap().path();
        if path.extension().is_some_and(|ending| ending == "md") {
            pages.push(path.to_str().unwrap().to_string());
        }
    }
    let mut followed = 0;
    for page in pages {
        let text = fs::read_to_string(&page).unwrap();
        let folder = Path::new(&page).parent().unwrap();
        for target in links(&text) {
            assert!(folder.join(target).exists(), "{page}: {target}");
            followed += 1;
        }
    }
    assert!(followed >= 10, "{followed}");
}
