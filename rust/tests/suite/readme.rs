//! README's lines for emuko are the lines of the files that are compiled and tested (module `linked`).

use std::fs;

fn read(path: &str) -> String {
    let root = concat!(env!("CARGO_MANIFEST_DIR"), "/..");
    fs::read_to_string(format!("{root}/{path}")).unwrap()
}

/// A block of code of README.md.
fn fenced(language: &str, text: &str) -> String {
    format!("```{language}\n{text}```\n")
}

/// The part of the patch that is about one file, behind the lines that name it.
fn part(patch: &str, file: &str) -> String {
    let (_, part) = patch
        .split_once(&format!("--- a/{file}\n+++ b/{file}\n"))
        .unwrap();
    let end = part.find("\n--- a/").map_or(part.len(), |at| at + 1);
    part[..end].to_string()
}

#[test]
fn the_new_file() {
    let file = read("rust/original/linked/jit_amd64_blocks.rs");
    assert!(read("README.md").contains(&fenced("rust", &file)));
}

#[test]
fn the_lines_of_hart() {
    let patch = read("rust/original/linked/emuko.patch");
    let hart = part(&patch, "src/hart.rs");
    assert!(read("README.md").contains(&fenced("diff", &hart)));
}

/// In jit_amd64.rs README shows the two lines that are added, and names what goes.
#[test]
fn the_lines_of_jit_amd64() {
    let patch = read("rust/original/linked/emuko.patch");
    let part = part(&patch, "src/hart/jit_amd64.rs");
    let added: Vec<&str> = part.lines().filter(|line| line.starts_with('+')).collect();
    let shown = "+#[path = \"jit_amd64_blocks.rs\"]\n+mod blocks;\n";
    assert_eq!(added, shown.lines().collect::<Vec<_>>());
    let readme = read("README.md");
    assert!(readme.contains(shown));
    let gone = part.lines().filter_map(|line| line.strip_prefix('-'));
    let mut names = 0;
    for line in gone {
        let item = ["    fn ", "enum ", "struct "]
            .iter()
            .find_map(|start| line.strip_prefix(start));
        let Some(item) = item else { continue };
        let name = item.split(['(', ' ', '<']).next().unwrap();
        // The encoders go with the type that they belong to.
        let encoder = line.contains("self") && !line.contains("(&self");
        if !encoder && name != "new" {
            assert!(readme.contains(&format!("`{name}`")), "{name}");
            names += 1;
        }
    }
    assert_eq!(names, 12);
}

/// The patch is the one for the files that stand here: the two that it changes, and no other.
#[test]
fn the_files_of_the_patch() {
    let patch = read("rust/original/linked/emuko.patch");
    let files: Vec<&str> = patch
        .lines()
        .filter_map(|line| line.strip_prefix("--- a/"))
        .collect();
    assert_eq!(files, ["src/hart.rs", "src/hart/jit_amd64.rs"]);
}
