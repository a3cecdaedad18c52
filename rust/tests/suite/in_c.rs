//! The C header: c/test.c is compiled, linked with the archive and run, and the header's numbers and records are the crate's.

use crate::archive::{CodeCache, Reply};
use emuko_x64_blocks::{BlockResult, Entry, NativeBlock};
use std::mem::{align_of, offset_of, size_of};
use std::path::Path;
use std::process::Command;

const C: &str = concat!(env!("CARGO_MANIFEST_DIR"), "/../c");

/// Where the build script has put the archive.
const ARCHIVE: &str = concat!(env!("OUT_DIR"), "/libemuko_x64_blocks.a");

fn succeeds(command: &mut Command) -> String {
    let output = command.output().unwrap();
    let error = String::from_utf8_lossy(&output.stderr);
    assert!(output.status.success(), "{command:?}: {error}");
    String::from_utf8(output.stdout).unwrap()
}

#[test]
fn translates_places_and_enters() {
    let program = Path::new(env!("CARGO_TARGET_TMPDIR")).join("c-test");
    for optimised in ["-O0", "-O2"] {
        succeeds(
            Command::new("cc")
                .args(["-std=c11", "-Wall", "-Wextra", "-Werror", "-pedantic"])
                .args([optimised, &format!("{C}/test.c"), ARCHIVE, "-o"])
                .arg(&program),
        );
        let text = succeeds(&mut Command::new(&program));
        assert_eq!(
            text,
            "c/test.c: blocks were translated, placed and entered, found again and dropped\n"
        );
    }
}

/// The numbers of the header are the crate's.
#[test]
fn constants() {
    let header = std::fs::read_to_string(format!("{C}/emuko_x64_blocks.h")).unwrap();
    let constants = [
        ("GREATEST_BLOCK", emuko_x64_blocks::GREATEST_BLOCK as u64),
        ("LEAST_BLOCK", emuko_x64_blocks::LEAST_BLOCK as u64),
        ("MOST_STEPS", emuko_x64_blocks::MOST_STEPS.into()),
        ("MOST_SPAN", emuko_x64_blocks::MOST_SPAN),
    ];
    for (name, number) in constants {
        let line = format!("#define EMUKO_{name} {number}\n");
        assert!(header.contains(&line), "{line}");
    }
}

/// A line that a C compiler refuses where the number is another one.
fn is(what: &str, number: usize) -> String {
    format!("_Static_assert({what} == {number}, \"\");\n")
}

fn size_of_field<R, F>(_field: impl Fn(R) -> F) -> usize {
    size_of::<F>()
}

/// Such lines for a record: its size and alignment, and each field's place and size.
macro_rules! layout {
    ($record:ident as $name:literal: $($field:ident)*) => {
        [
            is(concat!("sizeof(", $name, ")"), size_of::<$record>()),
            is(concat!("_Alignof(", $name, ")"), align_of::<$record>()),
            $(
                is(concat!("offsetof(", $name, ", ", stringify!($field), ")"), offset_of!($record, $field)),
                is(concat!("sizeof((", $name, "){0}.", stringify!($field), ")"), size_of_field(|r: $record| r.$field)),
            )*
        ]
        .concat()
    };
}

/// The header's records are laid out as the crate's.
#[test]
fn layouts() {
    let text = [
        String::from("#include \"emuko_x64_blocks.h\"\n"),
        layout!(Reply as "emuko_reply": number first second third),
        layout!(BlockResult as "emuko_result": next_pc executed),
        layout!(NativeBlock as "emuko_native_block": offset count length span),
        layout!(Entry as "emuko_entry": satp pc block in_use),
        layout!(CodeCache as "emuko_code_cache": used),
    ];
    let file = Path::new(env!("CARGO_TARGET_TMPDIR")).join("layouts.c");
    std::fs::write(&file, text.concat()).unwrap();
    let mut compiler = Command::new("cc");
    succeeds(
        compiler
            .args(["-std=c11", "-fsyntax-only", "-I", C])
            .arg(&file),
    );
}
