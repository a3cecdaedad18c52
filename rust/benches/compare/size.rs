//! The bytes of code of both translators.

use std::process::Command;

/// Names and sizes of this program's functions, where `nm` is at hand.
fn functions() -> Option<Vec<(String, usize)>> {
    let this = std::env::current_exe().ok()?;
    let output = Command::new("nm")
        .args(["-C", "-S", "--defined-only"])
        .arg(this)
        .output();
    let text = String::from_utf8(output.ok()?.stdout).ok()?;
    let function = |line: &str| {
        let (_, line) = line.split_once(' ')?;
        let (size, line) = line.split_once(' ')?;
        let name = line.strip_prefix(['T', 't'])?.trim();
        Some((name.to_string(), usize::from_str_radix(size, 16).ok()?))
    };
    Some(text.lines().filter_map(function).collect())
}

/// The bytes of code of both, as far as they are functions of their own in this program; what stands in the libraries is not counted.
pub fn rows() {
    let Some(functions) = functions() else {
        println!("code size: nm is needed");
        return;
    };
    let sum = |counts: &dyn Fn(&str) -> bool| {
        let sizes = functions.iter().filter(|(name, _)| counts(name));
        sizes.fold((0, 0), |(n, sum), (_, size)| (n + 1, sum + size))
    };
    let (new_number, new) = sum(&|name| {
        let crates = [
            "block::", "walk::", "words::", "muldiv::", "kind::", "decode::",
        ];
        name == "emuko_translate" || crates.iter().any(|start| name.starts_with(start))
    });
    // The walk stands beside the original's functions; the helpers' bodies, and `compile_native_block` with bus and maps, do not count.
    let (old_number, old) = sum(&|name| {
        let emits = name.contains("hart::jit_amd64::X64Emitter")
            || name.contains("hart::jit_amd64::<impl") && name.contains("emit_native_");
        emits && !name.contains("linked") || name.ends_with("::compare_emit")
    });
    assert!(new > 0 && old > 0, "the functions have other names");
    println!(
        "code, bytes: {new} in {new_number} functions, original {old} in {old_number}, ratio {:.2}",
        new as f64 / old as f64
    );
}
