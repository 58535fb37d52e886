//! Without the archive the build stops with one plain line that names the command, and not in the linker.

use std::fs;
use std::path::Path;
use std::process::Command;

#[test]
fn a_missing_archive_is_said_plainly() {
    let package = Path::new(env!("CARGO_MANIFEST_DIR"));
    let bare = Path::new(env!("CARGO_TARGET_TMPDIR")).join("bare");
    let copy = bare.join("wrapper");
    fs::create_dir_all(copy.join("src")).unwrap();
    for file in ["Cargo.toml", "build.rs"] {
        fs::copy(package.join(file), copy.join(file)).unwrap();
    }
    for file in fs::read_dir(package.join("src")).unwrap() {
        let file = file.unwrap();
        fs::copy(file.path(), copy.join("src").join(file.file_name())).unwrap();
    }
    // A workspace of its own, so that it is not taken for a part of this one.
    fs::write(
        bare.join("Cargo.toml"),
        "[workspace]\nmembers = [\"wrapper\"]\nresolver = \"2\"\n",
    )
    .unwrap();
    let built = Command::new(env!("CARGO"))
        .args(["build", "--offline", "--target-dir"])
        .arg(bare.join("cargo"))
        .current_dir(&copy)
        .output()
        .unwrap();
    let said = String::from_utf8_lossy(&built.stderr);
    assert!(!built.status.success(), "{said}");
    let line = said.lines().find(|line| line.contains("libhost.a"));
    let line = line.unwrap_or_else(|| panic!("{said}"));
    assert!(line.starts_with("error: "), "{line}");
    assert!(line.contains("is missing. Run `tests/build archive`"));
    assert!(!said.contains("panicked") && !said.contains("linking with"));
}
