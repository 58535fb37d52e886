//! Links the archive of the proved switch, and where it is missing says which command makes it.

use std::path::Path;

fn main() {
    let repository = Path::new(env!("CARGO_MANIFEST_DIR"))
        .parent()
        .expect("the package lies in the repository");
    let folder = repository.join("target/staticlib");
    let archive = folder.join("libhost.a");
    println!("cargo::rerun-if-changed={}", archive.display());
    if !archive.is_file() {
        println!(
            "cargo::error={} is missing. Run `tests/build archive` in {} to make it.",
            archive.display(),
            repository.display()
        );
        return;
    }
    println!("cargo::rustc-link-search=native={}", folder.display());
    println!("cargo::rustc-link-lib=static=host");
}
