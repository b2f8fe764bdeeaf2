//! Links the archive of the proved code's exported calls that the manifest names under `links`.

use std::path::Path;

fn main() {
    let variable = |name: &str| std::env::var(name).unwrap_or_else(|_| panic!("cargo sets {name}"));
    let name = variable("CARGO_MANIFEST_LINKS");
    let folder = Path::new(&variable("CARGO_MANIFEST_DIR")).join("../../target/staticlib");
    let archive = folder.join(format!("lib{name}.a"));
    println!("cargo:rerun-if-changed={}", archive.display());
    if !archive.exists() {
        panic!(
            "\n\n{} is missing.\nRun `rust/archives {name}` at the top of the repository, and build again.\n",
            archive.display()
        );
    }
    println!("cargo:rustc-link-search=native={}", folder.display());
    println!("cargo:rustc-link-lib=static={name}");
}
