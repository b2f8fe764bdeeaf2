//! With the feature `before`, links the node's calls of an earlier archive and of the present one under names of their
//! own, as `before_send` and `after_send`, both placed alike: where a function begins can change its time by more than
//! the change that is timed.

use std::path::{Path, PathBuf};
use std::process::Command;

/// The calls that are compared.
const CALLS: [&str; 4] = ["set_up", "send", "offer", "deliver"];

fn main() {
    println!("cargo:rerun-if-env-changed=BEFORE");
    if std::env::var_os("CARGO_FEATURE_BEFORE").is_none() {
        return;
    }
    let before = PathBuf::from(variable("BEFORE"));
    // No linker looks at parameters: the archive has to be one whose calls have the present ones.
    assert!(before.ends_with("libhost.a"), "BEFORE is not the path of a libhost.a: {}", before.display());
    let after = Path::new(&variable("CARGO_MANIFEST_DIR")).join("../../target/staticlib/libhost.a");
    let folder = PathBuf::from(variable("OUT_DIR"));
    println!("cargo:rustc-link-search=native={}", folder.display());
    for (name, archive) in [("before", before), ("after", after)] {
        println!("cargo:rerun-if-changed={}", archive.display());
        rename(name, &archive, &folder.join(format!("lib{name}.a")));
        println!("cargo:rustc-link-lib=static={name}");
    }
}

/// A variable of the environment.
fn variable(name: &str) -> String {
    std::env::var(name).unwrap_or_else(|_| panic!("{name} is not set (BEFORE names an earlier libhost.a)"))
}

/// Copies an archive with its functions on lines of the cache, the node's calls renamed and all others hidden.
fn rename(name: &str, archive: &Path, copy: &Path) {
    let mut objcopy = Command::new("objcopy");
    objcopy.arg("--set-section-alignment=.text.*=64");
    for call in CALLS {
        objcopy.arg(format!("--redefine-sym=node_{call}={name}_{call}"));
        objcopy.arg(format!("--keep-global-symbol={name}_{call}"));
    }
    let status = objcopy.args([archive, copy]).status().expect("objcopy runs (it comes with the linker, in binutils)");
    assert!(status.success(), "objcopy cannot copy {}", archive.display());
}
