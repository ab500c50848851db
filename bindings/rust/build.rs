//! Links libjuicedelta.a: of the folder that JUICEDELTA_LIB_DIR names, else of lib/ in the checkout or archive that the crate
//! is in, or beside which it was installed, else of the installed library that pkg-config knows.

use std::env;
use std::path::PathBuf;
use std::process::Command;

/// The folder of the library that pkg-config knows.
fn installed() -> Option<PathBuf> {
    let output = Command::new("pkg-config").args(["--variable=libdir", "juicedelta"]).output().ok()?;
    let folder = String::from_utf8(output.stdout).ok()?;
    (output.status.success() && !folder.trim().is_empty()).then(|| PathBuf::from(folder.trim()))
}

fn main() {
    println!("cargo:rerun-if-env-changed=JUICEDELTA_LIB_DIR");
    println!("cargo:rerun-if-env-changed=PKG_CONFIG_PATH");
    let crate_folder = PathBuf::from(env::var_os("CARGO_MANIFEST_DIR").expect("cargo sets CARGO_MANIFEST_DIR"));
    let beside = crate_folder.join("../../lib");
    let has_library = |folder: &PathBuf| folder.join("libjuicedelta.a").exists();
    let folder = match env::var_os("JUICEDELTA_LIB_DIR") {
        Some(named) => PathBuf::from(named),
        None if has_library(&beside) => beside,
        None => installed().unwrap_or(beside),
    };
    let library = folder.join("libjuicedelta.a");
    println!("cargo:rerun-if-changed={}", library.display());
    if !has_library(&folder) {
        panic!(
            "{} is missing: `make bindings` builds lib/libjuicedelta.a, or JUICEDELTA_LIB_DIR names its folder",
            library.display()
        );
    }
    println!("cargo:rustc-link-search=native={}", folder.display());
    println!("cargo:rustc-link-lib=static=juicedelta");
}
