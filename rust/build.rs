//! Finds the static library: `libsilkendoz.a` in the folder that `SILKENDOZ_LIB` names, as `tools/install` puts it there, or
//! `liblibrary_c.a` where `tools/archive` writes it.

use std::path::{Path, PathBuf};

/// The names that it has, installed and as it is written.
const NAMES: [&str; 2] = ["silkendoz", "library_c"];

fn main() {
    println!("cargo:rerun-if-env-changed=SILKENDOZ_LIB");
    println!("cargo:rerun-if-changed=build.rs");
    let said = std::env::var_os("SILKENDOZ_LIB").map(PathBuf::from);
    let here = PathBuf::from(std::env::var_os("CARGO_MANIFEST_DIR").expect("cargo sets it"));
    let folder = said.clone().unwrap_or_else(|| here.join("../target/staticlib"));
    let archive = |name: &str| folder.join(format!("lib{name}.a"));
    for name in NAMES {
        println!("cargo:rerun-if-changed={}", archive(name).display());
    }
    let Some(name) = NAMES.into_iter().find(|name| archive(name).is_file()) else {
        missing(&folder, said.is_some());
    };
    println!("cargo:rustc-link-search=native={}", folder.display());
    println!("cargo:rustc-link-lib=static={name}");
}

fn missing(folder: &Path, said: bool) -> ! {
    eprintln!("The proved library is not in {}.", folder.display());
    if said {
        eprintln!("SILKENDOZ_LIB names that folder: libsilkendoz.a or liblibrary_c.a has to stand there.");
    } else {
        eprintln!("Run `tools/archive` in the repository first, or set SILKENDOZ_LIB to a folder that has libsilkendoz.a.");
    }
    std::process::exit(1)
}
