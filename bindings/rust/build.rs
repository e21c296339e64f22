//! Links libchangecap: that of the folder in CHANGECAP_LIB, else that of `make lib`, else what pkg-config
//! finds.
use std::env;
use std::path::Path;
use std::process::Command;

fn main() {
    for name in ["CHANGECAP_LIB", "PKG_CONFIG", "PKG_CONFIG_PATH"] {
        println!("cargo:rerun-if-env-changed={name}");
    }
    let made = format!("{}/../out", env::var("CARGO_MANIFEST_DIR").unwrap());
    println!("cargo:rerun-if-changed={made}/libchangecap.a");
    if let Ok(folder) = env::var("CHANGECAP_LIB") {
        link_archive(&folder);
    } else if Path::new(&format!("{made}/libchangecap.a")).exists() {
        link_archive(&made);
    } else if !link_installed() {
        println!("cargo:rustc-link-lib=changecap");
        println!("cargo:warning=no libchangecap: `make lib` makes it, or CHANGECAP_LIB names its folder");
    }
}

/// Links the archive of a folder.
fn link_archive(folder: &str) {
    println!("cargo:rerun-if-changed={folder}/libchangecap.a");
    println!("cargo:rustc-link-search=native={folder}");
    println!("cargo:rustc-link-lib=static=changecap");
}

/// Links what pkg-config says, and answers whether it knows the library.
fn link_installed() -> bool {
    let command = env::var("PKG_CONFIG").unwrap_or_else(|_| "pkg-config".into());
    let Ok(ran) = Command::new(command).args(["--libs", "changecap"]).output() else { return false };
    if !ran.status.success() {
        return false;
    }
    for word in String::from_utf8_lossy(&ran.stdout).split_whitespace() {
        if let Some(folder) = word.strip_prefix("-L") {
            println!("cargo:rustc-link-search=native={folder}");
        } else if let Some(library) = word.strip_prefix("-l") {
            println!("cargo:rustc-link-lib={library}");
        }
    }
    true
}
