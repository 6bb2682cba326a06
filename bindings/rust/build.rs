//! Links the static library `ptree`, which `bin/install` puts in place.
use std::process::Command;
use std::{env, fs, path::Path};

fn main() {
    println!("cargo:rerun-if-env-changed=PTREE_LIB_DIR");
    let folder = env::var("PTREE_LIB_DIR").ok().or_else(folder_of_package);
    let Some(folder) = folder else {
        panic!("libptree.a is not found: run `bin/install PREFIX`, and set PTREE_LIB_DIR to the whole path of PREFIX/lib");
    };
    let library = Path::new(&folder).join("libptree.a");
    if fs::metadata(&library).is_err() {
        panic!(
            "there is no {}: set PTREE_LIB_DIR to the whole path of PREFIX/lib",
            library.display()
        );
    }
    println!("cargo:rerun-if-changed={}", library.display());
    println!("cargo:rustc-link-search=native={folder}");
    println!("cargo:rustc-link-lib=static=ptree");
}

/// The folder of the library that pkg-config knows, which puts a backslash before a blank.
fn folder_of_package() -> Option<String> {
    let output = Command::new("pkg-config")
        .args(["--variable=libdir", "ptree"])
        .output()
        .ok()?;
    let folder = String::from_utf8(output.stdout)
        .ok()?
        .trim()
        .replace("\\ ", " ");
    (output.status.success() && !folder.is_empty()).then_some(folder)
}
