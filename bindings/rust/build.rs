//! Links libodl.a from ODL_LIB_DIR, or from where `tools/build` puts it.

use std::env;
use std::path::{Path, PathBuf};

fn main() {
    println!("cargo:rerun-if-env-changed=ODL_LIB_DIR");
    let directory = match env::var_os("ODL_LIB_DIR") {
        Some(directory) => PathBuf::from(directory),
        None => Path::new(env!("CARGO_MANIFEST_DIR")).join("../../target/staticlib"),
    };
    let library = directory.join("libodl.a");
    println!("cargo:rerun-if-changed={}", library.display());
    let Ok(library) = library.canonicalize() else {
        eprintln!(
            "{} is missing: run `tools/build` at the project's root, \
             or name the directory of libodl.a in ODL_LIB_DIR",
            library.display()
        );
        std::process::exit(1);
    };
    let directory = library.parent().expect("a file lies in a directory");
    println!("cargo:rustc-link-search=native={}", directory.display());
    println!("cargo:rustc-link-lib=static=odl");
}
