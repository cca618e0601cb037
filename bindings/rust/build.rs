//! Links libgelmusko.a, from the folder that GELMUSKO_LIB_DIR names, else from target/staticlib of the repository that this crate stands in.
use std::env;
use std::path::PathBuf;

fn main() {
    println!("cargo:rerun-if-env-changed=GELMUSKO_LIB_DIR");
    let folder = match env::var_os("GELMUSKO_LIB_DIR") {
        Some(folder) => PathBuf::from(folder),
        None => PathBuf::from(env::var_os("CARGO_MANIFEST_DIR").expect("cargo sets it"))
            .join("../../target/staticlib"),
    };
    let library = folder.join("libgelmusko.a");
    if !library.is_file() {
        panic!(
            "{} is not there: run `bash bindings/library.sh`, or name its folder in GELMUSKO_LIB_DIR",
            library.display()
        );
    }
    println!("cargo:rerun-if-changed={}", library.display());
    println!("cargo:rustc-link-search=native={}", folder.display());
    println!("cargo:rustc-link-lib=static=gelmusko");
}
