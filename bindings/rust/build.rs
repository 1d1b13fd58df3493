// Links libjelmorand.a from the folder that JELMORAND_LIB names.
use std::path::Path;

fn main() {
    println!("cargo:rerun-if-env-changed=JELMORAND_LIB");
    let folder = std::env::var("JELMORAND_LIB").expect("set JELMORAND_LIB to the folder of libjelmorand.a");
    // Cargo runs this in the package's folder, which is not where the caller named a folder from.
    assert!(Path::new(&folder).is_absolute(), "JELMORAND_LIB is {folder:?}, a relative path: give the whole path of the folder");
    let archive = Path::new(&folder).join("libjelmorand.a");
    assert!(archive.is_file(), "{} is not there: run `rt lib` in crates/jelmorand", archive.display());
    println!("cargo:rerun-if-changed={}", archive.display());
    println!("cargo:rustc-link-search=native={folder}");
    println!("cargo:rustc-link-lib=static=jelmorand");
}
