//! Links the proved library, which `tools/library` writes to
//! target/staticlib. SCOTERLIME_LIB names another folder.

use std::env;
use std::path::PathBuf;

fn main() {
    let folder = match env::var_os("SCOTERLIME_LIB") {
        Some(given) => PathBuf::from(given),
        None => {
            PathBuf::from(env::var_os("CARGO_MANIFEST_DIR").unwrap()).join("../../target/staticlib")
        }
    };
    let library = folder.join("libcapi.a");
    assert!(
        library.is_file(),
        "{} is not there: run `tools/library` in the repository first",
        library.display()
    );
    println!("cargo:rerun-if-env-changed=SCOTERLIME_LIB");
    println!("cargo:rerun-if-changed={}", library.display());
    println!("cargo:rustc-link-search=native={}", folder.display());
    println!("cargo:rustc-link-lib=static=capi");
}
