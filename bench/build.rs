//! Links the verified library, libc_api.a, if the feature `door` asks for it.

use std::env;

fn main() {
    println!("cargo:rerun-if-env-changed=SUHLUVA_LIB");
    if env::var_os("CARGO_FEATURE_DOOR").is_none() {
        return;
    }
    let folder = env::var("SUHLUVA_LIB")
        .expect("the feature `door` needs SUHLUVA_LIB, the folder in which libc_api.a stands");
    println!("cargo:rerun-if-changed={folder}/libc_api.a");
    println!("cargo:rustc-link-search=native={folder}");
    // Not bundled into the library of this package: its objects are without bitcode, and LTO would ask for it.
    println!("cargo:rustc-link-lib=static:-bundle=c_api");
}
