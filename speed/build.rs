//! Links the static library that `tools/build host` builds; `speed/run` names its folder.
use std::env;

fn main() {
    let folder = env::var("HOST_LIBRARY").expect("speed/run sets HOST_LIBRARY");
    println!("cargo:rerun-if-env-changed=HOST_LIBRARY");
    println!("cargo:rerun-if-changed={folder}/libhost.a");
    println!("cargo:rustc-link-search=native={folder}");
    println!("cargo:rustc-link-lib=static=host");
}
