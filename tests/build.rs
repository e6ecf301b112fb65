// Links the static library under test, from GAMEINDEX_LIB_DIR or else ../target/staticlib.

use std::env;
use std::path::PathBuf;

fn main() {
    let directory = match env::var_os("GAMEINDEX_LIB_DIR") {
        Some(named) => PathBuf::from(named),
        None => {
            let manifest = env::var_os("CARGO_MANIFEST_DIR").expect("cargo names the package");
            PathBuf::from(manifest).join("../target/staticlib")
        }
    };
    println!("cargo:rerun-if-env-changed=GAMEINDEX_LIB_DIR");
    println!("cargo:rustc-link-search=native={}", directory.display());
    println!("cargo:rustc-link-lib=static=gameindex");
    println!(
        "cargo:rerun-if-changed={}",
        directory.join("libgameindex.a").display()
    );
    println!("cargo:rerun-if-changed=build.rs");
}
