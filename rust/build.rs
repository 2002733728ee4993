//! Where the static library lies: in TURNIPCART_LIB, or in the project's `build/`, where `tools/library` puts it.
use std::env;
use std::path::PathBuf;

fn main() {
    let root = PathBuf::from(env::var_os("CARGO_MANIFEST_DIR").expect("cargo sets the manifest's folder"));
    let folder = env::var_os("TURNIPCART_LIB").map_or_else(|| root.join("../build"), PathBuf::from);
    println!("cargo:rerun-if-env-changed=TURNIPCART_LIB");
    println!("cargo:rerun-if-changed={}", folder.join("libturnipcart.a").display());
    println!("cargo:rustc-link-search=native={}", folder.display());
    println!("cargo:rustc-link-lib=static=turnipcart");
    let target = (env::var("CARGO_CFG_TARGET_ARCH"), env::var("CARGO_CFG_TARGET_OS"));
    if target != (Ok("x86_64".into()), Ok("linux".into())) {
        println!("cargo:warning=libturnipcart.a is for Linux on x86-64: what is built here can be checked, and not linked");
    }
}
