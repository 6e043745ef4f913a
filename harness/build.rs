//! Links the engine under test where TPN_LIB_DIR names the folder of its static library
//! (TPN_LIB its name, `tpn` by default). Without it `src/engine.rs` falls back on the plain version.

use std::env;

fn main() {
    println!("cargo:rerun-if-changed=build.rs");
    println!("cargo:rerun-if-env-changed=TPN_LIB_DIR");
    println!("cargo:rerun-if-env-changed=TPN_LIB");
    println!("cargo:rustc-check-cfg=cfg(linked)");
    if let Ok(folder) = env::var("TPN_LIB_DIR") {
        let name = env::var("TPN_LIB").unwrap_or_else(|_| "tpn".into());
        println!("cargo:rerun-if-changed={folder}/lib{name}.a");
        println!("cargo:rustc-link-search=native={folder}");
        println!("cargo:rustc-link-lib=static={name}");
        println!("cargo:rustc-cfg=linked");
    }
}
