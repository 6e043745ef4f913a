//! Links `libtpn.a`, which `rt lib` in `crates/tpn` of the repository writes to `crates/tpn/out`; `TPN_LIB_DIR` names another folder.
use std::env;
use std::path::PathBuf;

fn main() {
    let folder = env::var_os("TPN_LIB_DIR").map_or_else(|| PathBuf::from(env!("CARGO_MANIFEST_DIR")).join("../../crates/tpn/out"), PathBuf::from);
    println!("cargo:rerun-if-env-changed=TPN_LIB_DIR");
    println!("cargo:rerun-if-changed={}", folder.join("libtpn.a").display());
    println!("cargo:rustc-link-search=native={}", folder.display());
    println!("cargo:rustc-link-lib=static=tpn");
}
