//! Where the proved library stands: in crates/jffs_c/out, as `rt lib` leaves it, or where PUMPGRAPE_LIB says.
use std::env;
use std::path::PathBuf;

fn main() {
    let here = PathBuf::from(env::var_os("CARGO_MANIFEST_DIR").expect("cargo names the folder"));
    let folder = env::var_os("PUMPGRAPE_LIB").map_or(here.join("../../crates/jffs_c/out"), PathBuf::from);
    println!("cargo:rustc-link-search=native={}", folder.display());
    println!("cargo:rustc-link-lib=static=jffs_c");
    println!("cargo:rerun-if-env-changed=PUMPGRAPE_LIB");
    println!("cargo:rerun-if-changed={}", folder.join("libjffs_c.a").display());
}
