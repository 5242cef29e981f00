//! Links the proved library. SKEINLOFT_LIB_DIR names its folder. Else it is where `./install` put it, beside this crate, or in
//! the repository where `rt lib` writes it.

use std::env;
use std::path::{Path, PathBuf};

/// Where the library may be. It is called libcapi_c.a or libcapi.a where it is made, and libskeinloft.a where it is installed.
fn places() -> Vec<PathBuf> {
    if let Some(named) = env::var_os("SKEINLOFT_LIB_DIR").map(PathBuf::from) {
        return ["libskeinloft.a", "libcapi.a", "libcapi_c.a"].map(|file| named.join(file)).to_vec();
    }
    let here = PathBuf::from(env::var_os("CARGO_MANIFEST_DIR").expect("cargo names the folder of the crate"));
    if here.join("../../crates.txt").is_file() {
        return vec![here.join("../../crates/capi_c/out/libcapi_c.a")];
    }
    let machine = env::var("CARGO_CFG_TARGET_ARCH").expect("cargo names the machine");
    let library = |folder: &str| here.join("../../../lib").join(folder).join("libskeinloft.a");
    vec![library(&format!("{machine}-linux-gnu")), library("")]
}

fn main() {
    println!("cargo:rerun-if-env-changed=SKEINLOFT_LIB_DIR");
    let places = places();
    let found = places.iter().find(|library| library.is_file());
    let library = found.or(places.last()).expect("there is a place to look at");
    println!("cargo:rerun-if-changed={}", library.display());
    if found.is_none() {
        println!("cargo:warning=there is no {}: SKEINLOFT_LIB_DIR names the folder that has it", library.display());
    }
    let folder = library.parent().unwrap_or(Path::new("."));
    let name = library.file_stem().and_then(|name| name.to_str()?.strip_prefix("lib")).expect("it is called lib..");
    println!("cargo:rustc-link-search=native={}", folder.display());
    println!("cargo:rustc-link-lib=static={name}");
}
