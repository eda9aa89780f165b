//! Links libbunjelav.a: from where BUNJELAV_LIBRARY says, or from this crate's own folder lib, where ./package puts it,
//! or from bindings/c/out or dist/ of a checkout that this crate lies in.
use std::env;
use std::path::{Path, PathBuf};

const NAME: &str = "libbunjelav.a";

/// The folders in which the library is looked for, the first one first.
fn places(here: &Path) -> Vec<PathBuf> {
    if let Some(named) = env::var_os("BUNJELAV_LIBRARY") {
        return vec![PathBuf::from(named)];
    }
    let mut places = vec![here.join("lib")];
    // (a crate that cargo packs is built some folders below the one that it is packed from)
    for above in here.ancestors() {
        places.extend([above.join("bindings/c/out"), above.join("dist/x86_64-linux")]);
    }
    places
}

fn main() {
    println!("cargo:rerun-if-env-changed=BUNJELAV_LIBRARY");
    let here = PathBuf::from(env::var_os("CARGO_MANIFEST_DIR").expect("cargo names the crate's folder"));
    let found = places(&here)
        .into_iter()
        .find(|place| place.join(NAME).is_file())
        .expect("there is no libbunjelav.a: BUNJELAV_LIBRARY names its folder, or bindings/c/build makes it");
    println!("cargo:rerun-if-changed={}", found.join(NAME).display());
    println!("cargo:rustc-link-search=native={}", found.display());
    println!("cargo:rustc-link-lib=static=bunjelav");
    println!("cargo:rustc-link-lib=c");
}
