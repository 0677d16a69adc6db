//! Finds libstrm, and libstrm_mt for the feature `threads`: in the folder that STRM_LIB_DIR names, else in lib/ beside this file (a release's crate
//! has it), else where pkg-config says, else in ~/.local/lib and /usr/local/lib. The archive is linked where there is one; with STRM_SHARED=1 the
//! shared object is, which the loader has to find when a program runs.
use std::path::{Path, PathBuf};
use std::process::Command;
use std::{env, fs};

fn places() -> Vec<PathBuf> {
    if let Some(given) = env::var_os("STRM_LIB_DIR") {
        return vec![given.into()];
    }
    let asked = Command::new("pkg-config").args(["--variable=libdir", "strm"]).output().ok().filter(|told| told.status.success());
    let told = asked.and_then(|told| String::from_utf8(told.stdout).ok()).map(|text| PathBuf::from(text.trim()));
    let home = env::var_os("HOME").map(|home| Path::new(&home).join(".local/lib"));
    let own = env::var_os("CARGO_MANIFEST_DIR").map(|top| Path::new(&top).join("lib"));
    own.into_iter().chain(told).chain(home).chain(Some("/usr/local/lib".into())).collect()
}

/// Links a library of one of these places.
fn links(places: &[PathBuf], library: &str, made_by: &str, is_shared: bool) {
    let (archive, shared) = (format!("lib{library}.a"), format!("lib{library}.so"));
    let wanted = if is_shared { [&shared, &shared] } else { [&archive, &shared] };
    let found = places.iter().flat_map(|place| wanted.map(|name| place.join(name))).find(|path| path.exists());
    let file = found.unwrap_or_else(|| {
        panic!("lib{library} is in none of {places:?}: {made_by} PREFIX makes it, and STRM_LIB_DIR=PREFIX/lib names it");
    });
    let folder = fs::canonicalize(file.parent().unwrap_or(&file)).expect("the folder is there");
    let kind = if file.extension().map_or(false, |end| end == "a") { "static" } else { "dylib" };
    println!("cargo:rerun-if-changed={}", file.display());
    println!("cargo:rustc-link-search=native={}", folder.display());
    println!("cargo:rustc-link-lib={kind}={library}");
}

fn main() {
    println!("cargo:rerun-if-changed=build.rs");
    for name in ["STRM_LIB_DIR", "STRM_SHARED", "PKG_CONFIG_PATH", "HOME"] {
        println!("cargo:rerun-if-env-changed={name}");
    }
    let is_shared = env::var("STRM_SHARED").map_or(false, |told| told == "1");
    let places = places();
    links(&places, "strm", "tools/library", is_shared);
    if env::var_os("CARGO_FEATURE_THREADS").is_some() {
        links(&places, "strm_mt", "tools/library_mt", is_shared);
    }
}
