//! Links the proved library: the archive `librenamer.a` of the folder that `RENAMER_LIB` names, or of this crate's own
//! `lib/TARGET`, which a release has, and into which `./library` puts it.
use std::env;
use std::path::PathBuf;
use std::process;

fn main() {
    println!("cargo:rerun-if-env-changed=RENAMER_LIB");
    let target = env::var("TARGET").expect("cargo names the target");
    let own = PathBuf::from(env::var_os("CARGO_MANIFEST_DIR").expect("cargo names the crate's folder"));
    let folder = env::var_os("RENAMER_LIB").map_or_else(|| own.join("lib").join(&target), PathBuf::from);
    let archive = folder.join("librenamer.a");
    if !archive.is_file() {
        eprintln!("renamer: no {}: run ./library, or name its folder in RENAMER_LIB", archive.display());
        process::exit(1);
    }
    println!("cargo:rerun-if-changed={}", archive.display());
    println!("cargo:rustc-link-search=native={}", folder.display());
    println!("cargo:rustc-link-lib=static=renamer");
}
