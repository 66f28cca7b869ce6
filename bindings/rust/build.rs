//! Links libzsched.a: the one in the folder that ZSCHED_LIBRARY_DIR names, else the one of the
//! packaged crate, else, in the source tree, the one that build/make-library made there.
use std::env;
use std::path::PathBuf;

const NAME: &str = "libzsched.a";

fn main() {
    println!("cargo:rerun-if-env-changed=ZSCHED_LIBRARY_DIR");
    let here = PathBuf::from(env!("CARGO_MANIFEST_DIR"));
    let target = env::var("TARGET").unwrap_or_default();
    // The archive for arm64 is in a folder beside that for x86-64.
    let below = if target.starts_with("aarch64-") { "aarch64" } else { "" };
    let folder = match env::var_os("ZSCHED_LIBRARY_DIR") {
        Some(named) => PathBuf::from(named),
        // What is above a packaged crate may be anyone's.
        None if here.join(NAME).exists() || !here.ends_with("bindings/rust") => here.join(below),
        None => here.join("../../crates/zsched_c/out").join(below),
    };
    let library = folder.join(NAME);
    println!("cargo:rerun-if-changed={}", library.display());
    let fits = target.contains("-linux-") && (target.starts_with("x86_64-") || !below.is_empty());
    if !fits || !library.exists() {
        let how = "build it by build/make-library, or name its folder in ZSCHED_LIBRARY_DIR";
        let missing = format!("there is no {}: {how}", library.display());
        let why = if fits { missing } else { format!("it is not for {target}, whose library can't be named") };
        eprintln!("zsched: {NAME} is for Linux on x86-64 and arm64, and {why}");
        std::process::exit(1);
    }
    println!("cargo:rustc-link-search=native={}", folder.display());
    println!("cargo:rustc-link-lib=static=zsched");
    if target.ends_with("-musl") {
        // A thread of C has 128 KiB there, and zs_bounds needs 192. It reaches the crate's own programs alone.
        println!("cargo:rustc-link-arg=-Wl,-z,stack-size=262144");
    }
}
