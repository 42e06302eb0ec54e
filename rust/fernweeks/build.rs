//! Finds the archive of the exported calls, `libcollector.a`.

use std::path::PathBuf;
use std::{env, process};

fn main() {
    println!("cargo:rerun-if-env-changed=FERNWEEKS_LIB_DIR");
    let dir = match env::var_os("FERNWEEKS_LIB_DIR") {
        Some(dir) => PathBuf::from(dir),
        None => PathBuf::from(env!("CARGO_MANIFEST_DIR")).join("../../target/staticlib"),
    };
    let archive = dir.join("libcollector.a");
    println!("cargo:rerun-if-changed={}", archive.display());

    let target = env::var("TARGET").unwrap_or_default();
    if !target.starts_with("x86_64-") {
        stop(&format!("the archive holds x86-64 code, and the target here is {target}"));
    }
    if !archive.is_file() {
        stop(&format!(
            "there is no {}\n\
             Run `tools/build.py archive` in the repository's root, which proves the exported calls and writes\n\
             target/staticlib/libcollector.a; or set FERNWEEKS_LIB_DIR to the folder that has the archive.",
            archive.display()
        ));
    }
    println!("cargo:rustc-link-search=native={}", dir.display());
    println!("cargo:rustc-link-lib=static=collector");
}

fn stop(why: &str) -> ! {
    eprintln!("fernweeks: {why}");
    process::exit(1);
}
