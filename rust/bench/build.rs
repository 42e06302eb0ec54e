//! Links into the bench what is at hand of the two programs that print PSV lines, and tells it what is not, and why.
//!
//! - The oracle: the crate in `oracle/`, over the sources in ../shared/oracle beside the repository, sets the cfg `oracle`.
//! - table2psv: the object file that `tools/build.py object` makes sets the cfg `table2psv`. Its main, read, write and lseek get names of
//!   their own; the bench has the last three.

use std::path::{Path, PathBuf};
use std::process::Command;
use std::{env, process};

fn main() {
    println!("cargo:rustc-check-cfg=cfg(oracle, table2psv)");
    println!("cargo:rerun-if-changed=build.rs");
    let here = Path::new(env!("CARGO_MANIFEST_DIR"));
    let out = PathBuf::from(env::var_os("OUT_DIR").unwrap_or_default());
    add("oracle", "ORACLE_LEFT_OUT", oracle(here, &out));
    add("table2psv", "TABLE2PSV_LEFT_OUT", table2psv(here, &out));
}

/// Sets the cfg, or the variable to why it is not set.
fn add(cfg: &str, variable: &str, added: Result<(), &str>) {
    match added {
        Ok(()) => println!("cargo:rustc-cfg={cfg}"),
        Err(why) => println!("cargo:rustc-env={variable}={why}"),
    }
}

fn oracle(here: &Path, out: &Path) -> Result<(), &'static str> {
    let shared = here.join("../../../shared");
    let sources = shared.join("oracle/Cargo.toml");
    // A file that is missing is looked for again at the next build.
    println!("cargo:rerun-if-changed={}", sources.display());
    if !sources.is_file() {
        return Err("../shared/oracle is not beside the repository");
    }
    for folder in [shared.join("oracle/src"), shared.join("oracle/stand-ins"), shared.join("src"), here.join("oracle")] {
        println!("cargo:rerun-if-changed={}", folder.display());
    }
    let target = env::var("TARGET").unwrap_or_default();
    let folder = out.join("oracle");
    let mut cargo = Command::new(env::var_os("CARGO").unwrap_or_else(|| "cargo".into()));
    cargo.args(["build", "--quiet", "--release", "--offline", "--target", &target]);
    cargo.arg("--manifest-path").arg(here.join("oracle/Cargo.toml")).arg("--target-dir").arg(&folder);
    if !cargo.status().is_ok_and(|status| status.success()) {
        eprintln!("bench: the oracle in ../shared/oracle could not be built");
        process::exit(1);
    }
    let built = folder.join(target).join("release");
    println!("cargo:rustc-link-search=crate={}", built.display());
    println!("cargo:rustc-link-search=dependency={}", built.join("deps").display());
    println!("cargo:rustc-link-search=dependency={}", folder.join("release/deps").display());
    Ok(())
}

fn table2psv(here: &Path, out: &Path) -> Result<(), &'static str> {
    let folder = here.join("../../target/obj");
    let proved = folder.join("table2psv.o");
    println!("cargo:rerun-if-changed={}", proved.display());
    if !proved.is_file() {
        return Err("there is no target/obj/table2psv.o (tools/build.py object makes it)");
    }
    let renamed = out.join("table2psv.o");
    let mut objcopy = Command::new("objcopy");
    for name in ["main", "read", "write", "lseek"] {
        objcopy.arg(format!("--redefine-sym={name}=table2psv_{name}"));
    }
    if !objcopy.arg(&proved).arg(&renamed).status().is_ok_and(|status| status.success()) {
        return Err("objcopy is missing, or did not take target/obj/table2psv.o");
    }
    println!("cargo:rustc-link-arg={}", renamed.display());
    // the C code of Rattle's standard library, as far as the program calls it
    for archive in ["libos_c.a", "liblibc_c.a"] {
        println!("cargo:rustc-link-arg={}", folder.join(archive).display());
    }
    Ok(())
}
