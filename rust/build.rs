//! Links the archive of the machines: `libosdp_c.a` from the folder that `OSDP_C_LIB_DIR` names, if it is set, or else from `lib` beside this file, where
//! `./install` puts it, or else from where `rt lib` leaves it in this repository; or else `libosdp.a`, which pkg-config finds. The last three are of 64-bit Linux on
//! x86, so a build for another target takes only what `OSDP_C_LIB_DIR` names. It is wanted where a program is linked: `cargo check` and `cargo doc` do without.
use std::env;
use std::path::PathBuf;
use std::process::Command;

/// The folder that `OSDP_C_LIB_DIR` names, if it is set. Cargo runs this in the crate's folder, so a path that isn't whole begins there.
fn named() -> Option<PathBuf> {
    let named = PathBuf::from(env::var_os("OSDP_C_LIB_DIR").filter(|folder| !folder.is_empty())?);
    if named.is_relative() {
        println!(
            "cargo:warning=OSDP_C_LIB_DIR is no whole path: {} is looked for in the folder of the crate osdp",
            named.display()
        );
    }
    Some(named)
}

/// Whether a program is built for the processor and the system of the archives that lie beside this file.
fn is_for_their_target() -> bool {
    let of = |part: &str| env::var(format!("CARGO_CFG_TARGET_{part}")).unwrap_or_default();
    of("ARCH") == "x86_64" && of("OS") == "linux"
}

/// The folder of the archive that goes with this crate: the first of those in which it may be.
fn beside() -> Option<PathBuf> {
    let here = PathBuf::from(env::var_os("CARGO_MANIFEST_DIR").expect("cargo sets this"));
    ["lib", "../crates/osdp_c/out"]
        .map(|folder| here.join(folder))
        .into_iter()
        .find(|folder| folder.join("libosdp_c.a").exists())
}

/// The folder of the system's library, if pkg-config finds one.
fn of_the_system() -> Option<PathBuf> {
    let words = ["--variable=libdir", "osdp"];
    let said = Command::new("pkg-config").args(words).output().ok()?;
    let folder = String::from_utf8(said.stdout).ok()?;
    (said.status.success() && !folder.trim().is_empty()).then(|| PathBuf::from(folder.trim()))
}

/// The folder and the name of the archive, if there is one.
fn found() -> Option<(PathBuf, &'static str)> {
    if let Some(folder) = named() {
        return Some((folder, "osdp_c"));
    }
    if !is_for_their_target() {
        return None;
    }
    match beside() {
        Some(folder) => Some((folder, "osdp_c")),
        None => of_the_system().map(|folder| (folder, "osdp")),
    }
}

fn main() {
    println!("cargo:rerun-if-env-changed=OSDP_C_LIB_DIR");
    println!("cargo:rerun-if-env-changed=PKG_CONFIG_PATH");
    let Some((folder, name)) = found() else {
        // it is looked for again at each build: a file that isn't there counts as changed
        println!("cargo:rerun-if-changed=lib/libosdp_c.a");
        let wanted = if is_for_their_target() {
            "run `rt lib` in crates/osdp_c, or set OSDP_C_LIB_DIR"
        } else {
            "set OSDP_C_LIB_DIR to the folder of one for this target (tools/retarget makes it)"
        };
        println!(
            "cargo:warning=no archive of the machines: nothing that uses it can be linked; {wanted}"
        );
        return;
    };
    let archive = folder.join(format!("lib{name}.a"));
    if !archive.exists() {
        println!(
            "cargo:warning=no archive at {}: nothing that uses it can be linked",
            archive.display()
        );
    }
    println!("cargo:rerun-if-changed={}", archive.display());
    println!("cargo:rustc-link-search=native={}", folder.display());
    println!("cargo:rustc-link-lib=static:-bundle={name}");
}
