//! Where the libraries are: in the folder that PAPR_LIB_DIR names; or else in the checkout of this
//! crate, where pkg-config says, or where the linker looks by itself.

use std::env;
use std::path::{Path, PathBuf};
use std::process::Command;

const FOLDER: &str = "PAPR_LIB_DIR";

/// The folder that pkg-config knows, if papr is installed.
fn from_pkg_config() -> Option<PathBuf> {
    let told = Command::new("pkg-config")
        .args(["--variable=libdir", "papr"])
        .output()
        .ok()?;
    let folder = String::from_utf8(told.stdout).ok()?;
    told.status
        .success()
        .then(|| PathBuf::from(folder.trim_end()))
}

/// Links the archive of this folder, or else the shared object, if it has one of this name: which kind.
fn links(folder: &Path, name: &str) -> Option<&'static str> {
    let kinds = [("a", "static"), ("so", "dylib")];
    let file = |ending: &str| folder.join(format!("lib{name}.{ending}"));
    let (ending, kind) = kinds.iter().find(|(ending, _)| file(ending).is_file())?;
    println!("cargo:rerun-if-changed={}", file(ending).display());
    println!("cargo:rustc-link-search=native={}", folder.display());
    println!("cargo:rustc-link-lib={kind}={name}");
    Some(kind)
}

/// Links a library of this name, which is built in the checkout below a crate's folder: which kind, if
/// the linker doesn't look for it by itself.
fn link(name: &str, of_crate: &str) -> Option<&'static str> {
    let top = Path::new(env!("CARGO_MANIFEST_DIR")).join("../../..");
    let built = top.join("crates").join(of_crate).join("out");
    let linked = match env::var_os(FOLDER) {
        Some(named) => links(Path::new(&named), name),
        None => links(&built, of_crate).or_else(|| links(&from_pkg_config()?, name)),
    };
    if linked.is_none() {
        println!("cargo:rustc-link-lib={name}");
    }
    linked
}

fn main() {
    println!("cargo:rerun-if-env-changed={FOLDER}");
    println!("cargo:rerun-if-env-changed=PKG_CONFIG_PATH");
    let kind = link("papr", "papr_c");
    // libpapr.so has the shared table too.
    if env::var_os("CARGO_FEATURE_SHARED").is_some() && kind != Some("dylib") {
        link("papr_shared", "papr_shared");
    }
    if env::var_os("CARGO_FEATURE_BYTES").is_some() {
        link("papr_bytes", "papr_bytes");
    }
}
