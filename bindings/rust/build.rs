//! Finds libcmk: the static one in the folder that the variable CMK_LIB_DIR names, or without it the installed one by pkg-config.

use std::env;
use std::path::Path;
use std::process::{Command, ExitCode};

fn main() -> ExitCode {
    for name in ["CMK_LIB_DIR", "PKG_CONFIG_PATH", "PKG_CONFIG_LIBDIR"] {
        println!("cargo:rerun-if-env-changed={name}");
    }
    let found = match env::var("CMK_LIB_DIR") {
        Ok(folder) => Path::new(&folder).join("libcmk.a").exists().then(|| (folder, "static")),
        Err(_) => told_by_pkg_config().map(|folder| (folder, "dylib")),
    };
    if let Some((folder, kind)) = found {
        println!("cargo:rustc-link-search=native={folder}");
        println!("cargo:rustc-link-lib={kind}=cmk");
        return ExitCode::SUCCESS;
    }
    eprintln!(
        "Install libcmk so that pkg-config finds cmk, or let the variable CMK_LIB_DIR name the folder of libcmk.a."
    );
    ExitCode::FAILURE
}

/// The folder of the library, as pkg-config reports it.
fn told_by_pkg_config() -> Option<String> {
    let told = Command::new("pkg-config").args(["--variable=libdir", "cmk"]).output().ok()?;
    let folder = String::from_utf8(told.stdout).ok()?;
    told.status.success().then(|| folder.trim().to_owned())
}
