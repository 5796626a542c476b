//! Finds the proved archive, so that a project only names the path of this package: in the folder that CENDRULAS_LIB_DIR names, else where
//! host/library writes it in this repository, else where pkg-config says that `make install` has put it.

use std::path::{Path, PathBuf};
use std::process::Command;

const ARCHIVE: &str = "libcendrulas.a";

fn main() {
    println!("cargo:rerun-if-env-changed=CENDRULAS_LIB_DIR");
    println!("cargo:rerun-if-env-changed=PKG_CONFIG_PATH");
    let folder = folder().unwrap_or_else(|message| {
        eprintln!("{message}");
        std::process::exit(1)
    });
    println!("cargo:rerun-if-changed={}", folder.join(ARCHIVE).display());
    println!("cargo:rustc-link-search=native={}", folder.display());
    println!("cargo:rustc-link-lib=static=cendrulas");
}

fn folder() -> Result<PathBuf, String> {
    let holds = |folder: &PathBuf| folder.join(ARCHIVE).is_file();
    if let Some(named) = std::env::var_os("CENDRULAS_LIB_DIR").map(PathBuf::from) {
        return if holds(&named) { Ok(named) } else { Err(format!("CENDRULAS_LIB_DIR: there is no {ARCHIVE} in {}", named.display())) };
    }
    let repository = Path::new(env!("CARGO_MANIFEST_DIR")).join("../../target/staticlib");
    let missing = || format!("{ARCHIVE} is not found: run host/library in the repository, or name its folder by CENDRULAS_LIB_DIR");
    [Some(repository), installed()].into_iter().flatten().find(holds).ok_or_else(missing)
}

fn installed() -> Option<PathBuf> {
    let said = Command::new("pkg-config").args(["--variable=libdir", "cendrulas"]).output().ok()?;
    let folder = String::from_utf8(said.stdout).ok()?;
    said.status.success().then(|| PathBuf::from(folder.trim()))
}
