//! Links libwitc.a, which `./install PREFIX` makes. The folder is `WITC_LIB_DIR`, which is PREFIX/lib, and else that of pkg-config. With `WITC_SHARED`
//! set, libwitc.so is linked instead, and found again at run time in the same folder by binaries, tests and examples of this package. With `WITC_DOCS` set,
//! and on docs.rs, nothing is linked: documentation needs no library.

use std::env;
use std::path::PathBuf;
use std::process::Command;

fn of_pkg_config() -> Option<PathBuf> {
    let said = Command::new("pkg-config")
        .args(["--variable=libdir", "witc"])
        .output()
        .ok()?;
    let folder = String::from_utf8(said.stdout).ok()?;
    said.status.success().then(|| PathBuf::from(folder.trim()))
}

fn main() {
    for word in [
        "WITC_LIB_DIR",
        "WITC_SHARED",
        "WITC_DOCS",
        "DOCS_RS",
        "PKG_CONFIG_PATH",
    ] {
        println!("cargo::rerun-if-env-changed={word}");
    }
    if env::var_os("DOCS_RS").is_some() || env::var_os("WITC_DOCS").is_some() {
        return;
    }
    let Some(folder) = env::var_os("WITC_LIB_DIR")
        .map(PathBuf::from)
        .or_else(of_pkg_config)
    else {
        println!(
            "cargo::error=libwitc isn't found: set WITC_LIB_DIR to PREFIX/lib of `./install PREFIX`, or put its pkgconfig into PKG_CONFIG_PATH"
        );
        return;
    };
    let shared = env::var_os("WITC_SHARED").is_some();
    let file = folder.join(if shared { "libwitc.so" } else { "libwitc.a" });
    if !file.exists() {
        println!("cargo::error={} isn't there", file.display());
        return;
    }
    println!("cargo::rerun-if-changed={}", file.display());
    println!("cargo::rustc-link-search=native={}", folder.display());
    println!(
        "cargo::rustc-link-lib={}=witc",
        if shared { "dylib" } else { "static" }
    );
    if shared {
        println!("cargo::rustc-link-arg=-Wl,-rpath,{}", folder.display());
    }
}
