//! Finds the C library `cookie_store`.

use std::env;
use std::process::{self, Command};

const VARIABLES: [&str; 4] = [
    "COOKIE_STORE_LIB_DIR",
    "COOKIE_STORE_STATIC",
    "PKG_CONFIG_PATH",
    "PKG_CONFIG_LIBDIR",
];

const NOT_FOUND: &str = "\
the C library cookie_store is not found. Either
- set COOKIE_STORE_LIB_DIR to the folder of libcookie_store.so or libcookie_store.a, or
- let pkg-config find cookie_store.pc: for an installation in PREFIX, set PKG_CONFIG_PATH to PREFIX/lib/pkgconfig.
COOKIE_STORE_STATIC=1 links libcookie_store.a.";

/// Returns the library's folder as pkg-config reports it.
fn folder_of_pkg_config() -> Option<String> {
    let output = Command::new("pkg-config")
        .args(["--variable=libdir", "cookie_store"])
        .output()
        .ok()?;
    let folder = String::from_utf8(output.stdout).ok()?.trim_end().to_owned();
    (output.status.success() && !folder.is_empty()).then_some(folder)
}

fn main() {
    for name in VARIABLES {
        println!("cargo:rerun-if-env-changed={name}");
    }
    let (kind, file) = match env::var("COOKIE_STORE_STATIC").as_deref() {
        Ok("1") => ("static", "libcookie_store.a"),
        _ => ("dylib", "libcookie_store.so"),
    };
    let named = env::var("COOKIE_STORE_LIB_DIR").ok();
    let named = named.filter(|folder| !folder.is_empty());
    let folder = named.or_else(folder_of_pkg_config).unwrap_or_else(|| {
        eprintln!("{NOT_FOUND}");
        process::exit(1);
    });
    println!("cargo:rerun-if-changed={folder}/{file}");
    println!("cargo:rustc-link-search=native={folder}");
    println!("cargo:rustc-link-lib={kind}=cookie_store");
}
