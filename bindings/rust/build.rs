//! Finds the library and links it, see README.md.

use std::env;
use std::path::PathBuf;
use std::process::{exit, Command};

fn main() {
    for name in ["KORMAGLEN_LIB_DIR", "KORMAGLEN_SHARED", "PKG_CONFIG", "PKG_CONFIG_PATH"] {
        println!("cargo:rerun-if-env-changed={name}");
    }
    // The pages of docs.rs are made without any library.
    if env::var_os("DOCS_RS").is_some() {
        return;
    }
    let is_shared = env::var_os("KORMAGLEN_SHARED").map_or(false, |value| value != "0");
    let file = match (is_shared, env::var("CARGO_CFG_TARGET_OS").as_deref()) {
        (false, _) => "libkormaglen.a",
        (true, Ok("macos")) => "libkormaglen.dylib",
        (true, _) => "libkormaglen.so",
    };
    let folder = find(file).unwrap_or_else(|message| {
        eprintln!("{message}");
        exit(1)
    });
    // The compiler runs in another folder than this script.
    let folder = folder.canonicalize().unwrap_or(folder);
    println!("cargo:rerun-if-changed={}", folder.join(file).display());
    println!("cargo:rustc-link-search=native={}", folder.display());
    if is_shared {
        println!("cargo:rustc-link-lib=dylib=kormaglen");
        // For the tests and examples of this crate. Other programs find the library their own way.
        println!("cargo:rustc-link-arg=-Wl,-rpath,{}", folder.display());
    } else {
        println!("cargo:rustc-link-lib=static=kormaglen");
    }
    // The build scripts of crates that need this one have it as DEP_KORMAGLEN_LIB_DIR.
    println!("cargo:lib_dir={}", folder.display());
}

/// The folder that has the library, or a sentence that says where it was looked for.
fn find(file: &str) -> Result<PathBuf, String> {
    if let Some(folder) = env::var_os("KORMAGLEN_LIB_DIR").map(PathBuf::from) {
        return match folder.join(file).is_file() {
            true => Ok(folder),
            false => Err(format!(
                "KORMAGLEN_LIB_DIR is {}, and there is no {file} in it.",
                folder.display()
            )),
        };
    }
    let built = PathBuf::from(env::var_os("CARGO_MANIFEST_DIR").unwrap_or_default()).join("../out");
    let folders = [installed(), Some(built.clone())];
    folders.into_iter().flatten().find(|folder| folder.join(file).is_file()).ok_or_else(|| {
        format!(
            "There is no {file}: pkg-config names no folder of kormaglen that has it, and neither \
             has {}. Build it with `make` in the folder `bindings` of Kormaglen, or set \
             KORMAGLEN_LIB_DIR to the folder that has it.",
            built.display()
        )
    })
}

/// The folder that pkg-config names. It knows the libraries of this machine alone.
fn installed() -> Option<PathBuf> {
    if env::var_os("HOST") != env::var_os("TARGET") {
        return None;
    }
    let command = env::var_os("PKG_CONFIG").unwrap_or_else(|| "pkg-config".into());
    let output = Command::new(command).args(["--variable=libdir", "kormaglen"]).output().ok()?;
    let folder = String::from_utf8(output.stdout).ok()?;
    match folder.trim() {
        "" => None,
        folder => Some(PathBuf::from(folder)),
    }
}
