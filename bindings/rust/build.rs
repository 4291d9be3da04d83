//! Finds the library that `bindings/build` makes, and has it linked.
//!
//! It is in the folder that an environment variable names, or else where `bindings/build` puts
//! it. A file beside it says whether it is proved, which [`build_word`] reads.

use std::env;
use std::fs;
use std::path::{Path, PathBuf};
use std::process::exit;

/// The environment variable that names the library's folder.
const VARIABLE: &str = "MYSQL_SESSION_LIBRARY";

fn main() {
    println!("cargo:rerun-if-env-changed={VARIABLE}");
    if let Err(message) = folder().and_then(|folder| link(&folder)) {
        eprintln!("{message}");
        exit(1);
    }
}

/// The folder that the variable names, or that of `bindings/build`.
fn folder() -> Result<PathBuf, String> {
    if let Some(named) = env::var_os(VARIABLE).map(PathBuf::from) {
        // Cargo runs this in the crate's folder, and not where the variable was set.
        return match named.is_absolute() {
            true => Ok(named),
            false => Err(format!(
                "{VARIABLE} is no absolute path: {}",
                named.display()
            )),
        };
    }
    let here = env::var_os("CARGO_MANIFEST_DIR").ok_or("cargo names no CARGO_MANIFEST_DIR")?;
    let bindings = Path::new(&here).parent();
    Ok(bindings
        .ok_or("this crate stands in no folder")?
        .join("out"))
}

/// Has the library in a folder linked.
fn link(folder: &Path) -> Result<(), String> {
    let archive = folder.join("libmysql_session.a");
    if !archive.is_file() {
        return Err(format!(
            "the library is missing: there is no file {}. Run bindings/build, which makes it, or \
             have {VARIABLE} name the folder that has libmysql_session.a.",
            archive.display()
        ));
    }
    println!("cargo:rerun-if-changed={}", archive.display());
    println!("cargo:rustc-env=MYSQL_SESSION_BUILD={}", build_word(folder));
    println!("cargo:rustc-link-search=native={}", folder.display());
    println!("cargo:rustc-link-lib=static=mysql_session");
    Ok(())
}

/// Whether the library is proved: the first line of the file beside it, or `unknown` without one.
fn build_word(folder: &Path) -> String {
    let file = folder.join("mysql_session.build");
    println!("cargo:rerun-if-changed={}", file.display());
    let text = fs::read_to_string(file).unwrap_or_default();
    text.lines().next().unwrap_or("unknown").to_string()
}
