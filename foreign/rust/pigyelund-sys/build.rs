//! Finds the library, and passes it to the linker.
//!
//! - If `PIGYELUND_LIB` is set and not empty, it is the absolute path of the library's folder.
//! - Otherwise `pkg-config` names the folder, if it knows the package `pigyelund` of this version or a later one.
//!   `PKG_CONFIG` is another name for this program.
//! - Otherwise the folder is the first of `usual` that has the library.
//!
//! The library is the static one, `libpigyelund.a`. With the feature `dynamic` it is the shared one, `libpigyelund.so`.
//! The build fails and prints the reason if the library is not there, or if `PIGYELUND_LIB` is not such a path.
//!
//! If `DOCS_RS` is set, or `rustc` gets `--cfg docsrs`, the script neither searches nor links a library. This is for
//! `cargo doc` and `cargo check`, for example on docs.rs. A program does not link then.
//!
//! The build script of a crate that depends directly on this one gets these variables:
//!
//! - `DEP_PIGYELUND_LIB`: the folder of the library.
//! - `DEP_PIGYELUND_ROOT`, `DEP_PIGYELUND_INCLUDE`: the first folder above the library's folder, or the second one,
//!   that has `include/pigyelund.h`; and the folder of this header. They are set if there is such a header.
//! - `DEP_PIGYELUND_VERSION`: the version of the library. It is set if the library's folder has
//!   `pkgconfig/pigyelund.pc`.
use std::env::{var, VarError};
use std::fs::{canonicalize, read_to_string};
use std::path::Path;
use std::process::Command;

/// Returns the folders into which `make install` and packages put the library for a processor, in the order in which
/// they are searched. Debian has a folder for each processor.
pub(crate) fn usual(processor: &str) -> [String; 5] {
    [
        String::from("/usr/local/lib"),
        String::from("/usr/local/lib64"),
        format!("/usr/lib/{processor}-linux-gnu"),
        String::from("/usr/lib64"),
        String::from("/usr/lib"),
    ]
}

/// The variables that switch off the search. Cargo sets the second one if `rustc` gets `--cfg docsrs`.
const DOCS: [&str; 2] = ["DOCS_RS", "CARGO_CFG_DOCSRS"];

/// The other variables that the search reads. Cargo sets the first one, to the processor of the program.
const SEARCH: [&str; 6] = [
    "CARGO_CFG_TARGET_ARCH",
    "PIGYELUND_LIB",
    "PKG_CONFIG",
    "PKG_CONFIG_PATH",
    "PKG_CONFIG_LIBDIR",
    "PKG_CONFIG_SYSROOT_DIR",
];

/// The file names of the static library and of the shared one.
pub(crate) const LIBRARIES: [&str; 2] = ["libpigyelund.a", "libpigyelund.so"];

/// Returns whether a folder has the library.
fn has_library(folder: &str, library: &str) -> bool {
    Path::new(folder).join(library).is_file()
}

/// Returns what is wrong with the value of `PIGYELUND_LIB`, and what is expected. Returns `None` if nothing is wrong.
fn fault_of(named: &str, library: &str) -> Option<String> {
    let path = Path::new(named);
    if path.is_relative() {
        return Some(format!(
            "is a relative path: expected the absolute path of the folder of {library}"
        ));
    }
    if path.is_file() {
        return Some(format!("is a file: expected the folder of {library}"));
    }
    if !path.is_dir() {
        return Some(format!("does not exist: expected the folder of {library}"));
    }
    (!has_library(named, library))
        .then(|| format!("has no file {library}: expected the folder of this file"))
}

/// Returns the folder of the library: `named` if it is not empty, or else the first of `others` that has the library.
///
/// Returns the reason as `Err` if `named` is not the absolute path of a folder with the library. If `named` is empty,
/// returns the reason if no folder of `others` has the library.
pub(crate) fn folder_of(named: &str, others: &[&str], library: &str) -> Result<String, String> {
    if named.is_empty() {
        let found = others.iter().find(|folder| has_library(folder, library));
        return found.map(|folder| String::from(*folder)).ok_or(format!(
            "{library} is not in {}: expected it there, or the absolute path of its folder in PIGYELUND_LIB",
            others.join(" or ")
        ));
    }
    match fault_of(named, library) {
        Some(fault) => Err(format!("PIGYELUND_LIB={named} {fault}")),
        None => Ok(String::from(named)),
    }
}

/// Returns the folder that the program `pkg-config` names for a package of this version or a later one.
pub(crate) fn packaged(program: &str, version: &str) -> Option<String> {
    let ask = |option: &str| {
        let found = Command::new(program).args([option, "pigyelund"]).output();
        found.ok().filter(|it| it.status.success())
    };
    ask(&format!("--atleast-version={version}"))?;
    let text = String::from_utf8(ask("--variable=libdir")?.stdout).ok()?;
    let folder = canonicalize(without_escapes(text.trim())).ok()?;
    folder.into_os_string().into_string().ok()
}

/// Returns a text without the backslashes that `pkg-config` prints before spaces and other characters.
fn without_escapes(text: &str) -> String {
    let mut characters = text.chars();
    let next = || match characters.next()? {
        '\\' => characters.next(),
        other => Some(other),
    };
    std::iter::from_fn(next).collect()
}

/// Returns the rest of the first line of a file that begins with `start`, without white space at its ends.
fn rest_of_line(file: &Path, start: &str) -> Option<String> {
    let text = read_to_string(file).ok()?;
    let rest = text.lines().find_map(|line| line.strip_prefix(start))?;
    Some(String::from(rest.trim()))
}

/// Returns the names and values that build scripts of direct dependents get, each as a variable `DEP_PIGYELUND_NAME`.
pub(crate) fn metadata_of(folder: &str) -> Vec<(&'static str, String)> {
    let mut found = vec![("lib", String::from(folder))];
    // The library is in `lib`, or in a folder of `lib` that has the name of the architecture.
    for root in Path::new(folder).ancestors().skip(1).take(2) {
        let include = root.join("include");
        if include.join("pigyelund.h").is_file() {
            found.push(("root", root.display().to_string()));
            found.push(("include", include.display().to_string()));
            break;
        }
    }
    let package = Path::new(folder).join("pkgconfig/pigyelund.pc");
    found.extend(rest_of_line(&package, "Version:").map(|version| ("version", version)));
    found
}

/// Returns the folder of the library, or the reason why there is none.
fn search(library: &str) -> Result<String, String> {
    let named = match var("PIGYELUND_LIB") {
        Ok(named) => named,
        Err(VarError::NotPresent) => String::new(),
        Err(VarError::NotUnicode(named)) => {
            return Err(format!(
                "PIGYELUND_LIB={named:?} is not UTF-8: expected a path in UTF-8"
            ))
        }
    };
    let program = var("PKG_CONFIG").unwrap_or(String::from("pkg-config"));
    let packaged = match named.is_empty() {
        true => packaged(&program, env!("CARGO_PKG_VERSION")),
        false => None,
    };
    let usual = usual(&var("CARGO_CFG_TARGET_ARCH").unwrap_or_default());
    let others: Vec<&str> = packaged.iter().chain(&usual).map(String::as_str).collect();
    folder_of(&named, &others, library)
}

fn main() {
    for name in DOCS.iter().chain(&SEARCH) {
        println!("cargo:rerun-if-env-changed={name}");
    }
    if DOCS.iter().any(|name| var(name).is_ok()) {
        return;
    }
    let is_dynamic = var("CARGO_FEATURE_DYNAMIC").is_ok();
    let library = LIBRARIES[usize::from(is_dynamic)];
    let folder = match search(library) {
        Ok(folder) => folder,
        Err(why) => {
            eprintln!("{why}. docs/C.md of the repository, Install, says how to get the library.");
            std::process::exit(1);
        }
    };
    let kind = if is_dynamic { "dylib" } else { "static" };
    println!("cargo:rerun-if-changed={folder}/{library}");
    println!("cargo:rustc-link-search=native={folder}");
    println!("cargo:rustc-link-lib={kind}=pigyelund");
    for (name, value) in metadata_of(&folder) {
        println!("cargo:{name}={value}");
    }
}
