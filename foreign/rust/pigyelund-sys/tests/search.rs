//! Tests in which folders, and in which order, `build.rs` searches for the library. Tests what it passes to the build
//! scripts of dependents.
#[allow(dead_code)]
#[path = "../build.rs"]
mod build;

use build::{folder_of, metadata_of, packaged, usual, LIBRARIES};
use std::fs;
use std::os::unix::fs::PermissionsExt;
use std::path::{Path, PathBuf};

const STATIC: &str = LIBRARIES[0];
const SHARED: &str = LIBRARIES[1];

/// Makes an empty folder and returns its path. The folder gets a file with the library's name if `has` is set.
fn folder(name: &str, has: bool) -> String {
    let path = PathBuf::from(env!("CARGO_TARGET_TMPDIR")).join(name);
    let _ = fs::remove_dir_all(&path);
    fs::create_dir_all(&path).unwrap();
    if has {
        fs::write(path.join("libpigyelund.a"), "").unwrap();
    }
    path.into_os_string().into_string().unwrap()
}

#[test]
fn order_of_folders() {
    let [one, two, none] =
        [("one", true), ("two", true), ("none", false)].map(|(name, has)| folder(name, has));
    // The usual folders are searched in their order.
    assert_eq!(folder_of("", &[&one, &two], STATIC), Ok(one.clone()));
    assert_eq!(folder_of("", &[&two, &one], STATIC), Ok(two.clone()));
    assert_eq!(folder_of("", &[&none, &one], STATIC), Ok(one.clone()));
    // The feature `dynamic` searches for the other library.
    assert!(folder_of("", &[&one, &two], SHARED).is_err() && folder_of(&one, &[], SHARED).is_err());
    fs::write(Path::new(&two).join("libpigyelund.so"), "").unwrap();
    assert_eq!(folder_of("", &[&one, &two], SHARED), Ok(two.clone()));
    // The folder of PIGYELUND_LIB is searched first.
    assert_eq!(folder_of(&two, &[&one], STATIC), Ok(two));
}

/// If PIGYELUND_LIB is wrong, no other folder is searched. The error has the value, and what is expected.
#[test]
fn wrong_folders() {
    let [one, none] = [("right", true), ("empty", false)].map(|(name, has)| folder(name, has));
    let why = format!(
        "libpigyelund.a is not in {none} or {none}: expected it there, or the absolute path of its folder in \
         PIGYELUND_LIB"
    );
    assert_eq!(folder_of("", &[&none, &none], STATIC), Err(why));
    let file = format!("{one}/libpigyelund.a");
    let missing = format!("{none}/missing");
    let wrong = [
        (
            &none,
            "has no file libpigyelund.a: expected the folder of this file",
        ),
        (&file, "is a file: expected the folder of libpigyelund.a"),
        (
            &missing,
            "does not exist: expected the folder of libpigyelund.a",
        ),
        (
            &String::from("lib"),
            "is a relative path: expected the absolute path of the folder of libpigyelund.a",
        ),
    ];
    for (named, why) in wrong {
        let why = format!("PIGYELUND_LIB={named} {why}");
        assert_eq!(folder_of(named, &[&one], STATIC), Err(why));
    }
}

#[test]
fn usual_folders() {
    // A library that an administrator installed comes before that of a package (FHS 3.0, 4.9). The third folder is that
    // of a Debian package, and the fourth that of Fedora, RHEL and SUSE.
    let wanted = [
        "/usr/local/lib",
        "/usr/local/lib64",
        "/usr/lib/x86_64-linux-gnu",
        "/usr/lib64",
        "/usr/lib",
    ];
    assert_eq!(usual("x86_64"), wanted);
    assert_eq!(usual("aarch64")[2], "/usr/lib/aarch64-linux-gnu");
}

/// The folder is that of pkg-config, if it knows a version that is new enough. It prints a backslash before a space.
#[test]
fn packages() {
    let lib = folder("a package/lib", true);
    let program = PathBuf::from(folder("tools", false)).join("pkg-config");
    let printed = format!("{lib}/../lib").replace(' ', "\\\\ ");
    let text = format!(
        r#"#!/bin/sh
case "$*" in
"--atleast-version=0.2.0 pigyelund") exit 0 ;;
"--variable=libdir pigyelund") echo "{printed}" ;;
*) exit 1 ;;
esac
"#
    );
    fs::write(&program, text).unwrap();
    fs::set_permissions(&program, fs::Permissions::from_mode(0o755)).unwrap();
    let program = program.to_str().unwrap();
    assert_eq!(packaged(program, "0.2.0"), Some(lib.clone()));
    assert_eq!(packaged(program, "0.3.0"), None);
    assert_eq!(packaged("/no/such/program", "0.2.0"), None);
    // A folder that is not there is no folder of a package.
    fs::remove_dir_all(&lib).unwrap();
    assert_eq!(packaged(program, "0.2.0"), None);
}

#[test]
fn metadata() {
    let root = folder("root", false);
    let [lib, include, package] = ["lib", "include", "lib/pkgconfig"].map(|name| {
        let path = PathBuf::from(&root).join(name);
        fs::create_dir_all(&path).unwrap();
        path.into_os_string().into_string().unwrap()
    });
    assert_eq!(metadata_of(&lib), [("lib", lib.clone())]);
    fs::write(format!("{include}/pigyelund.h"), "").unwrap();
    fs::write(
        format!("{package}/pigyelund.pc"),
        "Name: p\nVersion: 0.1.0\n",
    )
    .unwrap();
    let wanted = [
        ("lib", lib.clone()),
        ("root", root),
        ("include", include),
        ("version", String::from("0.1.0")),
    ];
    assert_eq!(metadata_of(&lib), wanted);
    // The folder of an architecture has a library of its own. The header is for all architectures.
    let multiarch = format!("{lib}/x86_64-linux-gnu");
    fs::create_dir_all(&multiarch).unwrap();
    let [_, root, include, _] = wanted;
    let wanted = [("lib", multiarch.clone()), root, include];
    assert_eq!(metadata_of(&multiarch), wanted);
    let below = format!("{multiarch}/below");
    assert_eq!(metadata_of(&below), [("lib", below.clone())]);
}
