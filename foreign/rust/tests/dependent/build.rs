//! Passes the variables of the build of `pigyelund-sys` to the program.
use std::env::var;

fn main() {
    for name in ["LIB", "ROOT", "INCLUDE", "VERSION"] {
        let value = var(format!("DEP_PIGYELUND_{name}")).unwrap();
        println!("cargo:rustc-env={name}={value}");
    }
}
