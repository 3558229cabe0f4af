//! Checks the installed header and the version of the library. Prints the folder of the library, and the version.
use std::fs::canonicalize;

fn main() {
    let [lib, root, include] =
        [env!("LIB"), env!("ROOT"), env!("INCLUDE")].map(|it| canonicalize(it).unwrap());
    assert!(lib.starts_with(&root) && include == root.join("include"));
    assert!(include.join("pigyelund.h").is_file());
    let numbers = env!("VERSION")
        .split('.')
        .map(|it| it.parse::<u32>().unwrap());
    let number = numbers.fold(0, |all, it| 1000 * all + it);
    assert_eq!(number, pigyelund::version());
    assert_eq!(number, pigyelund_sys::PIGY_VERSION_NUMBER);
    println!("{} {}", lib.display(), env!("VERSION"));
}
