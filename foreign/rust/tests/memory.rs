//! Tests that dropping a `Table` or a `Resources` frees its memory, also after a call that failed.
//!
//! This file has one test, so that no other test allocates memory at the same time.
use pigyelund::{Asn, Encoding, Mode, Prefix, Resources, Table, Vrp};
use std::fs::read_to_string;
use std::net::Ipv4Addr;

const VRPS: u32 = 20_000;
const TABLES: usize = 200;
/// The octets that leaked tables would keep: a table has at least 24 octets for each VRP.
const LEAKED: usize = TABLES * VRPS as usize * 24;

/// Returns the resident memory of the process in octets, for pages of 4,096 octets.
fn resident() -> usize {
    let pages = read_to_string("/proc/self/statm").unwrap();
    pages.split(' ').nth(1).unwrap().parse::<usize>().unwrap() * 4096
}

/// Makes a table and the next one, makes a call that fails, and drops both tables.
fn make_and_drop_tables(vrps: &[Vrp], fresh: Vrp) {
    let table = Table::new(vrps).unwrap();
    let next = table.with_changes(&[fresh], &[]).unwrap();
    assert_eq!(next.len(), vrps.len() + 1);
    assert!(next.with_changes(&[fresh], &[]).is_err());
}

/// Reads a set, makes others from it, and drops them all: also the overclaimed resources of an error.
fn make_and_drop_sets(set: &Resources) {
    let der = set.der().unwrap();
    let copy = Resources::read(der.extensions(), Encoding::Strict).unwrap();
    assert!((set - &copy).is_empty() && set.clone() == copy);
    let refused = Resources::default().verify(der.extensions(), Encoding::Strict, Mode::Refuse);
    assert_eq!(refused.unwrap_err().excess(), Some(set));
}

/// Asserts that many runs of a call keep less memory than a fourth of what they would leak.
fn keeps_no_memory(leaked: usize, call: impl Fn()) {
    (0..TABLES / 10).for_each(|_| call());
    let before = resident();
    (0..TABLES).for_each(|_| call());
    let more = resident().saturating_sub(before);
    assert!(more < leaked / 4, "{more} octets more after {TABLES} runs");
}

#[test]
fn memory_is_freed() {
    let prefix = |at: u32| Prefix::new(Ipv4Addr::from(at << 12), 20).unwrap();
    let vrp = |at: u32, asn| Vrp::new(prefix(at), 20, asn).unwrap();
    let vrps: Vec<Vrp> = (0..VRPS).map(|at| vrp(at, 1)).collect();
    keeps_no_memory(LEAKED, || make_and_drop_tables(&vrps, vrp(0, 2)));
    // A block takes at least eight octets of memory: two AS numbers.
    let set: Resources = (0..VRPS).map(|at| Asn::new(2 * at)).collect();
    keeps_no_memory(TABLES * VRPS as usize * 8, || make_and_drop_sets(&set));
}
