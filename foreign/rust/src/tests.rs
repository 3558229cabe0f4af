//! Tests how often the calls of the crate call the library: once for nearly all golden tests of `rows.txt`.
use std::cell::Cell;

use crate::buffers::items;
use crate::resources::{ITEMS, OCTETS};
use crate::{answer, read_vrps, Encoding, Extensions, Family, Kind, Resources, Route, Table, Vrp};
use pigyelund_sys::{PIGY_ABSENT, PIGY_MEMORY, PIGY_OK, PIGY_TOO_SMALL};

thread_local! {
    static CALLS: Cell<usize> = const { Cell::new(0) };
}

/// Counts a call of the library with buffers.
pub(crate) fn count_call() {
    CALLS.with(|calls| calls.set(calls.get() + 1));
}

/// Returns how often the library is called.
fn calls_of<T>(call: impl FnOnce() -> T) -> usize {
    CALLS.with(|calls| calls.set(0));
    call();
    CALLS.with(Cell::get)
}

fn octets(word: &str) -> Vec<u8> {
    let digits = if word == "-" { "" } else { word };
    (0..digits.len() / 2)
        .map(|at| u8::from_str_radix(&digits[2 * at..2 * at + 2], 16).unwrap())
        .collect()
}

/// Makes each call with buffers on the set of a row in the lenient encoding, the line of a row, or its file. Returns
/// how often each call calls the library.
fn calls_of_row(words: &[&str]) -> Vec<usize> {
    let [asn, ip] = [2, 3].map(|at| octets(words[at]));
    match words[0] {
        "answer" => return vec![calls_of(|| answer(&asn))],
        "read" => return vec![calls_of(|| read_vrps(&asn))],
        "print" => {}
        _ => return vec![],
    }
    let extensions = Extensions {
        asn: (!asn.is_empty()).then_some(&asn),
        ip: (!ip.is_empty()).then_some(&ip),
    };
    let Ok(set) = Resources::read(extensions, Encoding::Lenient) else {
        return vec![];
    };
    let mut found = vec![calls_of(|| set.der()), calls_of(|| set.as_ranges())];
    found.extend([Family::V4, Family::V6].map(|it| calls_of(|| set.prefixes(it))));
    found.extend([Family::V4, Family::V6].map(|it| calls_of(|| set.ip_ranges(it))));
    found.extend([Kind::Asn, Kind::V4, Kind::V6].map(|it| calls_of(|| set.text(it))));
    found
}

/// At most one call of a hundred calls the library a second time. None calls it a third time.
#[test]
fn one_call_is_enough() {
    let top = env!("CARGO_MANIFEST_DIR");
    // tests/run/foreign_rows.py of the repository makes the rows. The package has them in `tests/shared`.
    let text = std::fs::read_to_string(format!("{top}/../../out/foreign/rows.txt"))
        .or_else(|_| std::fs::read_to_string(format!("{top}/tests/shared/rows.txt")))
        .unwrap();
    let mut found = [0; 3];
    for row in text.lines() {
        let words: Vec<&str> = row.split(' ').collect();
        for calls in calls_of_row(&words) {
            found[calls] += 1;
            if calls > 1 {
                println!("two calls: {row}");
            }
        }
    }
    assert!(
        found[0] == 0 && found[1] > 1000 && found[2] * 100 <= found[1],
        "{found:?}"
    );
}

/// The second call has a buffer of the required capacity. A result has no unused capacity.
#[test]
fn small_buffers_are_replaced() {
    let wanted = [1_u8; 100];
    for (capacity, calls) in [(0, 2), (99, 2), (100, 1), (200, 1)] {
        let call = |out: *mut u8, capacity, len: &mut usize| {
            *len = wanted.len();
            if capacity < wanted.len() {
                return PIGY_TOO_SMALL;
            }
            // SAFETY: the buffer has the capacity.
            unsafe { out.copy_from(wanted.as_ptr(), wanted.len()) };
            PIGY_OK
        };
        let found = calls_of(|| {
            // SAFETY: the call writes the octets.
            let found = unsafe { items(capacity, call) }.unwrap();
            assert_eq!((&found[..], found.capacity()), (&wanted[..], 100));
        });
        assert_eq!(found, calls);
    }
    // With an error nothing is written, and the length is 0.
    for status in [PIGY_ABSENT, PIGY_MEMORY] {
        // SAFETY: the call does not return PIGY_OK.
        let found = unsafe { items(64, |_: *mut u8, _, _| status) };
        assert_eq!(found, Err(status));
    }
}

/// A set with more DER, prefixes, ranges or text than usual needs a second call.
#[test]
fn calls_of_large_sets() {
    for (count, calls) in [(1, 1), (ITEMS, 1), (ITEMS + 1, 2), (5000, 2)] {
        let of = |prefix: &str| -> Resources {
            let each = (0..count).map(|at| format!("{prefix}{}", 2 * at));
            each.collect::<Vec<_>>().join(",").parse().unwrap()
        };
        let (numbers, addresses) = (of("AS"), of("2001:db8::1:"));
        assert_eq!(calls_of(|| numbers.as_ranges().unwrap()), calls);
        let v6 = Family::V6;
        assert_eq!(calls_of(|| addresses.ip_ranges(v6).unwrap()), calls);
        assert_eq!(calls_of(|| addresses.prefixes(v6).unwrap()), calls);
        for set in [&numbers, &addresses] {
            let is_long = set.der().unwrap().asn.len() + set.der().unwrap().ip.len() > OCTETS;
            assert_eq!(calls_of(|| set.der().unwrap()), 1 + usize::from(is_long));
        }
    }
}

/// Tables know the numbers of their VRPs. A route with more covering VRPs than usual needs a second call.
#[test]
fn calls_of_tables() {
    let vrps = |count: u32| -> Vec<Vrp> {
        let ten = "10.0.0.0/8".parse().unwrap();
        (0..count)
            .map(|asn| Vrp::new(ten, 8, asn).unwrap())
            .collect()
    };
    let route: Route = "10.0.0.0/8 AS1".parse().unwrap();
    for (count, covering) in [(0, 1), (1, 1), (16, 1), (17, 2), (5000, 2)] {
        let table = Table::new(&vrps(count)).unwrap();
        assert_eq!(calls_of(|| table.vrps().unwrap()), 1);
        assert_eq!(calls_of(|| table.covering(&route).unwrap()), covering);
        let none = Table::new(&[]).unwrap();
        assert_eq!(calls_of(|| table.changes(&none).unwrap()), 1);
        assert_eq!(calls_of(|| none.changes(&table).unwrap()), 1);
    }
}
