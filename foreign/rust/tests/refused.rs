//! Tests what the calls on sets do if the library is out of memory: they return `Reason::Memory`, or take no memory.
//!
//! This file has one test, so that it makes the first call of the process. With glibc a program can define `malloc` and
//! `realloc`. Those of this file refuse requests of the library, and none of Rust.
#![cfg(all(target_os = "linux", target_env = "gnu"))]
use pigyelund::{
    Asn, Certificate, Encoding, Extensions, Family, Kind, Mode, Reason, ResourceError, Resources,
};
use std::alloc::{GlobalAlloc, Layout, System};
use std::cell::Cell;
use std::os::raw::c_void;
use std::ptr::null_mut;

extern "C" {
    fn __libc_malloc(size: usize) -> *mut c_void;
    fn __libc_realloc(start: *mut c_void, size: usize) -> *mut c_void;
}

thread_local! {
    /// How many requests succeed before all later ones are refused.
    static LEFT: Cell<usize> = const { Cell::new(usize::MAX) };
}

/// Counts a request. Returns whether it is refused.
fn is_refused() -> bool {
    LEFT.with(|left| {
        let count = left.get();
        left.set(count.saturating_sub(usize::from(count != usize::MAX)));
        count == 0
    })
}

/// The function of the C library, which may refuse.
#[no_mangle]
extern "C" fn malloc(size: usize) -> *mut c_void {
    if is_refused() {
        return null_mut();
    }
    // SAFETY: this is the allocator of the C library.
    unsafe { __libc_malloc(size) }
}

/// The function of the C library, which may refuse.
///
/// # Safety
///
/// As that of the C library.
#[no_mangle]
unsafe extern "C" fn realloc(start: *mut c_void, size: usize) -> *mut c_void {
    if is_refused() {
        return null_mut();
    }
    // SAFETY: as the caller promises.
    unsafe { __libc_realloc(start, size) }
}

/// Allocates for Rust, and is never refused.
struct Own;

/// Makes a request that is not refused.
fn unrefused(request: impl FnOnce() -> *mut u8) -> *mut u8 {
    let left = LEFT.with(|left| left.replace(usize::MAX));
    let found = request();
    LEFT.with(|it| it.set(left));
    found
}

// SAFETY: each call is that of the system's allocator.
unsafe impl GlobalAlloc for Own {
    unsafe fn alloc(&self, layout: Layout) -> *mut u8 {
        // SAFETY: as the caller promises.
        unrefused(|| unsafe { System.alloc(layout) })
    }

    unsafe fn realloc(&self, start: *mut u8, layout: Layout, size: usize) -> *mut u8 {
        // SAFETY: as the caller promises.
        unrefused(|| unsafe { System.realloc(start, layout, size) })
    }

    unsafe fn dealloc(&self, start: *mut u8, layout: Layout) {
        // SAFETY: as the caller promises.
        unsafe { System.dealloc(start, layout) }
    }
}

#[global_allocator]
static OWN: Own = Own;

/// Makes a call in which the library gets `count` requests.
fn with_requests<T>(count: usize, call: impl FnOnce() -> T) -> T {
    LEFT.with(|left| left.set(count));
    let found = call();
    LEFT.with(|left| left.set(usize::MAX));
    found
}

/// Makes a call with each number of requests, until it succeeds. Returns this number.
fn requests_of<T>(call: impl Fn() -> Result<T, ResourceError>) -> usize {
    for count in 0.. {
        match with_requests(count, &call) {
            Ok(_) => return count,
            Err(error) => assert_eq!(error.reason(), Reason::Memory, "{count} requests"),
        }
    }
    unreachable!("each count is below usize::MAX")
}

#[test]
fn calls_return_memory() {
    // The first call makes the empty set too.
    assert!(requests_of(|| "".parse::<Resources>()) > 0);
    let text = "AS1-AS4, AS64496, 10.0.0.0/8, 12.0.0.0/8, 2001:db8::/32";
    assert!(requests_of(|| text.parse::<Resources>()) > 1);
    let [a, b]: [Resources; 2] = [text, "AS2, 10.9.0.0/16"].map(|it| it.parse().unwrap());
    let der = b.der().unwrap();
    let certificate = Certificate {
        extensions: der.extensions(),
        mode: Mode::Trim,
    };
    let (strict, refuse) = (Encoding::Strict, Mode::Refuse);
    let counts = [
        requests_of(|| Resources::from_text("10.0.0.0/8", Kind::V4)),
        requests_of(|| Resources::read(Extensions::default(), strict)),
        requests_of(|| Resources::read(der.extensions(), strict)),
        requests_of(|| a.verify(der.extensions(), strict, refuse)),
        requests_of(|| a.verify_path(&[certificate; 2], strict)),
        requests_of(|| a.union(&b)),
        requests_of(|| a.intersection(&b)),
        requests_of(|| a.difference(&b)),
        requests_of(|| a.symmetric_difference(&b)),
        requests_of(|| a.der()),
        requests_of(|| a.text(Kind::V4)),
        requests_of(|| a.prefixes(Family::V4)),
    ];
    assert!(!counts.contains(&0), "{counts:?}");
    let none = Resources::default();
    let found = with_requests(0, || {
        let are_empty = [&a, &b, &none].map(Resources::is_empty);
        (are_empty, a.contains(&b), a.contains(Asn::new(5)), a == b)
    });
    assert_eq!(found, ([false, false, true], true, false, false));
}
