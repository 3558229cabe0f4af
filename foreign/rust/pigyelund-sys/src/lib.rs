//! The C interface of Pigyelund: the calls, structs and constants of `pigyelund.h`, as bindgen makes them.
//!
//! The crate `pigyelund` has safe calls. Use this crate if you need the statuses and the buffers of C. The header
//! describes each call, and lists the obligations of the caller. No call of this crate checks these obligations.
//!
//! - The names are those of the header. The field `as` of a struct is `as_`.
//! - A struct that contains a pointer has no lifetime. The caller keeps the memory behind the pointer.
//! - The build of the crate searches for the library and links it. The README lists the variables for the search.
#![no_std]
#![allow(non_camel_case_types)]

#[allow(missing_docs)]
mod bindings;

pub use bindings::*;

/// Returns the kind of a status: `PIGY_KIND` of the header.
#[allow(non_snake_case)]
pub const fn PIGY_KIND(status: pigy_status) -> pigy_status {
    status & !(0xff | PIGY_SECOND)
}

/// Returns the number that is added to the kind of a status: `PIGY_FAULT` of the header.
#[allow(non_snake_case)]
pub const fn PIGY_FAULT(status: pigy_status) -> u32 {
    status & 0xff
}
