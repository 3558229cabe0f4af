//! Safe calls of Pigyelund, a formally verified library for RPKI resource sets and route origin validation.
//!
//! The crate is for programs that check the resources of certificates (RFC 3779), operate on sets of resources, or
//! validate route origins (RFC 6811). Its calls are safe. [Some obligations](#obligations) remain. `docs/RUST.md` in the
//! repository is the guide: what is proved, a program, how to link, and the calls of the crate `rpki` with their
//! counterparts here.
//!
//! - [`Resources`] is a set of AS numbers and addresses. It is read from DER or text, and verifies certificates.
//! - [`Table`] is a table of VRPs (validated ROA payloads, [`Vrp`]). It validates a [`Route`].
//! - [`read_vrps`] reads the VRPs of a validator's file. [`read_unexpired_vrps`] leaves out those that have expired.
//!   [`apply_slurm`] applies a SLURM file (RFC 8416) to VRPs. [`read_routes`] reads the routes of lines.
//! - [`Asn`] and [`Prefix`] are the values that sets, VRPs and routes have.
//! - [`answer`] returns the answer of the program `respath` to a line.
//!
//! The crate `pigyelund-sys` has the calls of C, with their statuses and buffers.
//!
//! # Errors
//!
//! Each type has one error type: [`ResourceError`], [`TableError`], and [`ValueError`] for [`Asn`], [`Prefix`],
//! [`Vrp`] and [`Route`]. The error of [`apply_slurm`] is [`ApplySlurmError`], and that of [`answer`] is
//! [`AnswerError`]. [`Reason`] says why a call of the library fails. The text of an error is enough without that of its
//! `source()`. Overclaimed resources are not in the text: [`ResourceError::excess`] returns them. All types are `Send`
//! and `Sync`.
//!
//! Operators, [`Table::iter`], and traits that have no error, such as `Display` of sets, panic if the library is out of
//! memory. These calls return [`Reason::Memory`] instead: the call of each operator, [`Table::vrps`] and
//! [`Resources::text`].
//!
//! # Obligations
//!
//! No call checks these obligations. `pigyelund.h`, under OBLIGATIONS, has the details:
//!
//! - No call is made in a signal handler, or in the forked child of a process with threads.
//! - `malloc`, `realloc` and `free` of the process belong to one allocator. The C library's allocator is right. The
//!   library calls them, also if the program has a `#[global_allocator]`.
//! - A processor for x86-64 has the instructions of x86-64-v2.
//! - The stack has 128 KiB left.
//!
//! # Example
//!
//! ```
//! use pigyelund::{Encoding, Family, Mode, Resources};
//!
//! fn main() -> Result<(), pigyelund::ResourceError> {
//!     let issuer: Resources = "AS64496, 10.0.0.0/8".parse()?;
//!     let claim: Resources = "10.0.0.0/9, 10.128.0.0/9, 12.0.0.0/8".parse()?;
//!     // A certificate with the claim, as DER.
//!     let der = claim.der()?;
//!     let left = issuer.verify(der.extensions(), Encoding::Strict, Mode::Trim)?;
//!     assert_eq!(left.prefixes(Family::V4)?[0].to_string(), "10.0.0.0/8");
//!     assert_eq!((&claim - &left).to_string(), "12.0.0.0/8");
//!     Ok(())
//! }
//! ```
#![warn(missing_docs)]
#![warn(clippy::undocumented_unsafe_blocks)]
#![warn(unsafe_op_in_unsafe_fn)]

mod asn;
mod buffers;
mod faults;
mod prefix;
mod reason;
mod resources;
mod slurm;
mod table;
#[cfg(test)]
mod tests;
mod vrp;

pub use asn::Asn;
pub use faults::{DerFault, FileFault, RouteFault, TextFault, VrpFault};
pub use prefix::{Prefix, Subnets, ValueError};
pub use reason::{status_text, AnswerError, Reason, ResourceError, TableError};
pub use resources::{Contained, Resources};
pub use slurm::{apply_slurm, ApplySlurmError, SlurmFault, SlurmList, SlurmMember};
pub use table::{
    read_routes, read_unexpired_vrps, read_vrps, validate_routes, Changes, Covering, Table,
    UnexpiredVrps,
};
pub use vrp::{Route, Vrp};

use std::fmt::{Debug, Display, Formatter, Result as Written};
use std::net::IpAddr;

use pigyelund_sys as sys;
use resources::OCTETS;

/// The two resource extensions of a certificate, as DER: the content of the OCTET STRING `extnValue` (RFC 5280, 4.1).
///
/// `None` means that the certificate does not have the extension, and claims no resources of its kind. An extension
/// that is present but empty, `Some(&[])`, is invalid. A certificate has at least one extension (RFC 6487, 4.8.10 and
/// 4.8.11).
#[derive(Clone, Copy, Default, PartialEq, Eq, Hash)]
pub struct Extensions<'a> {
    /// The value of the extension of AS identifiers (RFC 3779, 3.2.3).
    pub asn: Option<&'a [u8]>,
    /// The value of the extension of IP address blocks (RFC 3779, 2.2.3).
    pub ip: Option<&'a [u8]>,
}

impl Extensions<'_> {
    /// Returns the bit mask of the extensions that are present.
    fn present(&self) -> u32 {
        sys::PIGY_HAS_AS * u32::from(self.asn.is_some())
            + sys::PIGY_HAS_IP * u32::from(self.ip.is_some())
    }
}

/// A certificate of a path: its extensions, and the policy for its overclaimed resources.
#[derive(Clone, Copy, Debug, PartialEq, Eq, Hash)]
pub struct Certificate<'a> {
    /// The two resource extensions of the certificate.
    pub extensions: Extensions<'a>,
    /// The policy for overclaimed resources: those that the certificate claims and its issuer does not have.
    pub mode: Mode,
}

/// The canonical DER of a set: what [`Resources::der`] returns.
///
/// The function below writes the `as_resources()`, `v4_resources()` and `v6_resources()` of a `Cert` of the crate
/// `rpki` 0.20 as DER. Pass [`Der::extensions`] of the result to [`Resources::verify`]. The result is canonical, also
/// if the DER of the certificate is not. The function needs `bcder` 0.7. It was compiled with the crate's sources and a
/// changed `bcder` 0.6.1. No test runs it.
///
/// ```ignore
/// use bcder::{encode::{sequence, Values}, Mode};
/// use rpki::repository::resources::{AddressFamily::{Ipv4, Ipv6}, AsResources, IpResources};
///
/// fn der_of(asn: &AsResources, v4: &IpResources, v6: &IpResources) -> std::io::Result<pigyelund::Der> {
///     let mut der = pigyelund::Der::default();
///     let ip = sequence((v4.encode_family(Ipv4), v6.encode_family(Ipv6)));
///     if asn.is_present() { asn.encode_ref().write_encoded(Mode::Der, &mut der.asn)?; }
///     if v4.is_present() || v6.is_present() { ip.write_encoded(Mode::Der, &mut der.ip)?; }
///     Ok(der)
/// }
/// ```
#[derive(Clone, Default, PartialEq, Eq, Hash)]
pub struct Der {
    /// The AS identifiers (RFC 3779, 3.2.3), or empty if the set has no AS numbers.
    pub asn: Vec<u8>,
    /// The IP address blocks (RFC 3779, 2.2.3), or empty if the set has no addresses.
    pub ip: Vec<u8>,
}

impl Der {
    /// Returns the extensions of a certificate with these resources. An extension is absent if it is empty here.
    pub fn extensions(&self) -> Extensions<'_> {
        Extensions {
            asn: (!self.asn.is_empty()).then_some(&self.asn),
            ip: (!self.ip.is_empty()).then_some(&self.ip),
        }
    }
}

/// Writes octets as hexadecimal digits, and no octets as `-`.
struct Hex<'a>(&'a [u8]);

impl Debug for Hex<'_> {
    fn fmt(&self, out: &mut Formatter<'_>) -> Written {
        if self.0.is_empty() {
            return out.write_str("-");
        }
        self.0
            .iter()
            .try_for_each(|octet| write!(out, "{octet:02x}"))
    }
}

/// Writes the DER in hexadecimal digits, for example `Der { asn: -, ip: 300c300a0402000130040302000a }`.
impl Debug for Der {
    fn fmt(&self, out: &mut Formatter<'_>) -> Written {
        out.debug_struct("Der")
            .field("asn", &Hex(&self.asn))
            .field("ip", &Hex(&self.ip))
            .finish()
    }
}

/// Writes the DER in hexadecimal digits, for example `Extensions { asn: None, ip: Some(3000) }`.
impl Debug for Extensions<'_> {
    fn fmt(&self, out: &mut Formatter<'_>) -> Written {
        out.debug_struct("Extensions")
            .field("asn", &self.asn.map(Hex))
            .field("ip", &self.ip.map(Hex))
            .finish()
    }
}

/// The encodings that a call accepts.
#[repr(u32)]
#[derive(Clone, Copy, Debug, PartialEq, Eq, Hash)]
pub enum Encoding {
    /// Canonical DER, and also other encodings, for example blocks in any order, which may overlap. The comment of
    /// `PIGY_LENIENT` in `pigyelund.h` lists them.
    Lenient = sys::PIGY_LENIENT,
    /// Canonical DER only (RFC 3779, 2.2.3.3, 2.2.3.6, 2.2.3.7, 2.2.3.9 and 3.2.3.4).
    Strict = sys::PIGY_STRICT,
}

/// The policy for overclaimed resources: those that a certificate claims and its issuer does not have.
#[repr(u32)]
#[derive(Clone, Copy, Debug, PartialEq, Eq, Hash)]
pub enum Mode {
    /// A certificate that overclaims is refused (RFC 6487, 7.2).
    Refuse = sys::PIGY_REFUSE,
    /// The claim of a certificate is reduced to the resources that its issuer has (RFC 8360, 4). This is the mode for
    /// certificates with the policy id-cp-ipAddr-asNumber-v2.
    Trim = sys::PIGY_TRIM,
}

/// An address family.
#[repr(u32)]
#[derive(Clone, Copy, Debug, PartialEq, Eq, PartialOrd, Ord, Hash)]
pub enum Family {
    /// IPv4.
    V4 = sys::PIGY_IPV4,
    /// IPv6.
    V6 = sys::PIGY_IPV6,
}

/// The family of the address.
impl From<IpAddr> for Family {
    fn from(address: IpAddr) -> Family {
        match address {
            IpAddr::V4(_) => Family::V4,
            IpAddr::V6(_) => Family::V6,
        }
    }
}

/// A kind of resources.
#[repr(u32)]
#[derive(Clone, Copy, Debug, PartialEq, Eq, Hash)]
pub enum Kind {
    /// AS numbers.
    Asn = sys::PIGY_ASN,
    /// IPv4 addresses.
    V4 = sys::PIGY_IPV4,
    /// IPv6 addresses.
    V6 = sys::PIGY_IPV6,
}

impl Kind {
    /// Returns the kind with this number, if there is one.
    fn of_number(number: u32) -> Option<Kind> {
        match number {
            sys::PIGY_ASN => Some(Kind::Asn),
            sys::PIGY_IPV4 => Some(Kind::V4),
            sys::PIGY_IPV6 => Some(Kind::V6),
            _ => None,
        }
    }
}

/// The addresses of the family.
impl From<Family> for Kind {
    fn from(family: Family) -> Kind {
        match family {
            Family::V4 => Kind::V4,
            Family::V6 => Kind::V6,
        }
    }
}

/// The validity of a route (RFC 6811, 2). It is no truth value: compare it, or match it.
#[derive(Clone, Copy, Debug, PartialEq, Eq, Hash)]
pub enum Validity {
    /// At least one VRP matches the route.
    Valid,
    /// No VRP covers the route.
    NotFound,
    /// At least one VRP covers the route, and none matches it.
    Invalid(InvalidReason),
}

impl Validity {
    /// Returns the number of RFC 8097, 2. The number of [`Validity::Valid`] is 0.
    pub fn number(self) -> u8 {
        let number = match self {
            Validity::Valid => sys::PIGY_VALID,
            Validity::NotFound => sys::PIGY_NOT_FOUND,
            Validity::Invalid(_) => sys::PIGY_INVALID,
        };
        number as u8
    }
}

/// Writes `valid`, `not-found`, `invalid-as` or `invalid-length`, as the program `origins` does.
impl Display for Validity {
    fn fmt(&self, out: &mut Formatter<'_>) -> Written {
        out.write_str(match self {
            Validity::Valid => "valid",
            Validity::NotFound => "not-found",
            Validity::Invalid(InvalidReason::As) => "invalid-as",
            Validity::Invalid(InvalidReason::Length) => "invalid-length",
        })
    }
}

/// The reason why a route is invalid.
#[repr(u32)]
#[derive(Clone, Copy, Debug, PartialEq, Eq, Hash)]
pub enum InvalidReason {
    /// No covering VRP has the route's AS, or the route's AS is AS 0.
    As = sys::PIGY_INVALID_AS,
    /// A VRP that covers the route has its AS. The route is longer than the VRP allows.
    Length = sys::PIGY_INVALID_LENGTH,
}

/// Returns the version of the linked library, as `PIGY_VERSION_NUMBER` in `pigyelund.h`: 1002003 is 1.2.3.
pub fn version() -> u32 {
    // SAFETY: the call has no arguments and no state.
    unsafe { sys::pigy_version() }
}

/// Returns the text of the octets that a call wrote.
pub(crate) fn text_of(octets: Vec<u8>) -> String {
    String::from_utf8(octets).expect("a text that a call writes is UTF-8")
}

/// Returns the answer of the program `respath` to a line.
///
/// `der v4 LIST` converts text to DER in hexadecimal, and `read v4 HEX` converts DER to text. The manual page
/// respath(1) has all commands.
///
/// # Parameters
///
/// - `line`: a line in UTF-8, without its line end. The answer has no line end either.
///
/// # Errors
///
/// [`Reason::BadQuery`] for a line that the program refuses, or [`Reason::Memory`].
///
/// # Example
///
/// ```
/// assert_eq!(pigyelund::answer("norm as 3, 1-2").unwrap(), "AS1-AS3");
/// assert!(pigyelund::answer("norm as x").is_err());
/// ```
pub fn answer(line: impl AsRef<[u8]>) -> Result<String, AnswerError> {
    let line = line.as_ref();
    let (start, len) = (line.as_ptr().cast(), line.len());
    // The answer can be longer than the line: most of all the prefixes of an IPv6 range. A longer one takes two calls.
    let capacity = len.saturating_mul(3).saturating_add(OCTETS);
    // SAFETY: the call writes the octets, if it returns PIGY_OK. The line lives until the call returns.
    let found = unsafe {
        buffers::items(capacity, |out: *mut u8, capacity, written| {
            sys::pigy_answer(start, len, out.cast(), capacity, written)
        })
    };
    let octets = found.map_err(|status| AnswerError { status })?;
    Ok(text_of(octets))
}

/// Tests the example of the README.
#[cfg(doctest)]
#[doc = include_str!("../README.md")]
struct Readme;
