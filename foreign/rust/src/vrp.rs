//! VRPs and routes: checked constructors, accessors and texts.
use std::cmp::Ordering;
use std::fmt::{Debug, Display, Formatter, Result as Written};
use std::hash::{Hash, Hasher};
use std::os::raw::c_char;
use std::str::{from_utf8, FromStr};

use crate::prefix::check_max_len;
use crate::reason::assert_ok;
use crate::{Asn, Prefix, RouteFault, ValueError, VrpFault};
use pigyelund_sys as sys;

/// A VRP (validated ROA payload, RFC 6811, 2): a prefix, its maximum length, and the AS that may originate it.
///
/// `Display` and `FromStr` use the form `10.0.0.0/8-16 AS64496`. VRPs are ordered by prefix, then by maximum length,
/// then by AS. [`Table::vrps`](crate::Table::vrps) has another order.
///
/// # Example
///
/// ```
/// use pigyelund::Vrp;
///
/// let vrp: Vrp = "10.0.0.0/8-16 AS64496".parse().unwrap();
/// assert_eq!(Vrp::new(vrp.prefix(), 16, 64496), Ok(vrp));
/// let refused = Vrp::new(vrp.prefix(), 7, 64496).unwrap_err();
/// assert_eq!(refused.to_string(), "max length 7 of 10.0.0.0/8 is below prefix length 8: expected 8 to 32");
/// ```
// The layout is that of the library, so that a slice can be passed to it. All octets of the address that the library
// does not read are 0.
#[repr(transparent)]
#[derive(Clone, Copy)]
pub struct Vrp(pub(crate) sys::pigy_vrp);

/// A route (RFC 6811, 2): a prefix, and the AS that originates it.
///
/// `Display` and `FromStr` use the form `10.0.0.0/8 AS64496`. Routes are ordered by prefix, then by AS.
// The layout is that of the library, as for VRPs.
#[repr(transparent)]
#[derive(Clone, Copy)]
pub struct Route(pub(crate) sys::pigy_route);

impl Vrp {
    /// Returns the VRP of a prefix, a maximum length in bits, and the AS that may originate the prefix.
    ///
    /// # Errors
    ///
    /// [`ValueError::MaxLen`]: `max_len` is below the prefix length, or above 32 for IPv4, or above 128 for IPv6.
    pub fn new(prefix: Prefix, max_len: u8, asn: impl Into<Asn>) -> Result<Vrp, ValueError> {
        check_max_len(prefix, max_len)?;
        let (address, family) = prefix.parts();
        Ok(Vrp(sys::pigy_vrp {
            address,
            asn: asn.into().number(),
            family,
            len: prefix.prefix_len(),
            max_len,
        }))
    }

    /// Returns the prefix.
    pub fn prefix(&self) -> Prefix {
        Prefix::of(&self.0.address, self.0.family, self.0.len)
    }

    /// Returns the maximum length (maxLength, RFC 9582, 4.3.2) in bits.
    pub fn max_len(&self) -> u8 {
        self.0.max_len
    }

    /// Returns the AS that may originate the prefix.
    pub fn asn(&self) -> Asn {
        Asn::new(self.0.asn)
    }

    /// Returns what comparisons and hashes use.
    fn key(&self) -> (Prefix, u8, Asn) {
        (self.prefix(), self.max_len(), self.asn())
    }
}

impl Route {
    /// Returns the route of a prefix and the AS that originates it.
    ///
    /// Pass AS 0 if the path of the route ends in an AS_SET: then no VRP matches (RFC 6811, 2). Pass the router's own AS
    /// if the path is empty or ends in a confederation segment. [`read_routes`](crate::read_routes) stores AS 0 for such
    /// a path.
    pub fn new(prefix: Prefix, asn: impl Into<Asn>) -> Route {
        let (address, family) = prefix.parts();
        Route(sys::pigy_route {
            address,
            asn: asn.into().number(),
            family,
            len: prefix.prefix_len(),
        })
    }

    /// Returns the prefix.
    pub fn prefix(&self) -> Prefix {
        Prefix::of(&self.0.address, self.0.family, self.0.len)
    }

    /// Returns the AS that originates the route.
    pub fn asn(&self) -> Asn {
        Asn::new(self.0.asn)
    }

    /// Returns what comparisons and hashes use.
    fn key(&self) -> (Prefix, Asn) {
        (self.prefix(), self.asn())
    }
}

/// Compares and hashes values by their keys.
macro_rules! by_key {
    ($($name:ident)*) => {$(
        impl PartialEq for $name {
            fn eq(&self, other: &$name) -> bool {
                self.key() == other.key()
            }
        }

        impl Eq for $name {}

        impl PartialOrd for $name {
            fn partial_cmp(&self, other: &$name) -> Option<Ordering> {
                Some(self.cmp(other))
            }
        }

        impl Ord for $name {
            fn cmp(&self, other: &$name) -> Ordering {
                self.key().cmp(&other.key())
            }
        }

        impl Hash for $name {
            fn hash<H: Hasher>(&self, state: &mut H) {
                self.key().hash(state);
            }
        }
    )*};
}

by_key!(Vrp Route);

/// Writes the values, for example `Vrp { prefix: 10.0.0.0/8, max_len: 16, asn: 64496 }`.
impl Debug for Vrp {
    fn fmt(&self, out: &mut Formatter<'_>) -> Written {
        out.debug_struct("Vrp")
            .field("prefix", &format_args!("{}", self.prefix()))
            .field("max_len", &self.max_len())
            .field("asn", &self.asn().number())
            .finish()
    }
}

/// Writes the values, for example `Route { prefix: 10.0.0.0/8, asn: 64496 }`.
impl Debug for Route {
    fn fmt(&self, out: &mut Formatter<'_>) -> Written {
        out.debug_struct("Route")
            .field("prefix", &format_args!("{}", self.prefix()))
            .field("asn", &self.asn().number())
            .finish()
    }
}

/// Writes the text that a call of the library writes to a buffer of `N` octets, which always suffice.
fn write_text<const N: usize>(
    out: &mut Formatter<'_>,
    call: impl FnOnce(*mut c_char, usize, &mut usize) -> u32,
) -> Written {
    let (mut text, mut len) = ([0_u8; N], 0);
    assert_ok(call(text.as_mut_ptr().cast(), N, &mut len));
    out.write_str(from_utf8(&text[..len]).expect("a text that a call writes is UTF-8"))
}

/// Writes prefix, maximum length and AS, for example `10.0.0.0/8-16 AS64496`.
impl Display for Vrp {
    fn fmt(&self, out: &mut Formatter<'_>) -> Written {
        const MAX: usize = sys::PIGY_VRP_TEXT_MAX as usize;
        // SAFETY: the VRP and the buffer live until the call returns. The length is that of the buffer.
        write_text::<MAX>(out, |text, capacity, len| unsafe {
            sys::pigy_vrp_text(&self.0, text, capacity, len)
        })
    }
}

/// Writes prefix and AS, for example `10.0.0.0/8 AS64496`.
impl Display for Route {
    fn fmt(&self, out: &mut Formatter<'_>) -> Written {
        const MAX: usize = sys::PIGY_ROUTE_TEXT_MAX as usize;
        // SAFETY: the route and the buffer live until the call returns. The length is that of the buffer.
        write_text::<MAX>(out, |text, capacity, len| unsafe {
            sys::pigy_route_text(&self.0, text, capacity, len)
        })
    }
}

/// Reads `PREFIX-MAXLEN ASN`, for example `10.0.0.0/8-16 AS64496`.
///
/// Without `-MAXLEN` the maximum length is the prefix length (RFC 9582, 4.3.2). The letters `AS` may be absent, and may
/// be in lower case. White space around the two words is ignored. A number may have a plus sign before it, as `AS+5`.
/// [`Asn`] and [`Prefix`] do not read a plus sign.
///
/// # Errors
///
/// [`ValueError::VrpText`]: the AS number is checked first, then the prefix, and then the maximum length.
impl FromStr for Vrp {
    type Err = ValueError;

    fn from_str(text: &str) -> Result<Vrp, ValueError> {
        let mut vrp = sys::pigy_vrp::default();
        // SAFETY: the pointer and the length are those of the text.
        let status = unsafe { sys::pigy_vrp_from_text(text.as_ptr().cast(), text.len(), &mut vrp) };
        match VrpFault::of_number(sys::PIGY_FAULT(status)) {
            Some(fault) => Err(ValueError::VrpText {
                text: text.into(),
                fault,
            }),
            None => {
                assert_ok(status);
                Ok(Vrp(vrp))
            }
        }
    }
}

/// Reads `PREFIX ASN`, for example `10.0.0.0/8 AS64496`.
///
/// The letters `AS`, white space and plus signs are as in the text of a [`Vrp`].
///
/// # Errors
///
/// [`ValueError::RouteText`]: the prefix is checked first, and then the AS number.
impl FromStr for Route {
    type Err = ValueError;

    fn from_str(text: &str) -> Result<Route, ValueError> {
        let mut route = sys::pigy_route::default();
        let (start, len) = (text.as_ptr().cast(), text.len());
        // SAFETY: the pointer and the length are those of the text.
        let status = unsafe { sys::pigy_route_from_text(start, len, &mut route) };
        match RouteFault::of_number(sys::PIGY_FAULT(status)) {
            Some(fault) => Err(ValueError::RouteText {
                text: text.into(),
                fault,
            }),
            None => {
                assert_ok(status);
                Ok(Route(route))
            }
        }
    }
}
