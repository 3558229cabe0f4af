//! Address prefixes, and the error of values and texts.
use std::error::Error;
use std::fmt::{Display, Formatter, Result as Written};
use std::hash::{Hash, Hasher};
use std::net::{AddrParseError, IpAddr, Ipv4Addr, Ipv6Addr};
use std::str::FromStr;

use crate::{status_text, Family, RouteFault, VrpFault};
use pigyelund_sys as sys;

/// An address prefix. No host bits are set.
///
/// `Display` and `FromStr` use the form `10.0.0.0/8`. The order of prefixes is IPv4 before IPv6, then by address, then
/// the shorter prefix first.
///
/// Users of the crate `ipnet` find most calls of `IpNet`. [`Prefix::addr`] and [`Prefix::network`] are equal, since a
/// prefix has no host bits. [`Prefix::containing`] clears them, as `trunc` does there. `hosts`, `aggregate` and
/// `with_netmask` are missing.
///
/// # Example
///
/// ```
/// use pigyelund::Prefix;
/// use std::net::IpAddr;
///
/// let ten: Prefix = "10.0.0.0/8".parse().unwrap();
/// let address: IpAddr = "10.1.2.3".parse().unwrap();
/// assert_eq!(Prefix::containing(address, 8), Ok(ten));
/// assert!(ten.contains(address));
/// let wrong = "10.1.0.0/8".parse::<Prefix>().unwrap_err();
/// assert_eq!(wrong.to_string(), "prefix 10.1.0.0/8 has host bits set: expected 10.0.0.0/8");
/// ```
#[derive(Clone, Copy, Debug, PartialEq, Eq, PartialOrd, Ord, Hash)]
pub struct Prefix {
    address: IpAddr,
    len: u8,
}

/// Returns the number of bits of an address: 32 for IPv4, 128 for IPv6.
fn bits_of(address: IpAddr) -> u8 {
    match address {
        IpAddr::V4(_) => 32,
        IpAddr::V6(_) => 128,
    }
}

/// Returns an address as a number.
fn number(address: IpAddr) -> u128 {
    match address {
        IpAddr::V4(v4) => u32::from(v4).into(),
        IpAddr::V6(v6) => v6.into(),
    }
}

/// Returns the address of a family that is this number. For IPv4 the number has 32 bits.
fn address_of(family: Family, number: u128) -> IpAddr {
    match family {
        Family::V4 => IpAddr::V4(Ipv4Addr::from(number as u32)),
        Family::V6 => IpAddr::V6(Ipv6Addr::from(number)),
    }
}

/// Returns the address in a struct of the library.
pub(crate) fn address_in(octets: &[u8; 16], family: Family) -> IpAddr {
    match family {
        Family::V4 => IpAddr::from([octets[0], octets[1], octets[2], octets[3]]),
        Family::V6 => IpAddr::from(*octets),
    }
}

/// Returns the number with these bits set: the lowest `count`, from 0 to 128.
fn low_bits(count: u8) -> u128 {
    u128::MAX.checked_shr(u32::from(128 - count)).unwrap_or(0)
}

impl Prefix {
    /// Returns the prefix with this first address and length.
    ///
    /// # Errors
    ///
    /// - [`ValueError::PrefixLen`]: `len` is above 32 for IPv4, or above 128 for IPv6.
    /// - [`ValueError::HostBits`]: a bit of `address` after the first `len` is set.
    pub fn new(address: impl Into<IpAddr>, len: u8) -> Result<Prefix, ValueError> {
        let address = address.into();
        let prefix = Prefix::containing(address, len)?;
        if prefix.address != address {
            return Err(ValueError::HostBits { address, len });
        }
        Ok(prefix)
    }

    /// Returns the prefix of this length that has an address: all bits after the first `len` are cleared.
    ///
    /// # Errors
    ///
    /// [`ValueError::PrefixLen`]: `len` is above 32 for IPv4, or above 128 for IPv6.
    pub fn containing(address: impl Into<IpAddr>, len: u8) -> Result<Prefix, ValueError> {
        let address = address.into();
        let Some(host) = bits_of(address).checked_sub(len) else {
            return Err(ValueError::PrefixLen { address, len });
        };
        let first = number(address) & !low_bits(host);
        let address = address_of(Family::from(address), first);
        Ok(Prefix { address, len })
    }

    /// Returns the prefix of a struct of the library, which has no host bits.
    pub(crate) fn of(address: &[u8; 16], family: u8, len: u8) -> Prefix {
        let is_v4 = u32::from(family) == sys::PIGY_IPV4;
        let family = if is_v4 { Family::V4 } else { Family::V6 };
        let address = address_in(address, family);
        Prefix { address, len }
    }

    /// Returns the octets of the address, with 12 octets that are 0 after an IPv4 address, and the number of the
    /// family.
    pub(crate) fn parts(&self) -> ([u8; 16], u8) {
        let mut octets = [0; 16];
        match self.address {
            IpAddr::V4(v4) => octets[..4].copy_from_slice(&v4.octets()),
            IpAddr::V6(v6) => octets = v6.octets(),
        }
        (octets, self.family() as u8)
    }

    /// Returns the first address.
    pub fn addr(&self) -> IpAddr {
        self.address
    }

    /// Returns the length in bits: 0 to 32 for IPv4, 0 to 128 for IPv6.
    pub fn prefix_len(&self) -> u8 {
        self.len
    }

    /// Returns the greatest length of the family: 32 for IPv4, 128 for IPv6.
    pub fn max_prefix_len(&self) -> u8 {
        bits_of(self.address)
    }

    /// Returns the address family.
    pub fn family(&self) -> Family {
        Family::from(self.address)
    }

    /// Returns the first address, as [`Prefix::addr`].
    pub fn network(&self) -> IpAddr {
        self.address
    }

    /// Returns the last address.
    pub fn broadcast(&self) -> IpAddr {
        address_of(self.family(), self.last())
    }

    /// Returns the address whose first `prefix_len` bits are set.
    pub fn netmask(&self) -> IpAddr {
        let all = low_bits(self.max_prefix_len());
        address_of(self.family(), all & !self.host_bits())
    }

    /// Returns the address whose bits after the first `prefix_len` are set.
    pub fn hostmask(&self) -> IpAddr {
        address_of(self.family(), self.host_bits())
    }

    /// Returns the number whose bits after the first `prefix_len` are set.
    fn host_bits(&self) -> u128 {
        low_bits(self.max_prefix_len() - self.len)
    }

    /// Returns the last address as a number.
    fn last(&self) -> u128 {
        number(self.address) | self.host_bits()
    }

    /// Returns whether this prefix has an address, or each address of another prefix.
    #[must_use]
    pub fn contains(&self, other: impl Into<Prefix>) -> bool {
        let other = other.into();
        self.len <= other.len && Prefix::containing(other.address, self.len) == Ok(*self)
    }

    /// Returns the prefix that is one bit shorter and contains this one. Returns `None` for length 0.
    pub fn supernet(&self) -> Option<Prefix> {
        Prefix::containing(self.address, self.len.checked_sub(1)?).ok()
    }

    /// Returns whether this prefix and another one are the two halves of their [`Prefix::supernet`].
    #[must_use]
    pub fn is_sibling(&self, other: &Prefix) -> bool {
        self != other
            && self.len > 0
            && self.len == other.len
            && self.supernet() == other.supernet()
    }

    /// Returns the prefixes of a length that this prefix contains, in ascending order.
    ///
    /// # Errors
    ///
    /// [`ValueError::SubnetLen`]: `len` is below the length of this prefix, or above 32 for IPv4, or above 128 for
    /// IPv6.
    ///
    /// # Example
    ///
    /// ```
    /// let ten: pigyelund::Prefix = "10.0.0.0/8".parse().unwrap();
    /// let halves: Vec<_> = ten.subnets(9).unwrap().map(|it| it.to_string()).collect();
    /// assert_eq!(halves, ["10.0.0.0/9", "10.128.0.0/9"]);
    /// ```
    pub fn subnets(&self, len: u8) -> Result<Subnets, ValueError> {
        if !(self.len..=self.max_prefix_len()).contains(&len) {
            return Err(ValueError::SubnetLen { prefix: *self, len });
        }
        let address = self.address;
        Ok(Subnets {
            next: Some(Prefix { address, len }),
            last: self.last(),
        })
    }
}

/// The prefixes of a length in a prefix: the iterator of [`Prefix::subnets`].
#[derive(Clone, Debug)]
pub struct Subnets {
    next: Option<Prefix>,
    last: u128,
}

impl Iterator for Subnets {
    type Item = Prefix;

    fn next(&mut self) -> Option<Prefix> {
        let found = self.next?;
        self.next = (found.last() < self.last).then(|| Prefix {
            address: address_of(found.family(), found.last() + 1),
            len: found.len,
        });
        Some(found)
    }
}

/// Checks the maximum length of a VRP with this prefix.
pub(crate) fn check_max_len(prefix: Prefix, max_len: u8) -> Result<(), ValueError> {
    if (prefix.len..=prefix.max_prefix_len()).contains(&max_len) {
        Ok(())
    } else {
        Err(ValueError::MaxLen { prefix, max_len })
    }
}

impl Display for Prefix {
    fn fmt(&self, out: &mut Formatter<'_>) -> Written {
        write!(out, "{}/{}", self.address, self.len)
    }
}

/// The prefix with this address alone: length 32 for IPv4, 128 for IPv6.
impl From<IpAddr> for Prefix {
    fn from(address: IpAddr) -> Prefix {
        let len = bits_of(address);
        Prefix { address, len }
    }
}

/// The prefix with this address alone, of length 32.
impl From<Ipv4Addr> for Prefix {
    fn from(address: Ipv4Addr) -> Prefix {
        Prefix::from(IpAddr::V4(address))
    }
}

/// The prefix with this address alone, of length 128.
impl From<Ipv6Addr> for Prefix {
    fn from(address: Ipv6Addr) -> Prefix {
        Prefix::from(IpAddr::V6(address))
    }
}

/// The first address and the length.
impl From<Prefix> for (IpAddr, u8) {
    fn from(prefix: Prefix) -> (IpAddr, u8) {
        (prefix.address, prefix.len)
    }
}

/// The same as [`Prefix::new`].
impl<T: Into<IpAddr>> TryFrom<(T, u8)> for Prefix {
    type Error = ValueError;

    fn try_from((address, len): (T, u8)) -> Result<Prefix, ValueError> {
        Prefix::new(address, len)
    }
}

/// Reads a decimal number. Other characters than digits, also a sign, are an error.
pub(crate) fn number_of<T: FromStr>(text: &str) -> Option<T> {
    let is_decimal = !text.is_empty() && text.bytes().all(|octet| octet.is_ascii_digit());
    is_decimal.then(|| text.parse().ok()).flatten()
}

/// Reads `ADDRESS/LENGTH`, for example `10.0.0.0/8`.
///
/// # Errors
///
/// - [`ValueError::Form`]: the text has no `/`.
/// - [`ValueError::Address`]: the part before the `/` is no address.
/// - [`ValueError::PrefixLenText`]: the part after the `/` is no decimal number, or is above 255.
/// - The errors of [`Prefix::new`].
impl FromStr for Prefix {
    type Err = ValueError;

    fn from_str(text: &str) -> Result<Prefix, ValueError> {
        let Some((address, len)) = text.split_once('/') else {
            return Err(ValueError::Form {
                text: text.into(),
                expected: "ADDRESS/LENGTH, for example 10.0.0.0/8",
            });
        };
        let address: IpAddr = address.parse().map_err(|source| ValueError::Address {
            text: address.into(),
            source,
        })?;
        let Some(len) = number_of(len) else {
            return Err(ValueError::PrefixLenText {
                text: len.into(),
                max: bits_of(address),
            });
        };
        Prefix::new(address, len)
    }
}

/// The error of values and texts that are not an AS number, a prefix, a VRP or a route.
///
/// `Display` writes the wrong value or the wrong part of the text, and what is expected.
#[non_exhaustive]
#[derive(Clone, Debug, PartialEq, Eq)]
pub enum ValueError {
    /// The prefix length is above 32 for IPv4, or above 128 for IPv6.
    PrefixLen {
        /// The address of the prefix.
        address: IpAddr,
        /// The prefix length in bits.
        len: u8,
    },
    /// A bit of the address after the prefix length (a host bit) is set.
    HostBits {
        /// The address of the prefix.
        address: IpAddr,
        /// The prefix length in bits.
        len: u8,
    },
    /// The maximum length is below the prefix length, or above 32 for IPv4, or above 128 for IPv6.
    MaxLen {
        /// The prefix.
        prefix: Prefix,
        /// The maximum length in bits.
        max_len: u8,
    },
    /// The length of subnets is below the prefix length, or above 32 for IPv4, or above 128 for IPv6.
    SubnetLen {
        /// The prefix.
        prefix: Prefix,
        /// The length of the subnets in bits.
        len: u8,
    },
    /// The text does not have the parts of a prefix.
    Form {
        /// The text.
        text: String,
        /// The expected parts, with an example.
        expected: &'static str,
    },
    /// The address is neither an IPv4 address nor an IPv6 address.
    Address {
        /// The part of the text that should be an address.
        text: String,
        /// The error of the standard library.
        source: AddrParseError,
    },
    /// The prefix length is not a decimal number from 0 to 255. A number up to 255 that is too great for the family is
    /// [`ValueError::PrefixLen`].
    PrefixLenText {
        /// The part of the text that should be a prefix length.
        text: String,
        /// The greatest prefix length of the family, in bits.
        max: u8,
    },
    /// The text is not that of a VRP.
    VrpText {
        /// The text.
        text: String,
        /// Its first error.
        fault: VrpFault,
    },
    /// The text is not that of a route.
    RouteText {
        /// The text.
        text: String,
        /// Its first error.
        fault: RouteFault,
    },
    /// The AS number is not a decimal number from 0 to 4294967295, with or without `AS` before it.
    Asn {
        /// The part of the text that should be an AS number.
        text: String,
    },
}

/// Writes how a length is outside of the range that begins with the length of a prefix.
fn write_len(out: &mut Formatter<'_>, what: &str, prefix: &Prefix, found: u8) -> Written {
    let (len, bits) = (prefix.len, prefix.max_prefix_len());
    write!(out, "{what} {found} of {prefix} is ")?;
    if found < len {
        write!(out, "below prefix length {len}")?;
    } else {
        write!(out, "above {bits}")?;
    }
    write!(out, ": expected {len} to {bits}")
}

impl Display for ValueError {
    fn fmt(&self, out: &mut Formatter<'_>) -> Written {
        match self {
            ValueError::PrefixLen { address, len } => {
                let bits = bits_of(*address);
                write!(
                    out,
                    "prefix length {len} of {address}/{len} is above {bits}: expected 0 to {bits}"
                )
            }
            ValueError::HostBits { address, len } => {
                write!(out, "prefix {address}/{len} has host bits set")?;
                match Prefix::containing(*address, *len) {
                    Ok(prefix) => write!(out, ": expected {prefix}"),
                    Err(_) => Ok(()),
                }
            }
            ValueError::MaxLen { prefix, max_len } => {
                write_len(out, "max length", prefix, *max_len)
            }
            ValueError::SubnetLen { prefix, len } => write_len(out, "subnet length", prefix, *len),
            ValueError::Form { text, expected } => write!(out, "{text:?}: expected {expected}"),
            ValueError::Address { text, .. } => {
                write!(out, "address {text:?}: expected an IPv4 or IPv6 address")
            }
            ValueError::PrefixLenText { text, max } => {
                write!(out, "prefix length {text:?}: expected 0 to {max}")
            }
            ValueError::VrpText { text, fault } => {
                let what = status_text(sys::PIGY_BAD_LINE + *fault as u32);
                let expected = "PREFIX-MAXLEN ASN, for example 10.0.0.0/8-16 AS64496";
                write!(out, "{what}: {text:?}: expected {expected}")
            }
            ValueError::RouteText { text, fault } => {
                let what = status_text(sys::PIGY_BAD_ROUTE + *fault as u32);
                let expected = "PREFIX ASN, for example 10.0.0.0/8 AS64496";
                write!(out, "{what}: {text:?}: expected {expected}")
            }
            ValueError::Asn { text } => {
                write!(out, "AS number {text:?}: expected AS0 to AS{}", u32::MAX)
            }
        }
    }
}

/// Hashes the text. Equal errors have equal texts.
impl Hash for ValueError {
    fn hash<H: Hasher>(&self, state: &mut H) {
        self.to_string().hash(state);
    }
}

impl Error for ValueError {
    fn source(&self) -> Option<&(dyn Error + 'static)> {
        match self {
            ValueError::Address { source, .. } => Some(source),
            _ => None,
        }
    }
}
