//! AS numbers.
use std::fmt::{Display, Formatter, Result as Written};
use std::str::FromStr;

use crate::prefix::number_of;
use crate::ValueError;

/// An AS number.
///
/// `Display` writes `AS64496`. `FromStr` also reads `64496` and `as64496`.
///
/// # Example
///
/// ```
/// use pigyelund::Asn;
///
/// let asn: Asn = "AS64496".parse().unwrap();
/// assert_eq!(asn, Asn::from(64496));
/// assert_eq!(u32::from(asn), 64496);
/// ```
#[derive(Clone, Copy, Debug, PartialEq, Eq, PartialOrd, Ord, Hash)]
pub struct Asn(u32);

impl Asn {
    /// The least AS number, AS 0. No VRP matches it.
    pub const MIN: Asn = Asn(0);
    /// The greatest AS number.
    pub const MAX: Asn = Asn(u32::MAX);

    /// Returns the AS number of a number.
    pub const fn new(number: u32) -> Asn {
        Asn(number)
    }

    /// Returns the number.
    pub const fn number(self) -> u32 {
        self.0
    }
}

impl From<u32> for Asn {
    fn from(number: u32) -> Asn {
        Asn(number)
    }
}

impl From<Asn> for u32 {
    fn from(asn: Asn) -> u32 {
        asn.0
    }
}

impl Display for Asn {
    fn fmt(&self, out: &mut Formatter<'_>) -> Written {
        write!(out, "AS{}", self.0)
    }
}

/// Reads `AS64496`. The letters `AS` may be absent, and may be in lower case.
///
/// # Errors
///
/// [`ValueError::Asn`]: the number is no decimal number from 0 to 4294967295.
impl FromStr for Asn {
    type Err = ValueError;

    fn from_str(text: &str) -> Result<Asn, ValueError> {
        let is_named = text
            .get(..2)
            .is_some_and(|start| start.eq_ignore_ascii_case("AS"));
        match number_of(if is_named { &text[2..] } else { text }) {
            Some(number) => Ok(Asn(number)),
            None => Err(ValueError::Asn { text: text.into() }),
        }
    }
}
