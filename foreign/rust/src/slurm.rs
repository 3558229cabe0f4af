//! SLURM files (RFC 8416): the local exceptions of a network, which are applied to VRPs.
use std::error::Error;
use std::fmt::{Debug, Display, Formatter, Result as Written};

use crate::buffers::items;
use crate::{status_text, Reason, Vrp};
use pigyelund_sys as sys;

/// A list of a SLURM file (RFC 8416, 3.3 and 3.4).
#[derive(Clone, Copy, Debug, PartialEq, Eq, Hash)]
pub enum SlurmList {
    /// The filters of VRPs, `prefixFilters`.
    PrefixFilters,
    /// The filters of router keys, `bgpsecFilters`.
    BgpsecFilters,
    /// The added VRPs, `prefixAssertions`.
    PrefixAssertions,
    /// The added router keys, `bgpsecAssertions`.
    BgpsecAssertions,
}

/// A member of an object of a SLURM file. The variant [`SlurmMember::Ski`] has the name `SKI`, and any other has the
/// name of its variant, with a small first letter.
#[derive(Clone, Copy, Debug, PartialEq, Eq, Hash)]
pub enum SlurmMember {
    /// The version of the format: the number 1.
    SlurmVersion,
    /// The object with both lists of filters.
    ValidationOutputFilters,
    /// The object with both lists of assertions.
    LocallyAddedAssertions,
    /// The filters of VRPs: an array.
    PrefixFilters,
    /// The filters of router keys: an array.
    BgpsecFilters,
    /// The added VRPs: an array.
    PrefixAssertions,
    /// The added router keys: an array.
    BgpsecAssertions,
    /// A prefix: a string.
    Prefix,
    /// An AS number: a number.
    Asn,
    /// A maximum length: a number.
    MaxPrefixLength,
    /// The identifier of a router key: a string.
    Ski,
    /// A router key: a string.
    RouterPublicKey,
    /// An explanation: a string.
    Comment,
}

/// The first error of a SLURM file, or of an item of a list.
#[non_exhaustive]
#[derive(Clone, Copy, Debug, PartialEq, Eq, Hash)]
pub enum SlurmFault {
    /// The file is not a JSON object in UTF-8, or nests deeper than 128. Or the item is not an object.
    NotObject,
    /// The object of the file, or the item, has a member that RFC 8416 does not define for it.
    UnknownMember,
    /// The object that is the value of this member has a member that RFC 8416 does not define for it.
    UnknownMemberIn(SlurmMember),
    /// The version is not 1.
    Version,
    /// The prefix is invalid.
    Prefix,
    /// The AS number is invalid.
    Asn,
    /// The maximum length is not a number from 0 to 255.
    MaxLenFormat,
    /// The maximum length is below the prefix length, or above 32 (IPv4) or 128 (IPv6).
    MaxLen,
    /// A filter has neither of the two members of which it needs one: `prefix` and `asn`, or `asn` and `SKI`.
    NoCriterion,
    /// This member is missing.
    Missing(SlurmMember),
    /// This member is repeated.
    Repeated(SlurmMember),
    /// The value of this member is of a wrong kind.
    Kind(SlurmMember),
}

impl SlurmList {
    const ALL: [SlurmList; 4] = [
        SlurmList::PrefixFilters,
        SlurmList::BgpsecFilters,
        SlurmList::PrefixAssertions,
        SlurmList::BgpsecAssertions,
    ];

    /// Returns whether an item of the list may have this fault.
    fn has(self, fault: SlurmFault) -> bool {
        use SlurmMember::{Asn, Comment, MaxPrefixLength, Prefix, RouterPublicKey, Ski};
        let (required, optional): (&[SlurmMember], &[SlurmMember]) = match self {
            SlurmList::PrefixFilters => (&[], &[Prefix, Asn, Comment]),
            SlurmList::BgpsecFilters => (&[], &[Asn, Ski, Comment]),
            SlurmList::PrefixAssertions => (&[Prefix, Asn], &[MaxPrefixLength, Comment]),
            SlurmList::BgpsecAssertions => (&[Asn, Ski, RouterPublicKey], &[Comment]),
        };
        let has = |member| required.contains(&member) || optional.contains(&member);
        match fault {
            SlurmFault::Missing(member) => required.contains(&member),
            SlurmFault::Repeated(member) | SlurmFault::Kind(member) => has(member),
            SlurmFault::Prefix => has(Prefix),
            SlurmFault::MaxLenFormat | SlurmFault::MaxLen => has(MaxPrefixLength),
            SlurmFault::NoCriterion => required.is_empty(),
            _ => true,
        }
    }
}

impl SlurmMember {
    const OF_FILE: [SlurmMember; 7] = [
        SlurmMember::SlurmVersion,
        SlurmMember::ValidationOutputFilters,
        SlurmMember::LocallyAddedAssertions,
        SlurmMember::PrefixFilters,
        SlurmMember::BgpsecFilters,
        SlurmMember::PrefixAssertions,
        SlurmMember::BgpsecAssertions,
    ];
    const OF_ITEMS: [SlurmMember; 6] = [
        SlurmMember::Prefix,
        SlurmMember::Asn,
        SlurmMember::MaxPrefixLength,
        SlurmMember::Ski,
        SlurmMember::RouterPublicKey,
        SlurmMember::Comment,
    ];
}

impl SlurmFault {
    /// Returns the fault of a member, whose number is three times the index of the member, and 0, 1 or 2.
    fn of_member(members: &[SlurmMember], number: u32) -> Option<SlurmFault> {
        let member = *members.get(number as usize / 3)?;
        Some(match number % 3 {
            0 => SlurmFault::Missing(member),
            1 => SlurmFault::Repeated(member),
            _ => SlurmFault::Kind(member),
        })
    }

    /// Returns the fault of a file with this number of `pigyelund.h`, if there is one.
    pub(crate) fn of_file(number: u32) -> Option<SlurmFault> {
        let [_, filters, assertions, ..] = SlurmMember::OF_FILE;
        match number {
            0 => None,
            1 => Some(SlurmFault::NotObject),
            2 => Some(SlurmFault::UnknownMember),
            3 => Some(SlurmFault::Version),
            4 => Some(SlurmFault::UnknownMemberIn(filters)),
            5 => Some(SlurmFault::UnknownMemberIn(assertions)),
            _ => SlurmFault::of_member(&SlurmMember::OF_FILE, number - 6),
        }
    }

    /// Returns the list and the fault of an item with this number of `pigyelund.h`, if there are such ones.
    pub(crate) fn of_item(number: u32) -> Option<(SlurmList, SlurmFault)> {
        let list = *SlurmList::ALL.get(number as usize / 64)?;
        let fault = match number % 64 {
            0 => return None,
            1 => SlurmFault::NotObject,
            2 => SlurmFault::UnknownMember,
            3 => SlurmFault::Prefix,
            4 => SlurmFault::Asn,
            5 => SlurmFault::MaxLenFormat,
            6 => SlurmFault::MaxLen,
            7 => SlurmFault::NoCriterion,
            number => SlurmFault::of_member(&SlurmMember::OF_ITEMS, number - 8)?,
        };
        list.has(fault).then_some((list, fault))
    }
}

/// The error of [`apply_slurm`]. `Display` writes the number of the item or member at fault, and the text of the status.
#[derive(Clone, Copy, PartialEq, Eq, Hash)]
pub struct ApplySlurmError {
    status: u32,
    number: usize,
}

impl ApplySlurmError {
    /// Returns the reason: [`Reason::BadSlurm`], [`Reason::BadSlurmItem`] or [`Reason::Memory`].
    pub fn reason(&self) -> Reason {
        Reason::from_status(self.status)
    }

    /// Returns the status of `pigyelund.h`.
    pub fn status(&self) -> u32 {
        self.status
    }

    /// Returns the list that has the invalid item. Returns `None` if the reason is not [`Reason::BadSlurmItem`].
    pub fn list(&self) -> Option<SlurmList> {
        match self.reason() {
            Reason::BadSlurmItem(list, _) => Some(list),
            _ => None,
        }
    }

    /// Returns the number, from 1, of the first invalid item of its list, or of an unknown member in its object
    /// ([`SlurmFault::UnknownMember`] of the file, [`SlurmFault::UnknownMemberIn`]). Returns `None` for any other fault.
    pub fn item(&self) -> Option<usize> {
        (self.number > 0).then_some(self.number)
    }
}

impl Display for ApplySlurmError {
    fn fmt(&self, out: &mut Formatter<'_>) -> Written {
        match (self.item(), self.list()) {
            (Some(number), Some(_)) => write!(out, "at item {number}: ")?,
            (Some(number), None) => write!(out, "at member {number}: ")?,
            _ => {}
        }
        out.write_str(status_text(self.status))
    }
}

/// Writes the reason, and the number of the item or member if the error has one.
impl Debug for ApplySlurmError {
    fn fmt(&self, out: &mut Formatter<'_>) -> Written {
        let mut out = out.debug_struct("ApplySlurmError");
        out.field("reason", &self.reason());
        if let Some(item) = self.item() {
            out.field("item", &item);
        }
        out.finish()
    }
}

impl Error for ApplySlurmError {}

/// Applies a SLURM file (RFC 8416), the local exceptions of a network, to VRPs.
///
/// Returns the VRPs that no filter matches, in their order, and then those of `prefixAssertions`, in the order of the
/// file. A VRP that is repeated is repeated in the result, which may be empty.
///
/// Apply one file to the VRPs of all caches together. If you have several files, join them into one only if they do not
/// overlap (RFC 8416, 4.2). Router keys have no effect on VRPs, and are checked.
///
/// # Errors
///
/// - [`Reason::BadSlurm`]: the file is invalid, except for its items.
/// - [`Reason::BadSlurmItem`]: an item of a list is invalid. [`ApplySlurmError::item`] is the number of the first one.
/// - [`Reason::Memory`].
///
/// # Example
///
/// ```
/// use pigyelund::{apply_slurm, Vrp};
///
/// let file = br#"{ "slurmVersion": 1,
///     "validationOutputFilters": { "prefixFilters": [{"asn": 64496}], "bgpsecFilters": [] },
///     "locallyAddedAssertions": {
///         "prefixAssertions": [{"asn": 64497, "prefix": "10.0.0.0/8"}], "bgpsecAssertions": [] } }"#;
/// let vrps: [Vrp; 2] = ["192.0.2.0/24 AS64496", "192.0.2.0/24 AS64511"].map(|it| it.parse().unwrap());
/// let added: Vrp = "10.0.0.0/8 AS64497".parse().unwrap();
/// assert_eq!(apply_slurm(file, &vrps), Ok(vec![vrps[1], added]));
/// let refused = apply_slurm(b"{}", &vrps).unwrap_err();
/// assert_eq!(refused.to_string(), "SLURM file: slurmVersion is missing");
/// ```
pub fn apply_slurm(file: &[u8], vrps: &[Vrp]) -> Result<Vec<Vrp>, ApplySlurmError> {
    let (mut index, mut number) = (0, 0);
    // An assertion has at least 25 octets.
    let capacity = vrps.len() + file.len() / 25;
    // SAFETY: the call writes the VRPs, if it returns PIGY_OK. The pointers and lengths are those of the slices.
    let found = unsafe {
        items(capacity, |out: *mut Vrp, capacity, len| {
            sys::pigy_slurm_apply(
                file.as_ptr(),
                file.len(),
                vrps.as_ptr().cast(),
                vrps.len(),
                out.cast(),
                capacity,
                len,
                &mut index,
                &mut number,
            )
        })
    };
    found.map_err(|status| ApplySlurmError { status, number })
}
