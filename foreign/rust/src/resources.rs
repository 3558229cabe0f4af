//! Sets of resources.
use std::fmt::{Debug, Display, Formatter, Result as Written};
use std::hash::{Hash, Hasher};
use std::net::IpAddr;
use std::ops::{BitAnd, BitAndAssign, BitOr, BitOrAssign, BitXor, BitXorAssign};
use std::ops::{RangeInclusive, Sub, SubAssign};
use std::ptr::null_mut;
use std::str::FromStr;
use std::sync::{Arc, OnceLock};

use crate::buffers::{items, outputs};
use crate::prefix::address_in;
use crate::reason::assert_ok;
use crate::{Asn, Certificate, Der, Encoding, Extensions, Family, Kind, Mode, Prefix};
use crate::{ResourceError, Vrp};
use pigyelund_sys as sys;
use sys::PIGY_OK;

/// Frees a set of the library.
struct Handle(*mut sys::pigy_resources);

// SAFETY: what a handle points to never changes, and any number of threads may use it (THREADS in pigyelund.h).
unsafe impl Send for Handle {}
// SAFETY: as above.
unsafe impl Sync for Handle {}

impl Drop for Handle {
    fn drop(&mut self) {
        // SAFETY: the handle came from the library. No other value has it, and no call with it is running.
        unsafe { sys::pigy_resources_free(self.0) }
    }
}

/// A set of AS numbers, IPv4 addresses and IPv6 addresses.
///
/// The set is read once, by [`Resources::read`] or from text. It never changes. [`Clone`] copies a pointer, and any
/// number of threads may use one set at once.
///
/// `Display` and `FromStr` use lists such as `AS64496, 10.0.0.0/8, 2001:db8::/32`. The text of the empty set is empty.
///
/// # Example
///
/// ```
/// use pigyelund::{Asn, Prefix, Resources};
///
/// let a: Resources = "AS64496, 10.0.0.0/8, 12.0.0.0/8".parse().unwrap();
/// let b: Resources = "10.0.0.0/8".parse().unwrap();
/// assert_eq!((&a - &b).to_string(), "AS64496, 12.0.0.0/8");
/// assert!(a.contains(&b) && a.contains(Asn::new(64496)));
/// assert!(!b.contains("12.0.0.0/8".parse::<Prefix>().unwrap()));
/// ```
///
/// # Operators
///
/// | operator | call |
/// |---|---|
/// | `\|` | [`Resources::union`] |
/// | `&` | [`Resources::intersection`] |
/// | `-` | [`Resources::difference`] |
/// | `^` | [`Resources::symmetric_difference`] |
///
/// The operators, `Default`, `Hash`, `Debug`, `Display`, `collect` and `extend` panic if the library is out of memory.
/// All calls and `parse` return [`Reason::Memory`](crate::Reason::Memory) then, or take no memory.
///
/// Sets have no order. `a <= b` does not compile, since it could mean the subset test. Write `b.contains(&a)`:
///
/// ```compile_fail,E0369
/// let a = pigyelund::Resources::default();
/// let b = pigyelund::Resources::default();
/// assert!(a <= b);
/// ```
#[derive(Clone)]
pub struct Resources(Arc<Handle>);

/// Returns the set without resources. The first call reads it, and a later call takes no memory.
///
/// [`Resources::of`] returns a set only if this call succeeds. So this call cannot fail if there is a set.
fn empty() -> Result<&'static Resources, ResourceError> {
    static EMPTY: OnceLock<Resources> = OnceLock::new();
    if let Some(set) = EMPTY.get() {
        return Ok(set);
    }
    let mut out = null_mut();
    // SAFETY: the set has no octets. The call stores a handle of its own.
    let status = unsafe {
        let none = set_of(&Extensions::default());
        sys::pigy_resources_read(none, sys::PIGY_STRICT, &mut out)
    };
    if status != PIGY_OK {
        return Err(ResourceError::of_status(status));
    }
    let set = Resources(Arc::new(Handle(out)));
    Ok(EMPTY.get_or_init(|| set))
}

/// The number of prefixes or ranges, and the octets of DER and text, for which one call is enough. One range can have
/// up to 254 prefixes.
pub(crate) const ITEMS: usize = 1024;
pub(crate) const OCTETS: usize = 4096;

/// Returns the result of a call whose only error is `PIGY_MEMORY`. Panics with the text of the error.
fn or_panic<T>(found: Result<T, ResourceError>) -> T {
    found.unwrap_or_else(|error| panic!("{error}"))
}

/// Returns the pointer and the length of an extension. Of an absent extension they are not read.
fn parts(extension: Option<&[u8]>) -> (*const u8, usize) {
    let octets = extension.unwrap_or_default();
    (octets.as_ptr(), octets.len())
}

/// Returns an extension for a call that takes octets of length 0 as an absent extension.
///
/// An extension that is present and empty becomes a tag without a length, which has the same fault: it is truncated.
fn not_empty(extension: Option<&[u8]>) -> Option<&[u8]> {
    extension.map(|octets| if octets.is_empty() { &[0x30] } else { octets })
}

/// Returns the extensions as the library takes them. The result borrows them, without a lifetime.
fn set_of(extensions: &Extensions<'_>) -> sys::pigy_set {
    let (as_, as_len) = parts(extensions.asn);
    let (ip, ip_len) = parts(extensions.ip);
    sys::pigy_set {
        as_,
        as_len,
        ip,
        ip_len,
    }
}

/// Concatenates the DER of all certificates. Returns the octets, and the certificates with their ranges.
fn concatenate(certificates: &[Certificate<'_>]) -> (Vec<u8>, Vec<sys::pigy_certificate>) {
    let mut run = Vec::new();
    let mut append = |extension: Option<&[u8]>| {
        let octets = extension.unwrap_or_default();
        let start = run.len();
        run.extend_from_slice(octets);
        (start, octets.len())
    };
    let place = |it: &Certificate<'_>| {
        let (as_start, as_len) = append(it.extensions.asn);
        let (ip_start, ip_len) = append(it.extensions.ip);
        sys::pigy_certificate {
            as_start,
            as_len,
            ip_start,
            ip_len,
            present: it.extensions.present(),
            mode: it.mode as u32,
        }
    };
    let places = certificates.iter().map(place).collect();
    (run, places)
}

impl Resources {
    /// Returns the set of a handle, or the error of a status.
    ///
    /// # Safety
    ///
    /// The library stored the handle with this status. No other value has it.
    unsafe fn of(
        status: u32,
        handle: *mut sys::pigy_resources,
    ) -> Result<Resources, ResourceError> {
        if status != PIGY_OK {
            return Err(ResourceError::of_status(status));
        }
        let set = Resources(Arc::new(Handle(handle)));
        empty().map(|_| set)
    }

    /// Returns the set that a call on certificates verified, or the error with the overclaimed resources.
    ///
    /// # Safety
    ///
    /// The library stored both handles with this status. No other value has them.
    unsafe fn verified(
        status: u32,
        out: *mut sys::pigy_resources,
        excess: *mut sys::pigy_resources,
    ) -> Result<Resources, ResourceError> {
        // SAFETY: as the caller promises. The handle of overclaimed resources is valid if it is not null.
        let excess = (!excess.is_null()).then(|| Resources(Arc::new(Handle(excess))));
        // SAFETY: as the caller promises.
        unsafe { Resources::of(status, out) }.map_err(|error| ResourceError { excess, ..error })
    }

    /// Returns the pointer for the library.
    fn handle(&self) -> *const sys::pigy_resources {
        self.0 .0
    }

    /// Reads a set from the extensions of a trust anchor, or from the DER of [`Resources::der`].
    ///
    /// [`Resources::verify`] reads the extensions of any other certificate.
    ///
    /// # Parameters
    ///
    /// - `extensions`: the extensions as DER. If both are absent, the set is empty.
    /// - `encoding`: the encodings that are accepted.
    ///
    /// # Errors
    ///
    /// The first of [`Reason::BadAs`], [`Reason::BadIp`] and [`Reason::Inherited`], or [`Reason::Memory`].
    ///
    /// # Example
    ///
    /// ```
    /// use pigyelund::{Encoding, Extensions, Resources};
    ///
    /// let ten = [0x30, 0x0c, 0x30, 0x0a, 4, 2, 0, 1, 0x30, 4, 3, 2, 0, 10];
    /// let extensions = Extensions { asn: None, ip: Some(&ten) };
    /// let set = Resources::read(extensions, Encoding::Strict).unwrap();
    /// assert_eq!(set.to_string(), "10.0.0.0/8");
    /// ```
    ///
    /// [`Reason::BadAs`]: crate::Reason::BadAs
    /// [`Reason::BadIp`]: crate::Reason::BadIp
    /// [`Reason::Inherited`]: crate::Reason::Inherited
    /// [`Reason::Memory`]: crate::Reason::Memory
    pub fn read(
        extensions: Extensions<'_>,
        encoding: Encoding,
    ) -> Result<Resources, ResourceError> {
        let extensions = Extensions {
            asn: not_empty(extensions.asn),
            ip: not_empty(extensions.ip),
        };
        let mut out = null_mut();
        // SAFETY: the pointers and lengths are those of slices that are borrowed for the call. The call stores a handle
        // of its own.
        unsafe {
            let status = sys::pigy_resources_read(set_of(&extensions), encoding as u32, &mut out);
            Resources::of(status, out)
        }
    }

    /// Makes a set from a list of AS numbers, of IPv4 addresses or of IPv6 addresses.
    ///
    /// Commas separate the elements: AS numbers and ranges of these (`AS64496`, `64496`, `AS64496-AS64511`); or
    /// addresses, prefixes and ranges (`10.0.0.1`, `10.0.0.0/8`, `10.0.0.1-10.0.0.9`). `pigy_set_from_text` in
    /// `pigyelund.h` describes the text. `FromStr` reads lists with elements of several kinds.
    ///
    /// # Errors
    ///
    /// [`Reason::BadText`](crate::Reason::BadText) with the error of the first invalid element, or
    /// [`Reason::Memory`](crate::Reason::Memory).
    pub fn from_text(text: &str, kind: Kind) -> Result<Resources, ResourceError> {
        let mut out = null_mut();
        // SAFETY: as in `read`.
        unsafe {
            let (start, len) = (text.as_ptr().cast(), text.len());
            let status = sys::pigy_resources_from_text(start, len, kind as u32, &mut out);
            Resources::of(status, out)
        }
    }

    /// Verifies the resources of a certificate against this set, which is that of its issuer (RFC 3779, 2.3 and 3.3).
    ///
    /// Returns the verified resources of the certificate. For AS numbers, IPv4 and IPv6 each, these are:
    ///
    /// - no resources, if the certificate does not have the extension, or the extension does not have the family;
    /// - all that the issuer has, if the certificate has `inherit`;
    /// - otherwise the resources that the certificate lists and the issuer has.
    ///
    /// # Parameters
    ///
    /// - `extensions`: the two resource extensions of the certificate.
    /// - `encoding`: the encodings that are accepted.
    /// - `mode`: the policy for overclaimed resources.
    ///
    /// # Errors
    ///
    /// The first of these, or [`Reason::Memory`](crate::Reason::Memory):
    ///
    /// - [`Reason::Absent`](crate::Reason::Absent): both extensions are absent.
    /// - [`Reason::BadAs`](crate::Reason::BadAs), [`Reason::BadIp`](crate::Reason::BadIp): an extension is invalid.
    /// - [`Reason::Overclaimed`](crate::Reason::Overclaimed), with [`Mode::Refuse`] only. [`ResourceError::excess`]
    ///   has the overclaimed resources of that kind.
    ///
    /// # Example
    ///
    /// ```
    /// use pigyelund::{Encoding, Extensions, Kind, Mode, Reason, Resources};
    ///
    /// let issuer: Resources = "10.0.0.0/8".parse().unwrap();
    /// let claim: Resources = "10.0.0.0/8, 12.0.0.0/8".parse().unwrap();
    /// let der = claim.der().unwrap();
    /// let refused = issuer.verify(der.extensions(), Encoding::Strict, Mode::Refuse).unwrap_err();
    /// assert_eq!(refused.reason(), Reason::Overclaimed(Kind::V4));
    /// assert_eq!(refused.excess().unwrap().to_string(), "12.0.0.0/8");
    /// let left = issuer.verify(der.extensions(), Encoding::Strict, Mode::Trim).unwrap();
    /// assert_eq!(left, issuer);
    /// ```
    pub fn verify(
        &self,
        extensions: Extensions<'_>,
        encoding: Encoding,
        mode: Mode,
    ) -> Result<Resources, ResourceError> {
        let (mut out, mut excess) = (null_mut(), null_mut());
        // SAFETY: as in `read`. The set lives until the call returns.
        unsafe {
            let status = sys::pigy_resources_verify(
                self.handle(),
                set_of(&extensions),
                extensions.present(),
                encoding as u32,
                mode as u32,
                &mut out,
                &mut excess,
            );
            Resources::verified(status, out, excess)
        }
    }

    /// Verifies the resources of certificates on a path. This set is that of the trust anchor.
    ///
    /// Returns the verified resources of the last certificate, or this set if there are no certificates.
    ///
    /// # Parameters
    ///
    /// - `certificates`: the certificates in the order of the path, the one under the anchor first.
    /// - `encoding`: the encodings that are accepted, for all certificates.
    ///
    /// # Errors
    ///
    /// Those of [`Resources::verify`] for the first certificate at fault. [`ResourceError::verified`] is its index.
    pub fn verify_path(
        &self,
        certificates: &[Certificate<'_>],
        encoding: Encoding,
    ) -> Result<Resources, ResourceError> {
        let (run, places) = concatenate(certificates);
        let (mut out, mut excess, mut verified) = (null_mut(), null_mut(), 0);
        // SAFETY: as in `verify`.
        let found = unsafe {
            let status = sys::pigy_resources_verify_path(
                self.handle(),
                run.as_ptr(),
                run.len(),
                places.as_ptr(),
                places.len(),
                encoding as u32,
                &mut out,
                &mut excess,
                &mut verified,
            );
            Resources::verified(status, out, excess)
        };
        found.map_err(|error| ResourceError {
            verified: (error.status != sys::PIGY_MEMORY).then_some(verified),
            ..error
        })
    }

    /// Makes a call on two sets that returns a set.
    ///
    /// # Safety
    ///
    /// The call is one of the library on two handles, which stores a handle of its own.
    unsafe fn with(
        &self,
        other: &Resources,
        call: unsafe extern "C" fn(
            *const sys::pigy_resources,
            *const sys::pigy_resources,
            *mut *mut sys::pigy_resources,
        ) -> u32,
    ) -> Result<Resources, ResourceError> {
        let mut out = null_mut();
        // SAFETY: both sets live until the call returns.
        unsafe {
            let status = call(self.handle(), other.handle(), &mut out);
            Resources::of(status, out)
        }
    }

    /// Returns the union of `self` and `other`.
    ///
    /// # Errors
    ///
    /// [`Reason::Memory`](crate::Reason::Memory) only.
    pub fn union(&self, other: &Resources) -> Result<Resources, ResourceError> {
        // SAFETY: the call is such a call.
        unsafe { self.with(other, sys::pigy_resources_union) }
    }

    /// Returns the intersection of `self` and `other`.
    ///
    /// # Errors
    ///
    /// [`Reason::Memory`](crate::Reason::Memory) only.
    pub fn intersection(&self, other: &Resources) -> Result<Resources, ResourceError> {
        // SAFETY: the call is such a call.
        unsafe { self.with(other, sys::pigy_resources_intersection) }
    }

    /// Returns the difference of `self` and `other`: the resources of `self` that `other` does not have.
    ///
    /// # Errors
    ///
    /// [`Reason::Memory`](crate::Reason::Memory) only.
    pub fn difference(&self, other: &Resources) -> Result<Resources, ResourceError> {
        // SAFETY: the call is such a call.
        unsafe { self.with(other, sys::pigy_resources_difference) }
    }

    /// Returns the symmetric difference of `self` and `other`: the resources that exactly one of them has.
    ///
    /// # Errors
    ///
    /// [`Reason::Memory`](crate::Reason::Memory) only.
    pub fn symmetric_difference(&self, other: &Resources) -> Result<Resources, ResourceError> {
        // SAFETY: the call is such a call.
        unsafe { self.with(other, sys::pigy_resources_symmetric_difference) }
    }

    /// Returns whether this set has all of another one, an AS number, all addresses of a prefix, or one address.
    ///
    /// A VRP, and each VRP of a slice, is looked up by its prefix. The prefixes of a ROA have to be in the resources of
    /// its certificate, and the AS does not (RFC 9582, 5). The call takes no memory.
    #[must_use]
    pub fn contains(&self, other: impl Contained) -> bool {
        other.contained_in(self)
    }

    /// Returns whether the set has no resources. The call takes no memory.
    #[must_use]
    pub fn is_empty(&self) -> bool {
        self == or_panic(empty())
    }

    /// Returns the fewest prefixes that have exactly the addresses of one family, in ascending order.
    ///
    /// # Errors
    ///
    /// [`Reason::Memory`](crate::Reason::Memory) only.
    pub fn prefixes(&self, family: Family) -> Result<Vec<Prefix>, ResourceError> {
        // SAFETY: the call writes the prefixes, if it returns PIGY_OK. The set lives until the call returns.
        let found = unsafe {
            items(ITEMS, |out: *mut sys::pigy_prefix, capacity, len| {
                sys::pigy_resources_prefixes(self.handle(), family as u32, out, capacity, len)
            })
        };
        let found = found.map_err(ResourceError::of_status)?;
        let prefix = |it: &sys::pigy_prefix| Prefix::of(&it.address, it.family, it.len);
        Ok(found.iter().map(prefix).collect())
    }

    /// Returns the ranges of the AS numbers, in ascending order. Ranges neither overlap nor touch.
    ///
    /// # Errors
    ///
    /// [`Reason::Memory`](crate::Reason::Memory) only.
    pub fn as_ranges(&self) -> Result<Vec<RangeInclusive<Asn>>, ResourceError> {
        // SAFETY: as in `prefixes`.
        let found = unsafe {
            items(ITEMS, |out: *mut sys::pigy_as_range, capacity, len| {
                sys::pigy_resources_as_ranges(self.handle(), out, capacity, len)
            })
        };
        let found = found.map_err(ResourceError::of_status)?;
        let range = |it: &sys::pigy_as_range| Asn::new(it.min)..=Asn::new(it.max);
        Ok(found.iter().map(range).collect())
    }

    /// Returns the ranges of the addresses of one family, in ascending order. Ranges neither overlap nor touch.
    ///
    /// # Errors
    ///
    /// [`Reason::Memory`](crate::Reason::Memory) only.
    pub fn ip_ranges(&self, family: Family) -> Result<Vec<RangeInclusive<IpAddr>>, ResourceError> {
        // SAFETY: as in `prefixes`.
        let found = unsafe {
            items(ITEMS, |out: *mut sys::pigy_ip_range, capacity, len| {
                sys::pigy_resources_ip_ranges(self.handle(), family as u32, out, capacity, len)
            })
        };
        let found = found.map_err(ResourceError::of_status)?;
        let range =
            |it: &sys::pigy_ip_range| address_in(&it.min, family)..=address_in(&it.max, family);
        Ok(found.iter().map(range).collect())
    }

    /// Returns the canonical DER of the set. Two sets are equal if and only if their DER is.
    ///
    /// # Errors
    ///
    /// [`Reason::Memory`](crate::Reason::Memory) only.
    pub fn der(&self) -> Result<Der, ResourceError> {
        // SAFETY: the call writes the octets, if it returns PIGY_OK. The set lives until the call returns.
        let found = unsafe {
            outputs([OCTETS; 2], |[asn, ip]| {
                let mut out = sys::pigy_buffers {
                    as_: asn.start,
                    as_capacity: asn.capacity,
                    as_len: 0,
                    ip: ip.start,
                    ip_capacity: ip.capacity,
                    ip_len: 0,
                };
                let status = sys::pigy_resources_der(self.handle(), &mut out);
                (asn.len, ip.len) = (out.as_len, out.ip_len);
                status
            })
        };
        let [asn, ip] = found.map_err(ResourceError::of_status)?;
        Ok(Der { asn, ip })
    }

    /// Returns the text of one kind of resources. [`Resources::from_text`] reads it as the same resources.
    ///
    /// # Errors
    ///
    /// [`Reason::Memory`](crate::Reason::Memory) only.
    pub fn text(&self, kind: Kind) -> Result<String, ResourceError> {
        // SAFETY: as in `prefixes`.
        let found = unsafe {
            items(OCTETS, |out: *mut u8, capacity, len| {
                sys::pigy_resources_text(self.handle(), kind as u32, out.cast(), capacity, len)
            })
        };
        Ok(crate::text_of(found.map_err(ResourceError::of_status)?))
    }

    /// Returns the set of the elements of a list of several kinds.
    fn of_elements<'a>(
        elements: impl Iterator<Item = (Kind, &'a str)>,
    ) -> Result<Resources, ResourceError> {
        let mut lists = [Kind::Asn, Kind::V4, Kind::V6].map(|kind| (kind, String::new()));
        for (kind, element) in elements {
            for (_, list) in lists.iter_mut().filter(|it| it.0 == kind) {
                list.push_str(element);
                list.push(',');
            }
        }
        let mut set = empty()?.clone();
        for (kind, list) in lists.iter().filter(|it| !it.1.is_empty()) {
            set = set.union(&Resources::from_text(list, *kind)?)?;
        }
        Ok(set)
    }
}

/// The set without resources.
impl Default for Resources {
    fn default() -> Resources {
        or_panic(empty()).clone()
    }
}

/// Sets are equal if they have the same AS numbers and the same addresses. The comparison takes no memory.
impl PartialEq for Resources {
    fn eq(&self, other: &Resources) -> bool {
        // SAFETY: both sets live until the call returns.
        answered(|answer| unsafe {
            sys::pigy_resources_equal(self.handle(), other.handle(), answer)
        })
    }
}

impl Eq for Resources {}

impl Hash for Resources {
    fn hash<H: Hasher>(&self, state: &mut H) {
        let Der { asn, ip } = or_panic(self.der());
        (asn, ip).hash(state);
    }
}

/// Writes the kinds that are not empty: AS numbers, IPv4 addresses, IPv6 addresses. The library writes each of them.
impl Display for Resources {
    fn fmt(&self, out: &mut Formatter<'_>) -> Written {
        let texts = [Kind::Asn, Kind::V4, Kind::V6].map(|kind| or_panic(self.text(kind)));
        let texts: Vec<String> = texts.into_iter().filter(|text| !text.is_empty()).collect();
        out.write_str(&texts.join(", "))
    }
}

/// Writes the text, for example `Resources(AS64496, 10.0.0.0/8)`.
impl Debug for Resources {
    fn fmt(&self, out: &mut Formatter<'_>) -> Written {
        out.debug_tuple("Resources")
            .field(&format_args!("{self}"))
            .finish()
    }
}

/// Reads a list whose elements may be of several kinds: `AS64496, 10.0.0.0/8, 2001:db8::/32`.
///
/// An element with a colon is read as IPv6, any other element with a dot as IPv4, and any other one as AS numbers.
///
/// # Errors
///
/// Those of [`Resources::from_text`]. AS numbers are read before addresses, and IPv4 before IPv6.
impl FromStr for Resources {
    type Err = ResourceError;

    fn from_str(text: &str) -> Result<Resources, ResourceError> {
        let kind_of = |element: &str| match (element.contains(':'), element.contains('.')) {
            (true, _) => Kind::V6,
            (_, true) => Kind::V4,
            _ => Kind::Asn,
        };
        Resources::of_elements(text.split(',').map(|it| (kind_of(it), it)))
    }
}

/// The addresses of all prefixes.
impl FromIterator<Prefix> for Resources {
    fn from_iter<I: IntoIterator<Item = Prefix>>(prefixes: I) -> Resources {
        let texts = prefixes
            .into_iter()
            .map(|it| (Kind::from(it.family()), it.to_string()));
        let texts: Vec<(Kind, String)> = texts.collect();
        or_panic(Resources::of_elements(
            texts.iter().map(|it| (it.0, it.1.as_str())),
        ))
    }
}

/// All AS numbers.
impl FromIterator<Asn> for Resources {
    fn from_iter<I: IntoIterator<Item = Asn>>(numbers: I) -> Resources {
        let texts: Vec<String> = numbers.into_iter().map(|it| it.to_string()).collect();
        or_panic(Resources::from_text(&texts.join(","), Kind::Asn))
    }
}

/// The union of all sets. Each resource is copied at most log2(N) + 1 times, if there are N sets.
impl FromIterator<Resources> for Resources {
    fn from_iter<I: IntoIterator<Item = Resources>>(sets: I) -> Resources {
        let mut sets: Vec<Resources> = sets.into_iter().collect();
        while sets.len() > 1 {
            let unions = sets.chunks(2).map(|pair| match pair {
                [one, other] => one | other,
                rest => rest[0].clone(),
            });
            sets = unions.collect();
        }
        sets.pop().unwrap_or_default()
    }
}

/// Adds the resources of all items.
impl<T> Extend<T> for Resources
where
    Resources: FromIterator<T>,
{
    fn extend<I: IntoIterator<Item = T>>(&mut self, items: I) {
        *self |= items.into_iter().collect::<Resources>();
    }
}

/// Implements an operator by a call, for sets and for references to sets.
macro_rules! operators {
    ($($operator:ident $method:ident $assign:ident $in_place:ident $call:ident;)*) => {$(
        impl $operator<&Resources> for &Resources {
            type Output = Resources;
            fn $method(self, other: &Resources) -> Resources {
                or_panic(self.$call(other))
            }
        }

        impl $operator<Resources> for &Resources {
            type Output = Resources;
            fn $method(self, other: Resources) -> Resources {
                or_panic(self.$call(&other))
            }
        }

        impl $operator<&Resources> for Resources {
            type Output = Resources;
            fn $method(self, other: &Resources) -> Resources {
                or_panic(self.$call(other))
            }
        }

        impl $operator for Resources {
            type Output = Resources;
            fn $method(self, other: Resources) -> Resources {
                or_panic(self.$call(&other))
            }
        }

        impl $assign<&Resources> for Resources {
            fn $in_place(&mut self, other: &Resources) {
                *self = or_panic(self.$call(other));
            }
        }

        impl $assign for Resources {
            fn $in_place(&mut self, other: Resources) {
                *self = or_panic(self.$call(&other));
            }
        }
    )*};
}

operators! {
    BitOr bitor BitOrAssign bitor_assign union;
    BitAnd bitand BitAndAssign bitand_assign intersection;
    Sub sub SubAssign sub_assign difference;
    BitXor bitxor BitXorAssign bitxor_assign symmetric_difference;
}

/// Returns the answer of a call that cannot fail for the values of this crate.
fn answered(call: impl FnOnce(&mut u8) -> u32) -> bool {
    let mut answer = 0;
    assert_ok(call(&mut answer));
    answer == 1
}

mod sealed {
    use super::Resources;

    /// What a set is asked for.
    pub trait Contained {
        /// Returns whether a set has all of `self`.
        fn contained_in(self, set: &Resources) -> bool;
    }
}

/// What [`Resources::contains`] takes: a set, an AS number, a prefix, an address, a VRP, or a slice of VRPs.
pub trait Contained: sealed::Contained {}

impl<T: sealed::Contained> Contained for T {}

impl sealed::Contained for &Resources {
    fn contained_in(self, set: &Resources) -> bool {
        // SAFETY: both sets live until the call returns.
        answered(|answer| unsafe {
            sys::pigy_resources_contains(set.handle(), self.handle(), answer)
        })
    }
}

impl sealed::Contained for Asn {
    fn contained_in(self, set: &Resources) -> bool {
        // SAFETY: the set lives until the call returns.
        answered(|answer| unsafe {
            sys::pigy_resources_contains_asn(set.handle(), self.number(), answer)
        })
    }
}

impl sealed::Contained for Prefix {
    fn contained_in(self, set: &Resources) -> bool {
        let (address, family) = self.parts();
        let prefix = sys::pigy_prefix {
            address,
            family,
            len: self.prefix_len(),
        };
        // SAFETY: the set and the prefix live until the call returns.
        answered(|answer| unsafe {
            sys::pigy_resources_contains_prefix(set.handle(), &prefix, answer)
        })
    }
}

impl sealed::Contained for IpAddr {
    fn contained_in(self, set: &Resources) -> bool {
        Prefix::from(self).contained_in(set)
    }
}

impl sealed::Contained for &Vrp {
    fn contained_in(self, set: &Resources) -> bool {
        self.prefix().contained_in(set)
    }
}

impl sealed::Contained for &[Vrp] {
    fn contained_in(self, set: &Resources) -> bool {
        self.iter().all(|vrp| vrp.contained_in(set))
    }
}
