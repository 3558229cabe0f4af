//! A table of VRPs that is built once and queried many times.
use std::fmt::{Debug, Display, Formatter, Result as Written};
use std::ptr::null_mut;

use crate::buffers::{items, outputs};
use crate::reason::assert_ok;
use crate::{InvalidReason, Route, TableError, Validity, Vrp};
use pigyelund_sys as sys;
use sys::PIGY_OK;

/// A table of VRPs (validated ROA payloads) for route origin validation (RFC 6811, 2).
///
/// A table can be queried any number of times. It never changes: [`Table::with_changes`] makes the next table from
/// announced and withdrawn VRPs (RFC 8210, 5.3).
///
/// A table is `Send` and `Sync`: any number of threads may query it at once.
///
/// # Example
///
/// ```
/// use pigyelund::{InvalidReason, Route, Table, Validity, Vrp};
///
/// fn main() -> Result<(), pigyelund::TableError> {
///     let table = Table::new(&["10.0.0.0/8-16 AS64496".parse().unwrap()])?;
///     let route: Route = "10.0.0.0/24 AS64497".parse().unwrap();
///     assert_eq!(table.validate(&route), Validity::Invalid(InvalidReason::As));
///     // Why: the VRP has another AS, and the route is longer than its maximum length.
///     for found in table.covering(&route)? {
///         assert!(found.is_other_as() && found.is_too_long());
///     }
///     // The next table has a second VRP, which matches.
///     let fresh: Vrp = "10.0.0.0/8-24 AS64497".parse().unwrap();
///     let next = table.with_changes(&[fresh], &[])?;
///     assert_eq!(next.validate(&route), Validity::Valid);
///     Ok(())
/// }
/// ```
///
/// # Ownership
///
/// A table has one owner. Dropping the table frees its memory. It is not `Clone`:
///
/// ```compile_fail,E0277
/// fn copy<T: Clone>(_: T) {}
/// copy(pigyelund::Table::new(&[]).unwrap());
/// ```
pub struct Table(*mut sys::pigy_table);

// SAFETY: what a handle points to never changes, and any number of threads may use it (THREADS in pigyelund.h).
unsafe impl Send for Table {}
// SAFETY: as above.
unsafe impl Sync for Table {}

impl Drop for Table {
    fn drop(&mut self) {
        // SAFETY: the handle came from the library. No other value has it, and no call with it is running.
        unsafe { sys::pigy_table_free(self.0) }
    }
}

/// The number of covering VRPs for which one call of the library is enough. A route with more needs a second call.
const COVERING: usize = 16;

/// Writes the number of VRPs, for example `Table { len: 3 }`.
impl Debug for Table {
    fn fmt(&self, out: &mut Formatter<'_>) -> Written {
        out.debug_struct("Table").field("len", &self.len()).finish()
    }
}

/// Returns the pointer of VRPs for the library.
fn vrps_of(vrps: &[Vrp]) -> *const sys::pigy_vrp {
    vrps.as_ptr().cast()
}

/// Returns the pointer of routes for the library.
fn routes_of(routes: &[Route]) -> *const sys::pigy_route {
    routes.as_ptr().cast()
}

/// Returns the error of a status that has no position.
fn without_position(status: u32) -> TableError {
    TableError { status, at: 0 }
}

/// Reads the VRPs of a validator's file, as rpki-client, FORT and Routinator write it.
///
/// The VRPs are in the order of the file. A VRP that the file repeats is repeated in the result.
///
/// The first character that is not white space decides how the file is read. If it is `{`, the file is JSON, with the
/// VRPs in the array `roas`. If it is `[`, the file is invalid. Any other file is CSV. `pigy_vrps_read` in
/// `pigyelund.h` says what is valid. No line and no item is skipped: one that is invalid makes the whole file invalid.
/// The result has expired VRPs too. [`read_unexpired_vrps`] leaves them out.
///
/// # Errors
///
/// - [`Reason::BadFile`]: the file is invalid as a whole.
/// - [`Reason::BadLine`], [`Reason::BadItem`]: a line of CSV or an item of JSON is invalid. [`TableError::line`] is the
///   number of the first one, from 1.
/// - [`Reason::Memory`].
///
/// # Example
///
/// ```
/// let vrps = pigyelund::read_vrps(b"ASN,IP Prefix,Max Length\nAS64496,10.0.0.0/8,16\n").unwrap();
/// assert_eq!(vrps[0].to_string(), "10.0.0.0/8-16 AS64496");
/// let refused = pigyelund::read_vrps(b"AS64496,10.0.0.1/8,16\n").unwrap_err();
/// assert_eq!(refused.line(), Some(1));
/// ```
///
/// [`Reason::BadFile`]: crate::Reason::BadFile
/// [`Reason::BadLine`]: crate::Reason::BadLine
/// [`Reason::BadItem`]: crate::Reason::BadItem
/// [`Reason::Memory`]: crate::Reason::Memory
pub fn read_vrps(file: &[u8]) -> Result<Vec<Vrp>, TableError> {
    let mut at = 0;
    // Nearly all lines have at least 24 octets, and all items have more.
    // SAFETY: the call writes the VRPs, if it returns PIGY_OK. The pointer and the length are those of the slice.
    let found = unsafe {
        items(file.len() / 24, |out: *mut Vrp, capacity, len| {
            sys::pigy_vrps_read(
                file.as_ptr(),
                file.len(),
                out.cast(),
                capacity,
                len,
                &mut at,
            )
        })
    };
    found.map_err(|status| TableError { status, at })
}

/// Runs a call that writes the validity and the reason of each route. Returns the validities.
fn validities_of(count: usize, call: impl FnOnce(&mut [u8], &mut [u8]) -> u32) -> Vec<Validity> {
    let [mut octets, mut reasons] = [vec![0; count], vec![0; count]];
    assert_ok(call(&mut octets, &mut reasons));
    let each = octets.into_iter().zip(reasons);
    each.map(|(octet, reason)| Validity::of(octet, reason))
        .collect()
}

/// Validates routes by several tables at once (RFC 6811, 2), for example by a table for each cache (RFC 8210, 10).
/// Returns the validity of each route, in the order of `routes`.
///
/// The validity of a route is that by the VRPs of all tables together. So a route is valid if it is valid by at least
/// one table. Otherwise it is invalid if it is invalid by at least one. Otherwise it is not found.
///
/// # Example
///
/// ```
/// use pigyelund::{validate_routes, Route, Table, Validity};
///
/// let one = Table::new(&["10.0.0.0/8 AS64496".parse().unwrap()]).unwrap();
/// let other = Table::new(&["10.0.0.0/8 AS64497".parse().unwrap()]).unwrap();
/// let route: Route = "10.0.0.0/8 AS64497".parse().unwrap();
/// assert_ne!(one.validate(&route), Validity::Valid);
/// assert_eq!(validate_routes([&one, &other], &[route]), [Validity::Valid]);
/// ```
#[must_use]
pub fn validate_routes<'a>(
    tables: impl IntoIterator<Item = &'a Table>,
    routes: &[Route],
) -> Vec<Validity> {
    let tables: Vec<&Table> = tables.into_iter().collect();
    let handles: Vec<*const sys::pigy_table> = tables.iter().map(|it| it.0.cast_const()).collect();
    let (mut len, mut at) = (0, 0);
    // SAFETY: the pointers and lengths are those of the slices and of the vector. The tables live until the call
    // returns.
    validities_of(routes.len(), |octets, reasons| unsafe {
        sys::pigy_tables_validate_routes(
            handles.as_ptr(),
            handles.len(),
            routes_of(routes),
            routes.len(),
            octets.as_mut_ptr(),
            octets.len(),
            reasons.as_mut_ptr(),
            reasons.len(),
            &mut len,
            &mut at,
        )
    })
}

/// The VRPs of a file that have not expired, and how many have.
#[derive(Clone, Debug, PartialEq, Eq, Hash)]
pub struct UnexpiredVrps {
    /// The VRPs that have not expired, in the order of the file. The list may be empty.
    pub vrps: Vec<Vrp>,
    /// The number of VRPs that have expired.
    pub expired: usize,
}

/// Reads the VRPs of a validator's file that have not expired. [`read_vrps`] describes the file.
///
/// `time` is in seconds since 1970-01-01 UTC. A VRP has expired if its expiry is before `time`. In JSON the expiry is
/// the member `expires` of the item, a number. In CSV it is the field in the column `Expires`. A VRP without this
/// member or field, or with an empty field, does not expire.
///
/// # Errors
///
/// Those of [`read_vrps`], and then [`Reason::BadLine`] or [`Reason::BadItem`] for an invalid expiry:
/// [`VrpFault::Expiry`], [`VrpFault::ExpiresRepeated`] or [`VrpFault::ExpiresKind`].
///
/// # Example
///
/// ```
/// let file = b"ASN,IP Prefix,Max Length,Expires\nAS64496,10.0.0.0/8,16,1732600000\nAS64497,10.0.0.0/8,16,\n";
/// let found = pigyelund::read_unexpired_vrps(file, 1_732_600_001).unwrap();
/// assert_eq!(found.vrps, ["10.0.0.0/8-16 AS64497".parse().unwrap()]);
/// assert_eq!(found.expired, 1);
/// ```
///
/// [`Reason::BadLine`]: crate::Reason::BadLine
/// [`Reason::BadItem`]: crate::Reason::BadItem
/// [`VrpFault::Expiry`]: crate::VrpFault::Expiry
/// [`VrpFault::ExpiresRepeated`]: crate::VrpFault::ExpiresRepeated
/// [`VrpFault::ExpiresKind`]: crate::VrpFault::ExpiresKind
pub fn read_unexpired_vrps(file: &[u8], time: u64) -> Result<UnexpiredVrps, TableError> {
    let (mut expired, mut at) = (0, 0);
    // SAFETY: as in `read_vrps`.
    let found = unsafe {
        items(file.len() / 24, |out: *mut Vrp, capacity, len| {
            sys::pigy_vrps_read_unexpired(
                file.as_ptr(),
                file.len(),
                time,
                out.cast(),
                capacity,
                len,
                &mut expired,
                &mut at,
            )
        })
    };
    let vrps = found.map_err(|status| TableError { status, at })?;
    Ok(UnexpiredVrps { vrps, expired })
}

/// Reads the routes of lines, as the program `origins` does: a prefix and an AS number, or a line of `bgpdump -m`.
///
/// The routes are in the order of the lines. A line of `bgpdump -m` that announces no route is skipped. If the path ends
/// in an AS_SET, the AS is AS 0, which no VRP matches. If the path is empty or ends in a confederation segment, the
/// route has the router's own AS ([`Route::new`]). The call does not know this AS, and stores AS 0. `pigy_routes_read` in
/// `pigyelund.h` has the details.
///
/// # Errors
///
/// - [`Reason::BadRoute`](crate::Reason::BadRoute): a line is invalid. [`TableError::line`] is the number of the first
///   one, from 1.
/// - [`Reason::Memory`](crate::Reason::Memory).
///
/// # Example
///
/// ```
/// let routes = pigyelund::read_routes(b"10.0.0.0/8 AS64496\n2001:db8::/32 64497\n").unwrap();
/// assert_eq!(routes[1].to_string(), "2001:db8::/32 AS64497");
/// let refused = pigyelund::read_routes(b"10.0.0.0/8 AS64496\n10.0.0.1/8 AS64496\n").unwrap_err();
/// assert_eq!(refused.line(), Some(2));
/// ```
pub fn read_routes(lines: &[u8]) -> Result<Vec<Route>, TableError> {
    let mut at = 0;
    // Most lines have at least 16 octets, and those of `bgpdump -m` have more.
    // SAFETY: the call writes the routes, if it returns PIGY_OK. The pointer and the length are those of the slice.
    let found = unsafe {
        items(lines.len() / 16 + 1, |out: *mut Route, capacity, len| {
            let start = lines.as_ptr().cast();
            sys::pigy_routes_read(start, lines.len(), out.cast(), capacity, len, &mut at)
        })
    };
    found.map_err(|status| TableError { status, at })
}

impl Table {
    /// Returns the table of a handle, or the error of a status.
    ///
    /// # Safety
    ///
    /// The library stored the handle with this status. No other value has it.
    unsafe fn of(
        status: u32,
        handle: *mut sys::pigy_table,
        at: usize,
    ) -> Result<Table, TableError> {
        if status == PIGY_OK {
            return Ok(Table(handle));
        }
        Err(TableError { status, at })
    }

    /// Builds a table of VRPs.
    ///
    /// The VRPs may come in any order. The table copies them. Duplicates are kept: a VRP that is passed twice is listed
    /// twice, and [`Table::covering`] returns it twice.
    ///
    /// # Errors
    ///
    /// [`Reason::Memory`](crate::Reason::Memory) only.
    pub fn new(vrps: &[Vrp]) -> Result<Table, TableError> {
        let (mut out, mut at) = (null_mut(), 0);
        // SAFETY: the pointer and the length are those of the slice. The call stores a handle of its own.
        unsafe {
            let status = sys::pigy_table_new(vrps_of(vrps), vrps.len(), &mut out, &mut at);
            Table::of(status, out, at)
        }
    }

    /// Builds the table of the VRPs of a validator's file.
    ///
    /// # Errors
    ///
    /// Those of [`read_vrps`].
    pub fn read(file: &[u8]) -> Result<Table, TableError> {
        Table::new(&read_vrps(file)?)
    }

    /// Builds the table of the VRPs of a validator's file that have not expired at a time, in seconds since 1970-01-01
    /// UTC. If all VRPs have expired, the table is empty.
    ///
    /// # Errors
    ///
    /// Those of [`read_unexpired_vrps`].
    pub fn read_unexpired(file: &[u8], time: u64) -> Result<Table, TableError> {
        Table::new(&read_unexpired_vrps(file, time)?.vrps)
    }

    /// Returns a new table: this one without `withdrawn`, and then with `announced` (RFC 8210, 5.3).
    ///
    /// This table stays as it is. A VRP that is both withdrawn and announced is in the new table once.
    ///
    /// # Parameters
    ///
    /// - `announced`: VRPs to add. Each must be listed once, and must not be in the table unless it is also withdrawn.
    /// - `withdrawn`: VRPs to remove, with all their copies. Each must be listed once, and must be in the table.
    ///
    /// # Errors
    ///
    /// [`TableError::index`] is the index, from 0, of the VRP at fault in its list. The reason is the first of these
    /// that applies, or [`Reason::Memory`]:
    ///
    /// - [`Reason::UnknownWithdrawal`]: the first VRP of `withdrawn` that the table does not have, or that occurs
    ///   earlier in the list.
    /// - [`Reason::DuplicateAnnouncement`]: the first VRP of `announced` that the table has and that is not withdrawn,
    ///   or that occurs earlier in the list.
    ///
    /// [`Reason::Memory`]: crate::Reason::Memory
    /// [`Reason::UnknownWithdrawal`]: crate::Reason::UnknownWithdrawal
    /// [`Reason::DuplicateAnnouncement`]: crate::Reason::DuplicateAnnouncement
    pub fn with_changes(&self, announced: &[Vrp], withdrawn: &[Vrp]) -> Result<Table, TableError> {
        let (mut out, mut at) = (null_mut(), 0);
        // SAFETY: as in `new`. The table lives until the call returns.
        unsafe {
            let status = sys::pigy_table_with_changes(
                self.0,
                vrps_of(announced),
                announced.len(),
                vrps_of(withdrawn),
                withdrawn.len(),
                &mut out,
                &mut at,
            );
            Table::of(status, out, at)
        }
    }

    /// Returns the changes from this table to another one (RFC 8210, 5.6). [`Table::with_changes`] applies them.
    ///
    /// A VRP is announced if only `next` has it, and withdrawn if only this table has it. Each is listed once. A VRP
    /// that a table has twice counts once.
    ///
    /// IPv4 comes before IPv6. Each family is in the order of the last addresses, the longer prefix first. VRPs of the
    /// same prefix come by descending maximum length. VRPs of the same prefix and maximum length come by ascending AS
    /// number. [`Table::vrps`] has another order.
    ///
    /// # Errors
    ///
    /// [`Reason::Memory`](crate::Reason::Memory) only.
    ///
    /// # Example
    ///
    /// ```
    /// use pigyelund::{Table, Vrp};
    ///
    /// let [one, two, three]: [Vrp; 3] =
    ///     ["10.0.0.0/8 AS1", "10.0.0.0/8 AS2", "::/0 AS1"].map(|it| it.parse().unwrap());
    /// let (old, new) = (Table::new(&[one, two]).unwrap(), Table::new(&[two, three]).unwrap());
    /// let changes = old.changes(&new).unwrap();
    /// assert_eq!((changes.announced, changes.withdrawn), (vec![three], vec![one]));
    /// ```
    pub fn changes(&self, next: &Table) -> Result<Changes, TableError> {
        // The buffers suffice for all VRPs of the tables.
        let capacities = [next.len(), self.len()];
        // SAFETY: the call writes the VRPs, if it returns PIGY_OK. Both tables live until the call returns.
        let found = unsafe {
            outputs::<Vrp, 2>(capacities, |[announced, withdrawn]| {
                sys::pigy_table_changes(
                    self.0,
                    next.0,
                    announced.start.cast(),
                    announced.capacity,
                    &mut announced.len,
                    withdrawn.start.cast(),
                    withdrawn.capacity,
                    &mut withdrawn.len,
                )
            })
        };
        let [announced, withdrawn] = found.map_err(without_position)?;
        Ok(Changes {
            announced,
            withdrawn,
        })
    }

    /// Validates one route (RFC 6811, 2). The call takes no memory.
    #[must_use]
    pub fn validate(&self, route: &Route) -> Validity {
        let (mut validity, mut reason) = (0, 0);
        // SAFETY: the table and the route live until the call returns.
        assert_ok(unsafe {
            sys::pigy_table_validate(self.0, &route.0, &mut validity, &mut reason)
        });
        Validity::of(validity, reason)
    }

    /// Validates routes (RFC 6811, 2). Returns the validity of each route, in the order of `routes`.
    ///
    /// Many routes in one call take less time each.
    ///
    /// # Example
    ///
    /// ```
    /// use pigyelund::{InvalidReason, Table, Validity};
    ///
    /// let table = Table::new(&["10.0.0.0/8-16 AS64496".parse().unwrap()]).unwrap();
    /// let routes = ["10.0.0.0/16 AS64496", "10.0.0.0/24 AS64496"].map(|it| it.parse().unwrap());
    /// let wanted = [Validity::Valid, Validity::Invalid(InvalidReason::Length)];
    /// assert_eq!(table.validate_routes(&routes), wanted);
    /// ```
    #[must_use]
    pub fn validate_routes(&self, routes: &[Route]) -> Vec<Validity> {
        let (mut len, mut at) = (0, 0);
        // SAFETY: the pointers and lengths are those of the slices. The table lives until the call returns.
        validities_of(routes.len(), |octets, reasons| unsafe {
            sys::pigy_table_validate_routes(
                self.0,
                routes_of(routes),
                routes.len(),
                octets.as_mut_ptr(),
                octets.len(),
                reasons.as_mut_ptr(),
                reasons.len(),
                &mut len,
                &mut at,
            )
        })
    }

    /// Returns the indices of the routes whose validity differs between this table and `next` (RFC 6811, 4).
    ///
    /// These are indices in `routes`, from 0, ascending. The reason why a route is invalid is not compared.
    ///
    /// # Parameters
    ///
    /// - `next`: the other table, for example one that [`Table::with_changes`] made.
    /// - `routes`: the routes.
    #[must_use]
    pub fn revalidate(&self, next: &Table, routes: &[Route]) -> Vec<usize> {
        let mut octets = vec![0; routes.len()];
        let (mut len, mut at) = (0, 0);
        // SAFETY: as in `validate_routes`.
        assert_ok(unsafe {
            sys::pigy_table_revalidate(
                self.0,
                next.0,
                routes_of(routes),
                routes.len(),
                octets.as_mut_ptr(),
                octets.len(),
                &mut len,
                &mut at,
            )
        });
        let marked = octets.iter().enumerate().filter(|(_, octet)| **octet != 0);
        marked.map(|(at, _)| at).collect()
    }

    /// Returns the VRPs that cover a route. They explain its validity: the route is valid if one of them matches.
    ///
    /// The longest prefix comes first. VRPs of the same prefix come by ascending AS number. VRPs of the same prefix and
    /// AS come by descending maximum length. [`Table::vrps`] has another order.
    ///
    /// # Errors
    ///
    /// [`Reason::Memory`](crate::Reason::Memory) only.
    pub fn covering(&self, route: &Route) -> Result<Vec<Covering>, TableError> {
        // SAFETY: the call writes the VRPs, if it returns PIGY_OK. The table and the route live until it returns.
        let found = unsafe {
            items(COVERING, |out: *mut Covering, capacity, len| {
                sys::pigy_table_covering(self.0, &route.0, out.cast(), capacity, len)
            })
        };
        found.map_err(without_position)
    }

    /// Returns the number of VRPs, duplicates included.
    #[must_use]
    pub fn len(&self) -> usize {
        let mut len = 0;
        // SAFETY: the table lives until the call returns.
        assert_ok(unsafe { sys::pigy_table_len(self.0, &mut len) });
        len
    }

    /// Returns whether the table has no VRP.
    #[must_use]
    pub fn is_empty(&self) -> bool {
        self.len() == 0
    }

    /// Returns all VRPs, duplicates included.
    ///
    /// IPv4 comes before IPv6. Each family is in the order of the addresses, the shorter prefix first. VRPs of the same
    /// prefix come by descending AS number. VRPs of the same prefix and AS come by ascending maximum length.
    /// [`Table::covering`] has another order.
    ///
    /// # Errors
    ///
    /// [`Reason::Memory`](crate::Reason::Memory) only.
    pub fn vrps(&self) -> Result<Vec<Vrp>, TableError> {
        // SAFETY: as in `covering`.
        let found = unsafe {
            items(self.len(), |out: *mut Vrp, capacity, len| {
                sys::pigy_table_vrps(self.0, out.cast(), capacity, len)
            })
        };
        found.map_err(without_position)
    }

    /// Returns an iterator over [`Table::vrps`]. Panics if the library is out of memory.
    pub fn iter(&self) -> std::vec::IntoIter<Vrp> {
        self.vrps()
            .unwrap_or_else(|error| panic!("{error}"))
            .into_iter()
    }
}

/// The changes from one table to another: what [`Table::changes`] returns.
#[derive(Clone, Debug, PartialEq, Eq, Hash)]
pub struct Changes {
    /// The VRPs that only the other table has.
    pub announced: Vec<Vrp>,
    /// The VRPs that only the first table has.
    pub withdrawn: Vec<Vrp>,
}

/// Iterates over [`Table::vrps`]. Panics if the library is out of memory.
impl IntoIterator for &Table {
    type Item = Vrp;
    type IntoIter = std::vec::IntoIter<Vrp>;

    fn into_iter(self) -> Self::IntoIter {
        self.iter()
    }
}

/// The table of all VRPs. Panics if the library is out of memory.
impl FromIterator<Vrp> for Table {
    fn from_iter<I: IntoIterator<Item = Vrp>>(vrps: I) -> Table {
        let vrps: Vec<Vrp> = vrps.into_iter().collect();
        Table::new(&vrps).unwrap_or_else(|error| panic!("{error}"))
    }
}

/// Makes a table of all VRPs, duplicates included, in place of this one. Panics if the library is out of memory.
/// [`Table::with_changes`] takes less time, and refuses duplicates.
impl Extend<Vrp> for Table {
    fn extend<I: IntoIterator<Item = Vrp>>(&mut self, vrps: I) {
        *self = self.iter().chain(vrps).collect();
    }
}

/// A VRP that covers a route, and why it does not match the route (RFC 6811, 2).
// The layout is that of the library.
#[repr(transparent)]
#[derive(Clone, Copy)]
pub struct Covering(sys::pigy_covering);

impl Covering {
    /// Returns the VRP.
    pub fn vrp(&self) -> Vrp {
        Vrp(self.0.vrp)
    }

    /// Returns whether the VRP matches the route.
    pub fn is_match(&self) -> bool {
        self.0.mismatch == 0
    }

    /// Returns whether the AS of the VRP is not the route's, or is AS 0.
    pub fn is_other_as(&self) -> bool {
        self.0.mismatch & sys::PIGY_OTHER_AS != 0
    }

    /// Returns whether the route's prefix is longer than the maximum length.
    pub fn is_too_long(&self) -> bool {
        self.0.mismatch & sys::PIGY_TOO_LONG != 0
    }
}

impl PartialEq for Covering {
    fn eq(&self, other: &Covering) -> bool {
        (self.vrp(), self.0.mismatch) == (other.vrp(), other.0.mismatch)
    }
}

impl Eq for Covering {}

impl std::hash::Hash for Covering {
    fn hash<H: std::hash::Hasher>(&self, state: &mut H) {
        (self.vrp(), self.0.mismatch).hash(state);
    }
}

/// Writes the VRP and both reasons, for example `Covering { vrp: 10.0.0.0/8-8 AS1, other_as: true, too_long: false }`.
impl Debug for Covering {
    fn fmt(&self, out: &mut Formatter<'_>) -> Written {
        out.debug_struct("Covering")
            .field("vrp", &format_args!("{}", self.vrp()))
            .field("other_as", &self.is_other_as())
            .field("too_long", &self.is_too_long())
            .finish()
    }
}

/// Writes prefix, maximum length and AS of the VRP, for example `10.0.0.0/8-16 AS64496`.
impl Display for Covering {
    fn fmt(&self, out: &mut Formatter<'_>) -> Written {
        Display::fmt(&self.vrp(), out)
    }
}

/// The VRP without the reason why it does not match.
impl From<Covering> for Vrp {
    fn from(covering: Covering) -> Vrp {
        covering.vrp()
    }
}

impl Validity {
    /// Returns the validity with these numbers of `pigyelund.h`.
    fn of(validity: u8, reason: u8) -> Validity {
        match (u32::from(validity), u32::from(reason)) {
            (sys::PIGY_VALID, _) => Validity::Valid,
            (sys::PIGY_NOT_FOUND, _) => Validity::NotFound,
            (_, sys::PIGY_INVALID_LENGTH) => Validity::Invalid(InvalidReason::Length),
            _ => Validity::Invalid(InvalidReason::As),
        }
    }
}
