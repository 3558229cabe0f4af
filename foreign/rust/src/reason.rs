//! The error types of the calls. Their texts are those of `pigy_status_text`.
use std::error::Error;
use std::ffi::CStr;
use std::fmt::{Debug, Display, Formatter, Result as Written};

use crate::{
    DerFault, FileFault, Kind, Resources, RouteFault, SlurmFault, SlurmList, TextFault, VrpFault,
};
use pigyelund_sys as sys;

/// Returns the text of a status of `pigyelund.h`. The text of any other number is `unknown status`.
pub fn status_text(status: u32) -> &'static str {
    // SAFETY: the call takes any number. It returns a text that ends in NUL, and that is valid while the library is
    // loaded. The library is linked, so this is as long as the process runs.
    let text = unsafe { CStr::from_ptr(sys::pigy_status_text(status)) };
    text.to_str().unwrap_or("unknown status")
}

/// Panics with the text of a status that is not `PIGY_OK`. This is for calls that cannot fail for the values of this
/// crate.
#[track_caller]
pub(crate) fn assert_ok(status: u32) {
    assert_eq!(status, sys::PIGY_OK, "{}", status_text(status));
}

/// The reason why a call fails.
#[non_exhaustive]
#[derive(Clone, Copy, Debug, PartialEq, Eq, Hash)]
pub enum Reason {
    /// Out of memory. This reason does not say that the input is invalid.
    Memory,
    /// A set has `inherit` in place of a list of resources. A certificate may have `inherit`, and a set may not.
    Inherited,
    /// The certificate claims resources of this kind that its issuer does not have (RFC 6487, 7.2).
    Overclaimed(Kind),
    /// The certificate has neither extension (RFC 6487, 4.8.10 and 4.8.11).
    Absent,
    /// The AS identifiers are invalid DER.
    BadAs(DerFault),
    /// The IP address blocks are invalid DER.
    BadIp(DerFault),
    /// The text of a set is invalid.
    BadText(TextFault),
    /// A line of a VRP file in CSV is invalid.
    BadLine(VrpFault),
    /// An item of a VRP file in JSON is invalid.
    BadItem(VrpFault),
    /// A VRP file is invalid as a whole.
    BadFile(FileFault),
    /// A withdrawn VRP is not in the table, or is withdrawn twice (RFC 8210, 12, code 6).
    UnknownWithdrawal,
    /// An announced VRP is in the table and is not withdrawn, or is announced twice (RFC 8210, 12, code 7).
    DuplicateAnnouncement,
    /// The line is none that the program `respath` knows.
    BadQuery,
    /// A line with a route is invalid.
    BadRoute(RouteFault),
    /// A SLURM file is invalid, except for its items.
    BadSlurm(SlurmFault),
    /// An item of a list of a SLURM file is invalid.
    BadSlurmItem(SlurmList, SlurmFault),
    /// Any other status. No call of this crate returns such a status.
    Other(u32),
}

impl Reason {
    /// Returns the reason for a status of `pigyelund.h`.
    ///
    /// The side is lost: the reason of a certificate or of a second set is that of the first one. A status without a
    /// variant of its own, such as `PIGY_OK`, becomes [`Reason::Other`].
    ///
    /// # Example
    ///
    /// ```
    /// use pigyelund::{DerFault, Reason};
    /// use pigyelund_sys::{PIGY_BAD_AS, PIGY_SECOND};
    ///
    /// let reason = Reason::BadAs(DerFault::Truncated);
    /// assert_eq!(Reason::from_status(PIGY_BAD_AS + 1), reason);
    /// assert_eq!(Reason::from_status(PIGY_SECOND + PIGY_BAD_AS + 1), reason);
    /// ```
    pub fn from_status(status: u32) -> Reason {
        let fault = sys::PIGY_FAULT(status);
        let is_line = matches!(fault, 1..=7 | 20);
        let is_item = matches!(fault, 4..=16 | 18..=20);
        let found = match sys::PIGY_KIND(status) {
            sys::PIGY_BAD_AS => DerFault::of_number(fault).map(Reason::BadAs),
            sys::PIGY_BAD_IP => DerFault::of_number(fault).map(Reason::BadIp),
            sys::PIGY_INHERITED if fault == 0 => Some(Reason::Inherited),
            _ if status & sys::PIGY_SECOND != 0 => None,
            sys::PIGY_MEMORY if fault == 0 => Some(Reason::Memory),
            sys::PIGY_ABSENT if fault == 0 => Some(Reason::Absent),
            sys::PIGY_BAD_QUERY if fault == 0 => Some(Reason::BadQuery),
            sys::PIGY_BAD_ROUTE => RouteFault::of_number(fault).map(Reason::BadRoute),
            sys::PIGY_OVERCLAIM => Kind::of_number(fault).map(Reason::Overclaimed),
            sys::PIGY_BAD_TEXT => TextFault::of_number(fault).map(Reason::BadText),
            sys::PIGY_BAD_LINE if is_line => VrpFault::of_number(fault).map(Reason::BadLine),
            sys::PIGY_BAD_ITEM if is_item => VrpFault::of_number(fault).map(Reason::BadItem),
            sys::PIGY_BAD_FILE => FileFault::of_number(fault).map(Reason::BadFile),
            sys::PIGY_BAD_SLURM => SlurmFault::of_file(fault).map(Reason::BadSlurm),
            sys::PIGY_BAD_SLURM_ITEM => {
                SlurmFault::of_item(fault).map(|(list, fault)| Reason::BadSlurmItem(list, fault))
            }
            sys::PIGY_BAD_CHANGE => match status {
                sys::PIGY_UNKNOWN_WITHDRAWAL => Some(Reason::UnknownWithdrawal),
                sys::PIGY_DUPLICATE_ANNOUNCEMENT => Some(Reason::DuplicateAnnouncement),
                _ => None,
            },
            _ => None,
        };
        found.unwrap_or(Reason::Other(status))
    }
}

/// The error of the calls on sets of resources.
///
/// `Display` writes the text of the status. For a path it also writes the number of verified certificates. It does not
/// write the overclaimed resources, which [`ResourceError::excess`] returns.
#[derive(Clone, PartialEq, Eq, Hash)]
pub struct ResourceError {
    pub(crate) status: u32,
    pub(crate) excess: Option<Resources>,
    pub(crate) verified: Option<usize>,
}

impl ResourceError {
    /// Returns the error of a status, without overclaimed resources.
    pub(crate) fn of_status(status: u32) -> ResourceError {
        ResourceError {
            status,
            excess: None,
            verified: None,
        }
    }

    /// Returns the reason.
    pub fn reason(&self) -> Reason {
        Reason::from_status(self.status)
    }

    /// Returns the status of `pigyelund.h`.
    pub fn status(&self) -> u32 {
        self.status
    }

    /// Returns the overclaimed resources: exactly those of the kind in [`Reason::Overclaimed`]. Returns `None` for any
    /// other reason.
    pub fn excess(&self) -> Option<&Resources> {
        self.excess.as_ref()
    }

    /// Returns the number of verified certificates of [`Resources::verify_path`]. This is also the index, from 0, of
    /// the certificate at fault. Returns `None` for any other call, and for [`Reason::Memory`].
    pub fn verified(&self) -> Option<usize> {
        self.verified
    }
}

impl Display for ResourceError {
    fn fmt(&self, out: &mut Formatter<'_>) -> Written {
        if let Some(verified) = self.verified {
            write!(out, "after {verified} certificates: ")?;
        }
        out.write_str(status_text(self.status))
    }
}

/// Writes the reason, and what the error has: the overclaimed resources and the number of verified certificates.
impl Debug for ResourceError {
    fn fmt(&self, out: &mut Formatter<'_>) -> Written {
        let mut out = out.debug_struct("ResourceError");
        out.field("reason", &self.reason());
        if let Some(excess) = &self.excess {
            out.field("excess", excess);
        }
        if let Some(verified) = self.verified {
            out.field("verified", &verified);
        }
        out.finish()
    }
}

impl Error for ResourceError {}

/// The error of the calls on tables, on files of VRPs and on lines with routes.
///
/// `Display` writes the position of the error, and the text of the status.
#[derive(Clone, Copy, PartialEq, Eq, Hash)]
pub struct TableError {
    pub(crate) status: u32,
    /// The index of a VRP or route, or the number of a line or item.
    pub(crate) at: usize,
}

impl TableError {
    /// Returns the reason.
    pub fn reason(&self) -> Reason {
        Reason::from_status(self.status)
    }

    /// Returns the status of `pigyelund.h`.
    pub fn status(&self) -> u32 {
        self.status
    }

    /// Returns the index, from 0, of the VRP at fault: for [`Reason::UnknownWithdrawal`] in the withdrawn VRPs, and for
    /// [`Reason::DuplicateAnnouncement`] in the announced VRPs. Returns `None` for any other reason.
    pub fn index(&self) -> Option<usize> {
        let is_change = sys::PIGY_KIND(self.status) == sys::PIGY_BAD_CHANGE;
        is_change.then_some(self.at)
    }

    /// Returns the number, from 1, of the first invalid line ([`Reason::BadLine`], [`Reason::BadRoute`]) or item of
    /// JSON ([`Reason::BadItem`]). Returns `None` for any other reason.
    pub fn line(&self) -> Option<usize> {
        let is_line = matches!(
            self.reason(),
            Reason::BadLine(_) | Reason::BadItem(_) | Reason::BadRoute(_)
        );
        is_line.then_some(self.at)
    }
}

impl Display for TableError {
    fn fmt(&self, out: &mut Formatter<'_>) -> Written {
        match self.reason() {
            Reason::BadLine(_) | Reason::BadRoute(_) => write!(out, "at line {}: ", self.at)?,
            Reason::BadItem(_) => write!(out, "at item {}: ", self.at)?,
            _ if self.index().is_some() => write!(out, "at index {}: ", self.at)?,
            _ => {}
        }
        out.write_str(status_text(self.status))
    }
}

/// Writes the reason, and the index or the line if the error has one.
impl Debug for TableError {
    fn fmt(&self, out: &mut Formatter<'_>) -> Written {
        let mut out = out.debug_struct("TableError");
        out.field("reason", &self.reason());
        if let Some(index) = self.index() {
            out.field("index", &index);
        }
        if let Some(line) = self.line() {
            out.field("line", &line);
        }
        out.finish()
    }
}

impl Error for TableError {}

/// The error of [`answer`](crate::answer). `Display` writes the text of the status.
#[derive(Clone, Copy, PartialEq, Eq, Hash)]
pub struct AnswerError {
    pub(crate) status: u32,
}

impl AnswerError {
    /// Returns the reason: [`Reason::BadQuery`] or [`Reason::Memory`].
    pub fn reason(&self) -> Reason {
        Reason::from_status(self.status)
    }

    /// Returns the status of `pigyelund.h`.
    pub fn status(&self) -> u32 {
        self.status
    }
}

impl Display for AnswerError {
    fn fmt(&self, out: &mut Formatter<'_>) -> Written {
        out.write_str(status_text(self.status))
    }
}

/// Writes the reason.
impl Debug for AnswerError {
    fn fmt(&self, out: &mut Formatter<'_>) -> Written {
        out.debug_struct("AnswerError")
            .field("reason", &self.reason())
            .finish()
    }
}

impl Error for AnswerError {}
