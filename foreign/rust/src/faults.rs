//! The first errors of DER, of texts and of files. Each variant has the number n of `pigyelund.h`.

/// Declares errors with their numbers, and the function that finds the error of a number.
macro_rules! faults {
    ($(#[$doc:meta])* $name:ident { $($(#[$of:meta])* $variant:ident = $number:literal,)* }) => {
        $(#[$doc])*
        #[non_exhaustive]
        #[derive(Clone, Copy, Debug, PartialEq, Eq, Hash)]
        pub enum $name {
            $($(#[$of])* $variant = $number,)*
        }

        impl $name {
            /// Returns the error with this number, if there is one.
            pub(crate) fn of_number(number: u32) -> Option<$name> {
                match number {
                    $($number => Some($name::$variant),)*
                    _ => None,
                }
            }
        }
    };
}

faults! {
    /// The first error in the DER of an extension.
    DerFault {
        /// Octets are missing, or a length is greater than the octets that follow (X.690, 8.1).
        Truncated = 1,
        /// A tag is not the one that the syntax requires there (RFC 3779, 2.2.3 and 3.2.3).
        BadTag = 2,
        /// A length is indefinite, is not as short as possible, or has more than eight octets (X.690, 8.1.3 and 10.1).
        BadLength = 3,
        /// An INTEGER is not from 0 to 4294967295, or is not as short as possible (X.690, 8.3; RFC 3779, 3.2.3.10).
        BadInteger = 4,
        /// The number of unused bits of a BIT STRING is missing, is above seven, or is not 0 although there are no
        /// octets (X.690, 8.6.2).
        BadBitString = 5,
        /// A NULL has content (X.690, 8.8.2).
        BadNull = 6,
        /// Octets follow the end of a value.
        TrailingData = 7,
        /// A prefix or a bound of a range has more bits than its family: 32 for IPv4, 128 for IPv6 (RFC 3779, 2.1.1).
        BadPrefix = 8,
        /// The octets of a family do not name IPv4 or IPv6, for example because they have a SAFI (RFC 3779, 2.2.3.3).
        BadFamily = 9,
        /// A range ends before it begins (RFC 3779, 2.2.3.9 and 3.2.3.8).
        ReversedRange = 10,
        /// A list of blocks is empty (RFC 6487, 4.8.10 and 4.8.11).
        EmptyBlocks = 11,
        /// A family occurs twice (RFC 3779, 2.2.3.3).
        DuplicateFamily = 12,
        /// The IP address blocks have no family (RFC 6487, 4.8.10).
        NoFamily = 13,
        /// The encoding is not canonical; only [`Encoding::Strict`](crate::Encoding) reports this.
        NotCanonical = 14,
    }
}

faults! {
    /// The first error of the text of a set.
    TextFault {
        /// The text is not UTF-8. No `str` has this error.
        NotUtf8 = 1,
        /// An element is not an AS number.
        Asn = 2,
        /// An element is not a range of AS numbers, or its first number is above the second.
        AsRange = 3,
        /// An address is invalid.
        Address = 4,
        /// A prefix length is not a number, or is above 32 (IPv4) or 128 (IPv6).
        PrefixLen = 5,
        /// An address is of the other family.
        Family = 6,
        /// The first address of a range is above the second.
        ReversedRange = 7,
    }
}

faults! {
    /// The first error of a line with a route, or of the text of a [`Route`](crate::Route).
    RouteFault {
        /// The line is not UTF-8. No `str` has this error.
        NotUtf8 = 1,
        /// The line is of `bgpdump -m`, and has no field for the prefix or for the path. No text of a route has this
        /// error.
        TooFewFields = 2,
        /// The line has no space, and would have a route if its first comma were a space.
        CommaForSpace = 3,
        /// The first word is no prefix. It has a tab, or it is an AS number.
        OtherWord = 4,
        /// The prefix is invalid.
        Prefix = 5,
        /// The AS number is invalid.
        Asn = 6,
    }
}

faults! {
    /// The first error of a line or of an item of a VRP file, or of the text of a [`Vrp`](crate::Vrp).
    ///
    /// A line of CSV has an error with a number from 1 to 7, or 20. An item of JSON has one from 4 to 16, or from 18 to
    /// 20. A text has one from 4 to 7.
    VrpFault {
        /// The line is not UTF-8.
        NotUtf8 = 1,
        /// The line has more fields than the line that names the columns.
        TooManyFields = 2,
        /// The line is too short: the AS number, the prefix or the maximum length is missing.
        TooFewFields = 3,
        /// The AS number is invalid.
        Asn = 4,
        /// The prefix is invalid.
        Prefix = 5,
        /// The maximum length is not a number from 0 to 255.
        MaxLenFormat = 6,
        /// The maximum length is below the prefix length, or above 32 (IPv4) or 128 (IPv6).
        MaxLen = 7,
        /// The item has no member `asn`.
        AsnMissing = 8,
        /// The item has more than one member `asn`.
        AsnRepeated = 9,
        /// The member `asn` is neither a number nor a string.
        AsnKind = 10,
        /// The item has no member `prefix`.
        PrefixMissing = 11,
        /// The item has more than one member `prefix`.
        PrefixRepeated = 12,
        /// The member `prefix` is not a string.
        PrefixKind = 13,
        /// The item has no member `maxLength`.
        MaxLengthMissing = 14,
        /// The item has more than one member `maxLength`.
        MaxLengthRepeated = 15,
        /// The member `maxLength` is not a number.
        MaxLengthKind = 16,
        /// The item has more than one member `expires`.
        ExpiresRepeated = 18,
        /// The member `expires` is not a number.
        ExpiresKind = 19,
        /// The expiry is not a whole number below 2^64.
        Expiry = 20,
    }
}

faults! {
    /// The error of a VRP file as a whole.
    FileFault {
        /// The file is a JSON array, where an object with the member `roas` is expected.
        JsonArray = 1,
        /// The file begins with `{`, and is not a JSON object, or nests deeper than 128.
        NotObject = 2,
        /// The object has no member `roas`.
        RoasMissing = 3,
        /// The object has more than one member `roas`.
        RoasRepeated = 4,
        /// The member `roas` is not an array.
        RoasKind = 5,
        /// The file has no VRP.
        NoVrp = 6,
        /// The first line of CSV is none of these:
        ///
        /// - a blank line;
        /// - a known header line;
        /// - a line whose first field is an AS number, or whose second field is a prefix.
        UnknownHeader = 7,
    }
}
