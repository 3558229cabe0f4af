"""A second implementation of what the libraries answer, for tests alone.

It is written from the standards (RFC 3779, RFC 6487, 4.8, X.690, RFC 4291, RFC 5952, RFC 6811) and from
docs/DEFINITIONS.md and docs/ERRORS.md. Numbers are Python's own. Sets are ascending lists of intervals that a sweep
merges. Functions that follow the productions of the grammar read octets.
"""
