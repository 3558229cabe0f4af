/** @file
 *
 * Pigyelund is a formally verified library for RPKI resource sets (RFC 3779) and route origin validation (RFC 6811).
 * This header declares its calls for C and C++. It is tested as C99, C11, C17, C++11 and C++17.
 *
 * - Certificates. pigy_verify compares the resources that a certificate claims with those of its issuer.
 *   pigy_verify_path does this along a path from a trust anchor. No call checks signatures or dates.
 * - Resource sets. The calls pigy_resources_... use a handle of a set that is read once. The other calls on sets take
 *   DER: pigy_union, pigy_contains, pigy_prefixes and more.
 * - Route origins. The calls pigy_table_... use a handle of a table of VRPs (validated ROA payloads). pigy_vrps_read
 *   reads the VRPs of a validator's file, and pigy_vrps_read_unexpired leaves out those that have expired.
 *   pigy_slurm_apply applies a SLURM file (RFC 8416) to VRPs. pigy_routes_read reads the routes of lines. pigy_validate
 *   validates routes by VRPs without a handle.
 *
 * Example: does a certificate claim more than its issuer has?
 *
 * @code
 *   // IP address blocks with 10.0.0.0/8
 *   static const uint8_t ten[] = {0x30, 12, 0x30, 10, 4, 2, 0, 1, 0x30, 4, 3, 2, 0, 10};
 *   // IP address blocks with 10.0.0.0/8 and 12.0.0.0/8
 *   static const uint8_t both[] = {0x30, 16, 0x30, 14, 4, 2, 0, 1, 0x30, 8, 3, 2, 0, 10, 3, 2, 0, 12};
 *   pigy_set issuer = {.ip = ten, .ip_len = sizeof ten}, cert = {.ip = both, .ip_len = sizeof both};
 *   uint8_t ip[256], over[256];
 *   pigy_buffers out = {.ip = ip, .ip_capacity = sizeof ip}, excess = {.ip = over, .ip_capacity = sizeof over};
 *   pigy_status status = pigy_verify(issuer, cert, PIGY_HAS_IP, PIGY_STRICT, PIGY_REFUSE, &out, &excess);
 *   puts(pigy_status_text(status)); // overclaimed IPv4 resources
 *   // over has the DER of 12.0.0.0/8, in excess.ip_len octets
 * @endcode
 *
 * The guide has the installation, complete programs, and what to do after an error. It is docs/C.md in the repository.
 * The Debian package has the guide, and each page and example that the guide names, below
 * /usr/share/doc/libpigyelund-dev.
 *
 * RESULTS. Each call that can fail returns a status. Compare it with PIGY_OK, which is 0. With any other status the
 * call stores:
 *
 * - 0 in an answer;
 * - 0 in a length and in a number of expired VRPs. With PIGY_TOO_SMALL both are those of the result. With one of
 *   PIGY_OVERCLAIM the lengths of `excess` are those of the overclaimed resources;
 * - 0 in `index`, `line` and `item`, unless the comment of the call says that they name the element at fault;
 * - PIGY_NO_VALIDITY, which is not 0, in a single validity, and 0 in its reason;
 * - a number of verified certificates, which the comment of the call states for each status;
 * - NULL in a handle. The handle of overclaimed resources is not NULL if the status is one of PIGY_OVERCLAIM;
 * - 0 in each member of a VRP or a route that is read from its text.
 *
 * Buffers stay unchanged then. A buffer for overclaimed resources is written if the status is one of PIGY_OVERCLAIM.
 *
 * SETS. A resource set is a pair of octet strings: the values of the certificate extensions AS identifiers (RFC 3779,
 * 3.2.3) and IP address blocks (2.2.3). The value is the DER inside the extension's OCTET STRING. A value of length 0
 * means that the set has no AS numbers, or no addresses. This holds for inputs and outputs. A set that a call writes is
 * canonical DER. Two such sets are equal if and only if their octets are equal.
 *
 * CERTIFICATES. The calls take a certificate as the values of these two extensions, and a bit mask of the extensions
 * that it has (PIGY_HAS_AS, PIGY_HAS_IP). An absent extension claims nothing. A value of length 0 is invalid if its
 * extension is present. Overclaimed resources are those that a certificate claims and its issuer does not have. The
 * calls return them in `excess`, and never in `out`.
 *
 * HANDLES. A handle is a pointer to a set of resources (pigy_resources) or to a table of VRPs (pigy_table). The caller
 * owns it until it is passed to pigy_resources_free or pigy_table_free. The set or table never changes. A call on
 * handles reads no DER again. Each call returns PIGY_NO_HANDLE for NULL, and the two calls that free do nothing.
 *
 * BUFFERS. The caller owns all inputs and all output buffers. For each output the caller passes a buffer, its capacity,
 * and a pointer to a size_t. The call stores the length there. Lengths and capacities are in octets, unless the call
 * says otherwise.
 *
 * - If all outputs fit, the call writes each output at the front of its buffer, and stores its length. The rest of the
 *   buffer is unchanged.
 * - If an output does not fit, the call returns PIGY_TOO_SMALL. The lengths are the required ones then. Call again with
 *   the same inputs, and with buffers of these capacities. The second call repeats all the work, and never returns
 *   PIGY_TOO_SMALL.
 * - Pass capacity 0 to get the lengths alone. The buffer may be NULL then. An output of length 0 fits a buffer of
 *   capacity 0.
 * - These capacities for DER always suffice. For AS identifiers: three times the octets of all AS identifiers of the
 *   call, and 64 more. For IP address blocks: the same of IP address blocks.
 *
 * TEXTS. A text that a call writes is UTF-8. A NUL follows it if the capacity is above its length. The length does not
 * count the NUL.
 *
 * MEMORY. Except for handles, the library keeps nothing between calls and hands out no memory. Each call frees all that
 * it takes from malloc before it returns. There is no hook for another allocator.
 *
 * - These calls take no memory: pigy_version, pigy_status_text, pigy_table_validate, pigy_table_validate_routes,
 *   pigy_tables_validate_routes, pigy_table_revalidate, pigy_table_len, pigy_resources_contains,
 *   pigy_resources_contains_asn, pigy_resources_contains_prefix, pigy_resources_equal, pigy_resources_free,
 *   pigy_table_free, pigy_vrp_from_text, pigy_vrp_text, pigy_route_from_text and pigy_route_text. Any other call may
 *   return PIGY_MEMORY.
 * - A table of 500,000 VRPs takes some 42 octets for each VRP. During the call pigy_table_new takes some 80 more for
 *   each VRP. pigy_table_with_changes takes the next table, and up to 160 for each change. pigy_table_changes takes 120
 *   for each VRP of both tables, and up to 150 for each change.
 * - For 500,000 VRPs these calls take for each VRP until they return: pigy_vrps_read some 130 octets for CSV and 215
 *   for JSON, pigy_vrps_read_unexpired 230, and pigy_slurm_apply 210.
 * - PIGY_MEMORY has four causes. malloc or realloc failed, an array of the library would have 2^63 octets or more, a
 *   table would have 2^32 VRPs or more, or 2^63 sets would share one list. Only after the first cause can the same call
 *   succeed later.
 * - PIGY_MEMORY does not say that an argument is invalid.
 *
 * CHECKS. The comments of the calls do not repeat these rules:
 *
 * - Each call checks its arguments in the order that its comment lists, and returns the first error.
 * - PIGY_TOO_SMALL comes after all checks. pigy_verify_path also returns it if the overclaimed resources of a
 *   certificate do not fit. It has not checked the later certificates then.
 * - A call that takes memory may return PIGY_MEMORY instead of any status except PIGY_NO_HANDLE, which comes first.
 *
 * A DAEMON must:
 *
 * - begin with an empty table (pigy_table_new with count 0), so that its handle is never NULL;
 * - exchange the handle of its table, then call pigy_table_revalidate, and then free the old table;
 * - free a handle only after all other calls with it have returned.
 *
 * OBLIGATIONS of the caller, which nothing checks:
 *
 * - An array is NULL only if its length is 0, and an output buffer only if its capacity is 0. In C++ data() of an empty
 *   std::vector may be NULL. The pointers in pigy_set and pigy_buffers may always be NULL, and so may a handle. No
 *   other pointer is NULL.
 * - A pointer that is not NULL points to an array of the length that is passed with it, aligned as C requires for its
 *   type. This also holds for the object that receives a length, an index, an answer, a validity or a handle.
 * - A handle that is not NULL came from a call of this header that returned PIGY_OK or one of PIGY_OVERCLAIM. It was
 *   not passed to pigy_resources_free or pigy_table_free. The caller does not read or write the memory at the handle.
 * - Outputs overlap neither inputs nor other outputs. Until the call returns, nothing else writes to inputs or outputs,
 *   and nothing else reads outputs.
 * - malloc, realloc and free belong to one allocator. The allocator of the C library meets this rule: if the size of a
 *   block is a multiple of 16, 8, 4 or 2 octets, its address is a multiple of the same number. Another allocator has to
 *   meet the rule too.
 * - A processor for x86-64 has the instructions of x86-64-v2: SSE3, SSSE3, SSE4.1, SSE4.2, POPCNT, CMPXCHG16B, LAHF and
 *   SAHF. A processor for ARM64 has those of ARMv8-A.
 * - The stack has 128 KiB left for each call that reads JSON, and 16 KiB for each other call. pigy_vrps_read,
 *   pigy_vrps_read_unexpired and pigy_slurm_apply read JSON. In the tests a call that reads JSON uses less than 64 KiB
 *   for the deepest JSON that it reads, and each other call less than 8 KiB. This is measured on x86-64, and for ARM64
 *   on an emulator, and is not proved. With musl a thread has 128 KiB in all, unless you ask for more by
 *   pthread_attr_setstacksize.
 * - No call is made in a signal handler, or in the forked child of a process with threads.
 *
 * THREADS. The calls share no state. Any number of them may run at the same time if each meets the obligations. Several
 * calls may read one input, and no two calls may write to one output. This is tested, and is not proved. In tests in C,
 * Rust and Python several threads use one table and one set at the same time, and verify certificates below the set.
 *
 * - Any number of threads may use one handle at the same time, also to make other handles from it.
 * - Pass a handle from one thread to another by a lock, by the start or join of a thread, or by an atomic object. The
 *   store to this object is release or seq_cst, and the load from it is acquire or seq_cst.
 * - All other calls with a handle have returned before it is freed. If another thread made such a call, order it before
 *   the call that frees by one of these means too.
 *
 * VERSIONS. All calls are in version 0.2.0, except those whose comments name the later version that added them.
 */
#ifndef PIGYELUND_H
#define PIGYELUND_H
#include <stddef.h>
#include <stdint.h>
#ifdef __cplusplus
extern "C" {
#endif

/* ---- Attributes and types of numbers ---- */

/* Attributes, by which GCC and Clang warn. They are empty for other compilers. */
#ifdef __GNUC__
/** A program that ignores the result gets a warning. pigy_table_len does not have this attribute, since its only error
 * is a NULL handle. */
#define PIGY_NODISCARD __attribute__((__warn_unused_result__))
/** The parameters with these numbers must never be NULL. The first parameter has number 1. With -Wall a program that
 * passes the constant NULL for such a parameter gets a warning. No array is among them, since an array of length 0 may
 * be NULL. */
#define PIGY_NONNULL(...) __attribute__((__nonnull__(__VA_ARGS__)))
#else
#define PIGY_NODISCARD
#define PIGY_NONNULL(...)
#endif

/** Begins an enumeration of constants. They have 32 bits if the language has such enumerations (C++11, C23).
 * No parameter and no member of a struct has the type of an enumeration, so no layout depends on it. */
#if (defined __cplusplus && __cplusplus >= 201103L) || (defined __STDC_VERSION__ && __STDC_VERSION__ >= 202311L)
#define PIGY_ENUM enum : uint32_t
#else
#define PIGY_ENUM enum
#endif

typedef uint32_t pigy_status;   /**< PIGY_OK, or the reason why a call failed. */
typedef uint32_t pigy_present;  /**< PIGY_HAS_AS, PIGY_HAS_IP, PIGY_HAS_BOTH or 0. */
typedef uint32_t pigy_encoding; /**< PIGY_LENIENT or PIGY_STRICT. */
typedef uint32_t pigy_mode;     /**< PIGY_REFUSE or PIGY_TRIM. */
typedef uint32_t pigy_family;   /**< PIGY_IPV4 or PIGY_IPV6. */
typedef uint32_t pigy_kind;     /**< PIGY_ASN, PIGY_IPV4 or PIGY_IPV6. */

/** The first number of the version of this header. */
#define PIGY_VERSION_MAJOR 0
/** The second number of the version. */
#define PIGY_VERSION_MINOR 2
/** The third number of the version. */
#define PIGY_VERSION_PATCH 0
/** The version as one number, which is made of all three: 2 is 0.0.2, and 1002003 is 1.2.3. */
#define PIGY_VERSION_NUMBER 2000u

/* ---- Statuses ---- */

/** Statuses. The meaning of a released number never changes. PIGY_KIND(status) is the kind of a status, and
 * PIGY_FAULT(status) the number n that is added to it. Each kind is one bit that no other kind has, so
 * PIGY_KIND(status) is PIGY_OK if and only if the status is PIGY_OK. */
PIGY_ENUM {
  PIGY_OK = 0x0,             /**< Success. */
  PIGY_TOO_SMALL = 0x100,    /**< A buffer is too small. The lengths are the required ones. */
  PIGY_MEMORY = 0x200,       /**< Out of memory (see MEMORY above). */
  PIGY_BAD_ARGUMENT = 0x400, /**< An argument is invalid. The number of the reason is added: one of the next nine. */
  PIGY_BAD_ENCODING = 0x401, /**< The encoding is neither PIGY_LENIENT nor PIGY_STRICT. */
  PIGY_BAD_MODE = 0x402,     /**< The mode is neither PIGY_REFUSE nor PIGY_TRIM. */
  PIGY_BAD_PRESENT = 0x403,  /**< The bit mask of the extensions is above PIGY_HAS_BOTH. */
  PIGY_BAD_FAMILY = 0x404,   /**< The family is neither PIGY_IPV4 nor PIGY_IPV6. */
  PIGY_BAD_KIND = 0x405,     /**< The kind is none of PIGY_ASN, PIGY_IPV4 and PIGY_IPV6. */
  PIGY_BAD_PREFIX = 0x406,   /**< The prefix is longer than its family allows, or has host bits set. */
  PIGY_BAD_MAX_LEN = 0x407,  /**< The maximum length is below the prefix length, or is above 32 (IPv4) or 128 (IPv6). */
  PIGY_OUTSIDE = 0x408,      /**< An extension is not in the octets that are passed as `run`. */
  PIGY_NO_HANDLE = 0x409,    /**< A handle is NULL. */
  PIGY_BAD_AS = 0x800,       /**< The AS identifiers are invalid. The number of the first error is added. */
  PIGY_BAD_IP = 0x1000,      /**< The IP address blocks are invalid. The number of the first error is added. */
  PIGY_INHERITED = 0x2000,   /**< A set has "inherit". Only a certificate may have it. */
  PIGY_ABSENT = 0x4000,      /**< The certificate has neither extension. */
  PIGY_OVERCLAIM = 0x8000,   /**< The certificate claims more than its issuer has. A kind of resources is added. */
  PIGY_OVERCLAIM_V4 = 0x8004, /**< Overclaimed IPv4 addresses: PIGY_OVERCLAIM + PIGY_IPV4. */
  PIGY_OVERCLAIM_AS = 0x8005, /**< Overclaimed AS numbers: PIGY_OVERCLAIM + PIGY_ASN. */
  PIGY_OVERCLAIM_V6 = 0x8006, /**< Overclaimed IPv6 addresses: PIGY_OVERCLAIM + PIGY_IPV6. */
  PIGY_BAD_CHANGE = 0x10000, /**< A change is impossible for the table. Its code of RFC 8210, 12 is added. */
  PIGY_UNKNOWN_WITHDRAWAL = 0x10006,     /**< A withdrawn VRP is not in the table, or is listed twice. */
  PIGY_DUPLICATE_ANNOUNCEMENT = 0x10007, /**< An announced VRP is in the table and not withdrawn, or is listed twice. */
  PIGY_BAD_LINE = 0x20000,   /**< A line of CSV, or the text of a VRP, is invalid. The number of its first error is
                              * added. */
  PIGY_BAD_ITEM = 0x40000,   /**< An item of JSON is invalid. The number of its first error is added. */
  PIGY_BAD_FILE = 0x80000,   /**< A file as a whole is invalid. The number of the error is added. */
  PIGY_BAD_TEXT = 0x100000,  /**< The text of a set is invalid. The number of the first error is added. */
  PIGY_BAD_QUERY = 0x200000, /**< The line that is passed to pigy_answer is invalid. */
  PIGY_BAD_SLURM = 0x400000, /**< A SLURM file is invalid, except for its items. The number of the error is added. */
  PIGY_BAD_ROUTE = 0x800000, /**< A line with a route, or the text of a route, is invalid. The number of its first error
                              * is added. */
  /** PIGY_SECOND is added to PIGY_BAD_AS + n, PIGY_BAD_IP + n, PIGY_INHERITED, PIGY_BAD_FAMILY, PIGY_BAD_PREFIX and
   * PIGY_BAD_MAX_LEN, and to no other status. For these six it says which argument has the error:
   *
   *   call                              with PIGY_SECOND        without PIGY_SECOND
   *   the calls that verify             a certificate           the set of the issuer or trust anchor
   *   the calls with two sets of DER    the second set          the first set
   *   pigy_validate                     a route                 a VRP
   *   pigy_table_with_changes           a withdrawn VRP         an announced VRP
   *   the calls with tables and routes  a route
   *
   * No other call adds PIGY_SECOND. So pigy_route_text returns PIGY_BAD_PREFIX for a route, and pigy_table_new returns
   * it for a VRP. */
  PIGY_SECOND = 0x1000000,
  PIGY_BAD_SLURM_ITEM = 0x2000000 /**< An item of a SLURM file is invalid. 64 times the number of its list is added, and
                                   * the number of its first error. */
};

/** PIGY_KIND(status) is the kind of a status, without n and without PIGY_SECOND. Each name above is a kind, except
 * these: the nine names from PIGY_BAD_ENCODING to PIGY_NO_HANDLE, PIGY_OVERCLAIM_V4, PIGY_OVERCLAIM_AS,
 * PIGY_OVERCLAIM_V6, PIGY_UNKNOWN_WITHDRAWAL, PIGY_DUPLICATE_ANNOUNCEMENT and PIGY_SECOND. PIGY_KIND(status) is never
 * one of these. */
#define PIGY_KIND(s) ((uint32_t)(s) & ~(0xffu | (uint32_t)PIGY_SECOND))

/** PIGY_FAULT(status) is n, the number that is added to a kind. It is 0 for a kind that has no such numbers. The
 * statuses PIGY_BAD_ARGUMENT + n, PIGY_OVERCLAIM + n and PIGY_BAD_CHANGE + n have names above.
 *
 * PIGY_BAD_AS + n, PIGY_BAD_IP + n, also with PIGY_SECOND:
 *
 * - 1: The value is truncated.
 * - 2: Another tag is expected.
 * - 3: A length is invalid: it is indefinite, is not in the fewest octets, or has more than eight octets.
 * - 4: An INTEGER is not from 0 to 4294967295, or is not in the fewest octets.
 * - 5: The number of unused bits of a BIT STRING is missing or invalid.
 * - 6: A NULL has content.
 * - 7: Octets follow the value.
 * - 8: A prefix is longer than its family allows.
 * - 9: An address family is neither IPv4 nor IPv6, or has a third octet (SAFI).
 * - 10: The first bound of a range is above the second.
 * - 11: A list has no blocks (RFC 6487, 4.8.10 and 4.8.11).
 * - 12: An address family appears twice.
 * - 13: There is no address family (RFC 6487, 4.8.10).
 * - 14: The encoding is not canonical. Only PIGY_STRICT returns this.
 *
 * PIGY_BAD_LINE + n with n from 1 to 7 or n = 20, PIGY_BAD_ITEM + n with n from 4 to 16 or from 18 to 20. The text of a
 * VRP has no number of fields, so n is 1 or from 4 to 7:
 *
 * - 1: The line is not UTF-8.
 * - 2: The line has more fields than the line that names the columns.
 * - 3: The line has no field in one of the three columns.
 * - 4: The AS number is invalid.
 * - 5: The prefix is invalid.
 * - 6: The maximum length is not a number from 0 to 255.
 * - 7: The maximum length is below the prefix length, or is above 32 (IPv4) or 128 (IPv6).
 * - 8, 9, 10: The member asn is missing, is repeated, or is neither a number nor a string.
 * - 11, 12, 13: The member prefix is missing, is repeated, or is not a string.
 * - 14, 15, 16: The member maxLength is missing, is repeated, or is not a number.
 * - 18, 19: The member expires is repeated, or is not a number. Only pigy_vrps_read_unexpired returns 18 to 20.
 * - 20: The expiry is not a whole number below 2^64.
 *
 * PIGY_BAD_FILE + n:
 *
 * - 1: The file begins with [. An object with the member roas is expected.
 * - 2: The file begins with {, and is not a JSON object in UTF-8, or nests deeper than 128 levels.
 * - 3, 4, 5: The member roas is missing, is repeated, or is not an array.
 * - 6: The file has no VRP.
 * - 7: The first line of CSV is neither blank nor a VRP, and does not name the columns. Its first field is not an AS
 *   number, and its second field is not a prefix.
 *
 * PIGY_BAD_TEXT + n:
 *
 * - 1: The text is not UTF-8.
 * - 2: An element is not an AS number.
 * - 3: An element is not a range of AS numbers, or its first number is above the second.
 * - 4: An address is invalid.
 * - 5: A prefix length is not a number, or is above 32 (IPv4) or 128 (IPv6).
 * - 6: An element is of the other family: it has a colon in a list of IPv4, or a dot and no colon in a list of IPv6.
 * - 7: The first address of a range is above the second.
 *
 * PIGY_BAD_ROUTE + n. For the text of a route n is never 2:
 *
 * - 1: The line is not UTF-8.
 * - 2: The line is of bgpdump -m, and has no field for the prefix or for the path.
 * - 3: The line has no space, and would have a route if its first comma were a space.
 * - 4: The first word is no prefix. It has a tab, or it is an AS number.
 * - 5: The prefix is invalid.
 * - 6: The AS number is invalid.
 *
 * PIGY_BAD_SLURM + n. A member is unknown if RFC 8416 does not define it for its object:
 *
 * - 1: The file is not a JSON object in UTF-8, or nests deeper than 128 levels.
 * - 2: A member of the file's object is unknown.
 * - 3: The member slurmVersion is not 1.
 * - 4, 5: A member of the object validationOutputFilters (4) or locallyAddedAssertions (5) is unknown.
 * - 6, 7, 8: The member slurmVersion is missing, is repeated, or is not a number.
 * - 9, 10, 11: The member validationOutputFilters is missing, is repeated, or is not an object.
 * - 12, 13, 14: The member locallyAddedAssertions is missing, is repeated, or is not an object.
 * - 15, 16, 17: The member prefixFilters is missing, is repeated, or is not an array.
 * - 18, 19, 20: The member bgpsecFilters is missing, is repeated, or is not an array.
 * - 21, 22, 23: The member prefixAssertions is missing, is repeated, or is not an array.
 * - 24, 25, 26: The member bgpsecAssertions is missing, is repeated, or is not an array.
 *
 * PIGY_BAD_SLURM_ITEM + 64 * list + n. PIGY_FAULT(status) / 64 is the list: 0 for prefixFilters, 1 for bgpsecFilters, 2
 * for prefixAssertions, 3 for bgpsecAssertions. PIGY_FAULT(status) % 64 is n:
 *
 * - 1: The item is not an object.
 * - 2: A member of the item is unknown.
 * - 3: The prefix is invalid.
 * - 4: The AS number is invalid.
 * - 5: The maximum length is not a number from 0 to 255.
 * - 6: The maximum length is below the prefix length, or is above 32 (IPv4) or 128 (IPv6).
 * - 7: The item has neither of the two members of which a filter needs one: prefix and asn in prefixFilters, asn and
 *   SKI in bgpsecFilters.
 * - 8, 9, 10: The member prefix is missing, is repeated, or is not a string.
 * - 11, 12, 13: The member asn is missing, is repeated, or is not a number.
 * - 15, 16: The member maxPrefixLength is repeated, or is not a number.
 * - 17, 18, 19: The member SKI is missing, is repeated, or is not a string.
 * - 20, 21, 22: The member routerPublicKey is missing, is repeated, or is not a string.
 * - 24, 25: The member comment is repeated, or is not a string. */
#define PIGY_FAULT(s) ((uint32_t)(s) & 0xffu)

/* ---- Numbers of arguments and results ----
 *
 * No two of the numbers of `present`, encodings, modes, families and kinds are equal, except that a family is a kind
 * too. None of them is 0, except `present` for neither extension. So a call refuses two of them that are exchanged, and
 * a struct whose members are 0. */

/** The extensions that a certificate has, as a bit mask: one of these numbers, or 0 if it has neither. */
PIGY_ENUM { PIGY_HAS_AS = 1, PIGY_HAS_IP = 2, PIGY_HAS_BOTH = 3 };

/** Address families. AF_INET, AF_INET6 and the numbers 1 and 2 of RFC 3779, 2.2.3.3 are refused. */
PIGY_ENUM { PIGY_IPV4 = 4, PIGY_IPV6 = 6 };

/** A kind of resources is PIGY_ASN, PIGY_IPV4 or PIGY_IPV6. */
PIGY_ENUM { PIGY_ASN = 5 };

/** Encodings. PIGY_STRICT accepts canonical DER only (RFC 3779, 2.2.3.3, 2.2.3.6, 2.2.3.7, 2.2.3.9 and 3.2.3.4).
 * PIGY_LENIENT also accepts these other encodings of the same resources:
 *
 * - Blocks are not in ascending order, overlap or touch.
 * - A range of addresses is a prefix, such as 10.0.0.0-10.255.255.255.
 * - A range of AS numbers has one number, which RFC 3779 allows and PIGY_STRICT refuses.
 * - The bounds of a range have more bits than necessary, or unused bits of a BIT STRING are not 0.
 * - IPv6 is before IPv4.
 *
 * The encoding applies to all DER of a call, also to the issuer's. PIGY_STRICT accepts each set that a call wrote. Both
 * encodings refuse indefinite lengths, a SAFI and routing domain identifiers (RDI). RFC 6487 excludes the last two
 * (4.8.10 and 4.8.11). */
PIGY_ENUM { PIGY_LENIENT = 16, PIGY_STRICT = 17 };

/** Modes, for a certificate that claims more than its issuer has. PIGY_REFUSE refuses the certificate (RFC 6487, 7.2).
 * PIGY_TRIM reduces the claim to the resources that the issuer has (RFC 8360, 4). It is for certificates with the
 * policy id-cp-ipAddr-asNumber-v2, whose extensions have the OIDs of RFC 8360, 4.2. With PIGY_TRIM no call returns
 * the removed resources. docs/C.md, "All overclaimed resources", says how to get them. */
PIGY_ENUM { PIGY_REFUSE = 32, PIGY_TRIM = 33 };

/** Validity of a route (RFC 6811, 2), with the numbers of RFC 8097, 2. The number of PIGY_VALID is 0, so compare with
 * the names. */
PIGY_ENUM {
  PIGY_VALID = 0,         /**< At least one VRP matches the route. */
  PIGY_NOT_FOUND = 1,     /**< No VRP covers the route. */
  PIGY_INVALID = 2,       /**< At least one VRP covers the route, and none matches it. */
  PIGY_NO_VALIDITY = 0xff /**< There is no validity, since the call failed. */
};

/** The reason why a route is invalid. It is 0 for any other validity. */
PIGY_ENUM {
  PIGY_INVALID_AS = 1,    /**< No VRP that covers the route has its AS, or that AS is AS 0. */
  PIGY_INVALID_LENGTH = 2 /**< A VRP that covers the route has its AS. The route is longer than the VRP allows. */
};

/** The reason why a VRP that covers a route does not match it: a bit mask. If it is 0, the VRP matches. */
PIGY_ENUM {
  PIGY_OTHER_AS = 1, /**< The AS of the VRP is not the route's, or is AS 0. */
  PIGY_TOO_LONG = 2  /**< The route's prefix is longer than the maximum length of the VRP. */
};

/** The capacity in octets that always suffices for the text of a VRP, with the NUL after it. */
#define PIGY_VRP_TEXT_MAX 62u
/** The capacity in octets that always suffices for the text of a route, with the NUL after it. */
#define PIGY_ROUTE_TEXT_MAX 58u

/* ---- Structs and handles ---- */

/** A resource set as DER, or the extensions of a certificate. A pointer that is NULL means length 0. */
typedef struct {
  /** AS identifiers: DER. Owned by the caller. May be NULL. */
  const uint8_t *as;
  /** Length in octets. Ignored if `as` is NULL. */
  size_t as_len;
  /** IP address blocks: DER. Owned by the caller. May be NULL. */
  const uint8_t *ip;
  /** Length in octets. Ignored if `ip` is NULL. */
  size_t ip_len;
} pigy_set;

/** The buffers that receive a set as DER. A buffer that is NULL means capacity 0. */
typedef struct {
  /** Buffer for AS identifiers. Owned by the caller. May be NULL. */
  uint8_t *as;
  /** Capacity of this buffer, in octets. Ignored if `as` is NULL. */
  size_t as_capacity;
  /** The call stores the length here, written or required. */
  size_t as_len;
  /** Buffer for IP address blocks. Owned by the caller. May be NULL. */
  uint8_t *ip;
  /** Capacity of this buffer, in octets. Ignored if `ip` is NULL. */
  size_t ip_capacity;
  /** The call stores the length here, written or required. */
  size_t ip_len;
} pigy_buffers;

/** A certificate of a path, as pigy_verify_path takes it. Its extensions are ranges of `run`, a parameter of that call.
 *
 * Both ranges lie in `run`, also the range of an absent extension. An absent extension may have start 0 and
 * length 0. */
typedef struct {
  /** Index of the first octet of the AS identifiers in `run`, from 0. */
  size_t as_start;
  /** Length of the AS identifiers in octets. */
  size_t as_len;
  /** Index of the first octet of the IP address blocks in `run`, from 0. */
  size_t ip_start;
  /** Length of the IP address blocks in octets. */
  size_t ip_len;
  /** Extensions of the certificate: PIGY_HAS_AS, PIGY_HAS_IP, PIGY_HAS_BOTH or 0. */
  pigy_present present;
  /** PIGY_REFUSE or PIGY_TRIM. */
  pigy_mode mode;
} pigy_certificate;

/** A range of AS numbers, in host byte order. */
typedef struct {
  /** The least number. */
  uint32_t min;
  /** The greatest number. It may be equal to the least one. */
  uint32_t max;
} pigy_as_range;

/** A range of addresses of one family, in network byte order. An IPv4 address is in the first 4 octets, and the other
 * 12 are 0. */
typedef struct {
  /** The lowest address. */
  uint8_t min[16];
  /** The highest address. It may be equal to the lowest one. */
  uint8_t max[16];
} pigy_ip_range;

/** A prefix. */
typedef struct {
  /** Address, in network byte order. An IPv4 address is in the first 4 octets. The other 12 are not read, and are 0 in
   * a prefix that a call writes. */
  uint8_t address[16];
  /** PIGY_IPV4 or PIGY_IPV6. */
  uint8_t family;
  /** Length in bits. The bits of the address after it are 0. */
  uint8_t len;
} pigy_prefix;

/** A VRP (validated ROA payload): a prefix, its maximum length, and the AS that may originate it.
 *
 * Compare two VRPs by their members, and not by memcmp. The struct has padding, and 12 octets of an IPv4 address are
 * not read. */
typedef struct {
  /** Address of the prefix, in network byte order. An IPv4 address is in the first 4 octets. The other 12 are not read,
   * and are 0 in a VRP that a call writes. */
  uint8_t address[16];
  /** AS number, in host byte order. */
  uint32_t asn;
  /** PIGY_IPV4 or PIGY_IPV6. */
  uint8_t family;
  /** Length of the prefix in bits. The bits of the address after it are 0. */
  uint8_t len;
  /** Maximum length (maxLength) in bits: from len to 32 for IPv4, and to 128 for IPv6. */
  uint8_t max_len;
} pigy_vrp;

/** A route: a prefix, and the AS that originates it. */
typedef struct {
  /** Address of the prefix, as in a VRP. */
  uint8_t address[16];
  /** AS number, in host byte order. Use AS 0 if the path of the route ends in an AS_SET. RFC 6811, 2 calls the origin
   * of such a route "NONE". No VRP matches AS 0. If the path is empty, or ends in a confederation segment, use the
   * router's own AS. */
  uint32_t asn;
  /** PIGY_IPV4 or PIGY_IPV6. */
  uint8_t family;
  /** Length of the prefix in bits, as in a VRP. */
  uint8_t len;
} pigy_route;

/** A VRP of a table that covers a route. */
typedef struct {
  /** The VRP. */
  pigy_vrp vrp;
  /** A bit mask of PIGY_OTHER_AS and PIGY_TOO_LONG, which say why the VRP does not match the route. If it is 0, the VRP
   * matches. */
  uint32_t mismatch;
} pigy_covering;

/** A set of resources. The caller owns it until pigy_resources_free. */
typedef struct pigy_resources pigy_resources;

/** A table of VRPs. The caller owns it until pigy_table_free. */
typedef struct pigy_table pigy_table;

/** The compiler checks the layouts. */
#define PIGY_LAYOUT(name, is) typedef char pigy_layout_##name[(is) ? 1 : -1]
PIGY_LAYOUT(set, sizeof(pigy_set) == 4 * sizeof(size_t));
PIGY_LAYOUT(set_ip, offsetof(pigy_set, ip) == 2 * sizeof(size_t));
PIGY_LAYOUT(buffers, sizeof(pigy_buffers) == 6 * sizeof(size_t));
PIGY_LAYOUT(buffers_ip, offsetof(pigy_buffers, ip) == 3 * sizeof(size_t));
PIGY_LAYOUT(certificate, sizeof(pigy_certificate) == 4 * sizeof(size_t) + 8);
PIGY_LAYOUT(certificate_present, offsetof(pigy_certificate, present) == 4 * sizeof(size_t));
PIGY_LAYOUT(certificate_mode, offsetof(pigy_certificate, mode) == 4 * sizeof(size_t) + 4);
PIGY_LAYOUT(as_range, sizeof(pigy_as_range) == 8 && offsetof(pigy_as_range, max) == 4);
PIGY_LAYOUT(ip_range, sizeof(pigy_ip_range) == 32 && offsetof(pigy_ip_range, max) == 16);
PIGY_LAYOUT(prefix, sizeof(pigy_prefix) == 18 && offsetof(pigy_prefix, family) == 16);
PIGY_LAYOUT(prefix_len, offsetof(pigy_prefix, len) == 17);
PIGY_LAYOUT(vrp, sizeof(pigy_vrp) == 24 && offsetof(pigy_vrp, asn) == 16);
PIGY_LAYOUT(vrp_family, offsetof(pigy_vrp, family) == 20);
PIGY_LAYOUT(vrp_len, offsetof(pigy_vrp, len) == 21);
PIGY_LAYOUT(vrp_max_len, offsetof(pigy_vrp, max_len) == 22);
PIGY_LAYOUT(route, sizeof(pigy_route) == 24 && offsetof(pigy_route, asn) == 16);
PIGY_LAYOUT(route_family, offsetof(pigy_route, family) == 20);
PIGY_LAYOUT(route_len, offsetof(pigy_route, len) == 21);
PIGY_LAYOUT(covering, sizeof(pigy_covering) == 28 && offsetof(pigy_covering, mismatch) == 24);

/* ---- Version and texts of statuses ---- */

/**
 * Returns the version of the linked library.
 *
 * @return the PIGY_VERSION_NUMBER of the library's own header. If it is at least PIGY_VERSION_NUMBER, the library has
 * all calls of this header.
 */
uint32_t pigy_version(void);

/**
 * Returns the English text of a status. This call is not proved. Until version 1.0 texts can change.
 *
 * @param status  Any number. For a number that is not a status the text is "unknown status".
 *
 * @return a text that is never NULL, and is valid as long as the library is loaded.
 */
const char *pigy_status_text(pigy_status status);

/* ---- Handles of sets ---- */

/**
 * Reads a set from DER. The handle keeps the set, so that no later call reads the DER again.
 *
 * pigy_resources_verify reads the extensions of a certificate. This call reads those of a trust anchor, or the verified
 * resources of an issuer.
 *
 * @param set       The set as DER. Members may be NULL.
 * @param encoding  PIGY_LENIENT or PIGY_STRICT.
 * @param out       Receives the handle; NULL with an error. Its old value is not read. Not NULL.
 *
 * @return the first of these that applies:
 *   1. PIGY_BAD_ENCODING.
 *   2. PIGY_BAD_AS + n, PIGY_BAD_IP + n, PIGY_INHERITED.
 *   3. PIGY_OK.
 */
pigy_status pigy_resources_read(pigy_set set, pigy_encoding encoding, pigy_resources **out)
    PIGY_NODISCARD PIGY_NONNULL(3);

/**
 * Makes a set from its text: a list of AS numbers, of IPv4 addresses or of IPv6 addresses. pigy_set_from_text describes
 * the text.
 *
 * @param text      The list, in UTF-8. May be NULL if the length is 0.
 * @param text_len  Length in octets; may be 0.
 * @param kind      PIGY_ASN, PIGY_IPV4 or PIGY_IPV6.
 * @param out       Receives the handle; NULL with an error. Its old value is not read. Not NULL.
 *
 * @return the first of these that applies:
 *   1. PIGY_BAD_KIND.
 *   2. PIGY_BAD_TEXT + 1: the text is not UTF-8.
 *   3. PIGY_BAD_TEXT + n: the first invalid element.
 *   4. PIGY_OK.
 */
pigy_status pigy_resources_from_text(const char *text, size_t text_len, pigy_kind kind, pigy_resources **out)
    PIGY_NODISCARD PIGY_NONNULL(4);

/**
 * Frees a set. The handle is invalid afterwards.
 *
 * @param resources  The set. All other calls with this handle have returned. If it is NULL, the call does nothing.
 */
void pigy_resources_free(pigy_resources *resources);

/**
 * Verifies the resources of a certificate against those of its issuer, as pigy_verify does. The issuer's set is a
 * handle, so only the certificate is read.
 *
 * @param issuer    Issuer's set, which is only read. The status is PIGY_NO_HANDLE if it is NULL.
 * @param cert      The certificate's extensions: DER. A member of an absent extension is not read.
 * @param present   Extensions of the certificate: PIGY_HAS_AS, PIGY_HAS_IP, PIGY_HAS_BOTH or 0.
 * @param encoding  PIGY_LENIENT or PIGY_STRICT, for the certificate.
 * @param mode      PIGY_REFUSE or PIGY_TRIM.
 * @param out       Receives the handle of the verified resources; NULL with any status except PIGY_OK. Not NULL.
 * @param excess    Receives the handle of overclaimed resources; NULL with any status except the three of
 *                  PIGY_OVERCLAIM. Not NULL.
 *
 * @return the first of these that applies:
 *   1. PIGY_NO_HANDLE.
 *   2. PIGY_BAD_ENCODING, PIGY_BAD_PRESENT, PIGY_BAD_MODE.
 *   3. PIGY_ABSENT.
 *   4. PIGY_SECOND + PIGY_BAD_AS + n, PIGY_SECOND + PIGY_BAD_IP + n: the certificate's extensions.
 *   5. PIGY_OVERCLAIM_AS, PIGY_OVERCLAIM_V4, PIGY_OVERCLAIM_V6, with PIGY_REFUSE only. `excess` is exactly the
 *      overclaimed resources of that kind, as a set.
 *   6. PIGY_OK.
 */
pigy_status pigy_resources_verify(const pigy_resources *issuer, pigy_set cert, pigy_present present,
                                  pigy_encoding encoding, pigy_mode mode, pigy_resources **out, pigy_resources **excess)
    PIGY_NODISCARD PIGY_NONNULL(6, 7);

/**
 * Verifies the resources of certificates on a path, from a trust anchor down, as pigy_verify_path does. The anchor's
 * set is a handle.
 *
 * @param anchor        Trust anchor's set, which is only read. The status is PIGY_NO_HANDLE if it is NULL.
 * @param run           Octets of the extensions of all certificates: DER. May be NULL if the length is 0.
 * @param run_len       Length in octets.
 * @param certificates  The certificates, the anchor's child first; there may be none. May be NULL if the count is 0.
 * @param count         Number of certificates.
 * @param encoding      PIGY_LENIENT or PIGY_STRICT, for all certificates.
 * @param out           Receives the handle of the verified resources of the last certificate; NULL with any status
 *                      except PIGY_OK. Not NULL.
 * @param excess        Receives the handle of overclaimed resources; NULL with any status except the three of
 *                      PIGY_OVERCLAIM. Not NULL.
 * @param verified      Receives the number of verified certificates. Not NULL.
 *
 * @return the first of these that applies:
 *   1. PIGY_NO_HANDLE, PIGY_BAD_ENCODING. *verified is 0.
 *   2. For each certificate in turn, the first of these. *verified is the index of this certificate, from 0.
 *      - PIGY_OUTSIDE, PIGY_BAD_PRESENT, PIGY_BAD_MODE.
 *      - PIGY_ABSENT.
 *      - PIGY_SECOND + PIGY_BAD_AS + n, PIGY_SECOND + PIGY_BAD_IP + n: the certificate's extensions.
 *      - PIGY_OVERCLAIM_AS, PIGY_OVERCLAIM_V4, PIGY_OVERCLAIM_V6, with PIGY_REFUSE only. `excess` is exactly the
 *        overclaimed resources of that kind, as a set.
 *   3. PIGY_OK. *verified is `count`.
 *
 * With PIGY_MEMORY *verified is 0.
 */
pigy_status pigy_resources_verify_path(const pigy_resources *anchor, const uint8_t *run, size_t run_len,
                                       const pigy_certificate *certificates, size_t count, pigy_encoding encoding,
                                       pigy_resources **out, pigy_resources **excess, size_t *verified)
    PIGY_NODISCARD PIGY_NONNULL(7, 8, 9);

/**
 * Computes the union of two sets: the resources that the first or the second set has.
 *
 * @param a    First set, which is only read. The status is PIGY_NO_HANDLE if it is NULL.
 * @param b    Second set, which is only read. The status is PIGY_NO_HANDLE if it is NULL. May be `a`.
 * @param out  Receives the handle of the result; NULL with an error. Not NULL.
 *
 * @return the first of these that applies:
 *   1. PIGY_NO_HANDLE.
 *   2. PIGY_OK.
 */
pigy_status pigy_resources_union(const pigy_resources *a, const pigy_resources *b, pigy_resources **out)
    PIGY_NODISCARD PIGY_NONNULL(3);

/**
 * Computes the intersection of two sets: the resources that both sets have.
 *
 * @param a    First set, which is only read. The status is PIGY_NO_HANDLE if it is NULL.
 * @param b    Second set, which is only read. The status is PIGY_NO_HANDLE if it is NULL. May be `a`.
 * @param out  Receives the handle of the result; NULL with an error. Not NULL.
 *
 * @return the first of these that applies:
 *   1. PIGY_NO_HANDLE.
 *   2. PIGY_OK.
 */
pigy_status pigy_resources_intersection(const pigy_resources *a, const pigy_resources *b, pigy_resources **out)
    PIGY_NODISCARD PIGY_NONNULL(3);

/**
 * Computes the difference of two sets: the resources that the first set has and the second does not.
 *
 * @param a    First set, which is only read. The status is PIGY_NO_HANDLE if it is NULL.
 * @param b    Second set, which is only read. The status is PIGY_NO_HANDLE if it is NULL. May be `a`.
 * @param out  Receives the handle of the result; NULL with an error. Not NULL.
 *
 * @return the first of these that applies:
 *   1. PIGY_NO_HANDLE.
 *   2. PIGY_OK.
 */
pigy_status pigy_resources_difference(const pigy_resources *a, const pigy_resources *b, pigy_resources **out)
    PIGY_NODISCARD PIGY_NONNULL(3);

/**
 * Computes the symmetric difference of two sets: the resources that exactly one of them has.
 *
 * @param a    First set, which is only read. The status is PIGY_NO_HANDLE if it is NULL.
 * @param b    Second set, which is only read. The status is PIGY_NO_HANDLE if it is NULL. May be `a`.
 * @param out  Receives the handle of the result; NULL with an error. Not NULL.
 *
 * @return the first of these that applies:
 *   1. PIGY_NO_HANDLE.
 *   2. PIGY_OK.
 */
pigy_status pigy_resources_symmetric_difference(const pigy_resources *a, const pigy_resources *b, pigy_resources **out)
    PIGY_NODISCARD PIGY_NONNULL(3);

/**
 * Tests whether the first set has each AS number and each address of the second.
 *
 * @param a       First set, which is only read. The status is PIGY_NO_HANDLE if it is NULL.
 * @param b       Second set, which is only read. The status is PIGY_NO_HANDLE if it is NULL. May be `a`.
 * @param answer  Receives 1 for yes and 0 for no; 0 with an error. Not NULL.
 *
 * @return the first of these that applies:
 *   1. PIGY_NO_HANDLE.
 *   2. PIGY_OK.
 */
pigy_status pigy_resources_contains(const pigy_resources *a, const pigy_resources *b, uint8_t *answer)
    PIGY_NODISCARD PIGY_NONNULL(3);

/**
 * Tests whether a set has an AS number.
 *
 * @param resources  The set, which is only read. The status is PIGY_NO_HANDLE if it is NULL.
 * @param asn        AS number, in host byte order.
 * @param answer     Receives 1 for yes and 0 for no; 0 with an error. Not NULL.
 *
 * @return the first of these that applies:
 *   1. PIGY_NO_HANDLE.
 *   2. PIGY_OK.
 */
pigy_status pigy_resources_contains_asn(const pigy_resources *resources, uint32_t asn, uint8_t *answer)
    PIGY_NODISCARD PIGY_NONNULL(3);

/**
 * Tests whether a set has each address of a prefix.
 *
 * For a ROA make the call for each of its prefixes (RFC 9582, 5).
 *
 * @param resources  The set, which is only read. The status is PIGY_NO_HANDLE if it is NULL.
 * @param prefix     One prefix. Not NULL.
 * @param answer     Receives 1 for yes and 0 for no; 0 with an error. Not NULL.
 *
 * @return the first of these that applies:
 *   1. PIGY_NO_HANDLE.
 *   2. PIGY_BAD_FAMILY, PIGY_BAD_PREFIX.
 *   3. PIGY_OK.
 */
pigy_status pigy_resources_contains_prefix(const pigy_resources *resources, const pigy_prefix *prefix, uint8_t *answer)
    PIGY_NODISCARD PIGY_NONNULL(2, 3);

/**
 * Tests whether both sets have the same AS numbers and the same addresses.
 *
 * @param a       First set, which is only read. The status is PIGY_NO_HANDLE if it is NULL.
 * @param b       Second set, which is only read. The status is PIGY_NO_HANDLE if it is NULL. May be `a`.
 * @param answer  Receives 1 for yes and 0 for no; 0 with an error. Not NULL.
 *
 * @return the first of these that applies:
 *   1. PIGY_NO_HANDLE.
 *   2. PIGY_OK.
 */
pigy_status pigy_resources_equal(const pigy_resources *a, const pigy_resources *b, uint8_t *answer)
    PIGY_NODISCARD PIGY_NONNULL(3);

/**
 * Lists the fewest prefixes that have exactly the addresses of one family of a set, in ascending order.
 *
 * @param resources  The set, which is only read. The status is PIGY_NO_HANDLE if it is NULL.
 * @param family     PIGY_IPV4 or PIGY_IPV6.
 * @param out        Buffer for the prefixes. Owned by the caller. May be NULL if the capacity is 0.
 * @param capacity   Capacity of `out` in prefixes, not in octets; may be 0.
 * @param len        Receives the number of prefixes, written or required. Not NULL.
 *
 * @return the first of these that applies:
 *   1. PIGY_NO_HANDLE.
 *   2. PIGY_BAD_FAMILY.
 *   3. PIGY_TOO_SMALL, then PIGY_OK.
 */
pigy_status pigy_resources_prefixes(const pigy_resources *resources, pigy_family family, pigy_prefix *out,
                                    size_t capacity, size_t *len) PIGY_NODISCARD PIGY_NONNULL(5);

/**
 * Lists the ranges of the AS numbers of a set, in ascending order. Ranges neither overlap nor touch.
 *
 * @param resources  The set, which is only read. The status is PIGY_NO_HANDLE if it is NULL.
 * @param out        Buffer for the ranges. Owned by the caller. May be NULL if the capacity is 0.
 * @param capacity   Capacity of `out` in ranges, not in octets; may be 0.
 * @param len        Receives the number of ranges, written or required. Not NULL.
 *
 * @return the first of these that applies:
 *   1. PIGY_NO_HANDLE.
 *   2. PIGY_TOO_SMALL, then PIGY_OK.
 */
pigy_status pigy_resources_as_ranges(const pigy_resources *resources, pigy_as_range *out, size_t capacity, size_t *len)
    PIGY_NODISCARD PIGY_NONNULL(4);

/**
 * Lists the ranges of the addresses of one family of a set, in ascending order. Ranges neither overlap nor touch.
 *
 * @param resources  The set, which is only read. The status is PIGY_NO_HANDLE if it is NULL.
 * @param family     PIGY_IPV4 or PIGY_IPV6.
 * @param out        Buffer for the ranges. Owned by the caller. May be NULL if the capacity is 0.
 * @param capacity   Capacity of `out` in ranges, not in octets; may be 0.
 * @param len        Receives the number of ranges, written or required. Not NULL.
 *
 * @return the first of these that applies:
 *   1. PIGY_NO_HANDLE.
 *   2. PIGY_BAD_FAMILY.
 *   3. PIGY_TOO_SMALL, then PIGY_OK.
 */
pigy_status pigy_resources_ip_ranges(const pigy_resources *resources, pigy_family family, pigy_ip_range *out,
                                     size_t capacity, size_t *len) PIGY_NODISCARD PIGY_NONNULL(5);

/**
 * Writes a set as canonical DER.
 *
 * @param resources  The set, which is only read. The status is PIGY_NO_HANDLE if it is NULL.
 * @param out        Buffers for the result, and the lengths that the call stores. Buffers in it may be NULL. Not NULL.
 *
 * @return the first of these that applies:
 *   1. PIGY_NO_HANDLE.
 *   2. PIGY_TOO_SMALL, then PIGY_OK.
 */
pigy_status pigy_resources_der(const pigy_resources *resources, pigy_buffers *out) PIGY_NODISCARD PIGY_NONNULL(2);

/**
 * Writes the text of one kind of resources of a set. pigy_resources_from_text reads this text as the same resources.
 *
 * Commas and spaces separate the elements: AS64496, AS64500-AS64511. An element of addresses is an address, a prefix or
 * a range, in this order if possible: 192.0.2.7, 10.0.0.0/8, 10.0.0.1-10.0.0.9. The text of no resources is empty.
 *
 * @param resources  The set, which is only read. The status is PIGY_NO_HANDLE if it is NULL.
 * @param kind       PIGY_ASN, PIGY_IPV4 or PIGY_IPV6.
 * @param out        Buffer for the text. Owned by the caller. May be NULL if the capacity is 0.
 * @param capacity   Capacity of `out` in octets; may be 0.
 * @param len        Receives the length in octets, written or required. Not NULL.
 *
 * @return the first of these that applies:
 *   1. PIGY_NO_HANDLE.
 *   2. PIGY_BAD_KIND.
 *   3. PIGY_TOO_SMALL, then PIGY_OK.
 */
pigy_status pigy_resources_text(const pigy_resources *resources, pigy_kind kind, char *out, size_t capacity,
                                size_t *len) PIGY_NODISCARD PIGY_NONNULL(5);

/* ---- Sets and certificates as DER ---- */

/**
 * Verifies the resources of a certificate against those of its issuer. For many certificates of one issuer use
 * pigy_resources_verify.
 *
 * The issuer's set is the verified resources of the issuer: `out` of this call for the issuer's certificate, if the
 * status was PIGY_OK. If the issuer is a trust anchor, pass the extensions of its certificate instead.
 *
 * `out` receives the verified resources of the certificate, as a set. For AS numbers, IPv4 and IPv6 each, the result
 * depends on the claim of the certificate:
 *
 * - The extension or the address family is absent: no resources.
 * - The claim is "inherit": all resources of the issuer.
 * - The claim is a list: the resources that both the list and the issuer have.
 *
 * @param issuer    Issuer's set. Members may be NULL.
 * @param cert      The certificate's extensions: DER. A member of an absent extension is not read.
 * @param present   Extensions of the certificate: PIGY_HAS_AS, PIGY_HAS_IP, PIGY_HAS_BOTH or 0.
 * @param encoding  PIGY_LENIENT or PIGY_STRICT, for the certificate and for the issuer.
 * @param mode      PIGY_REFUSE or PIGY_TRIM.
 * @param out       Buffers for the result, and the lengths that the call stores. Buffers in it may be NULL. Not NULL.
 * @param excess    Buffers for overclaimed resources, and the lengths that the call stores. Buffers in it may be NULL.
 *                  Not NULL.
 *
 * @return the first of these that applies:
 *   1. PIGY_BAD_ENCODING, PIGY_BAD_PRESENT, PIGY_BAD_MODE.
 *   2. PIGY_BAD_AS + n, PIGY_BAD_IP + n, PIGY_INHERITED: the issuer's set.
 *   3. PIGY_ABSENT.
 *   4. PIGY_SECOND + PIGY_BAD_AS + n, PIGY_SECOND + PIGY_BAD_IP + n: the certificate's extensions.
 *   5. PIGY_OVERCLAIM_AS, PIGY_OVERCLAIM_V4, PIGY_OVERCLAIM_V6, with PIGY_REFUSE only. `excess` receives exactly the
 *      overclaimed resources of that kind, as a set. If these do not fit, the status is PIGY_TOO_SMALL.
 *   6. PIGY_TOO_SMALL, then PIGY_OK.
 *
 * With PIGY_TOO_SMALL either `out` or `excess` is too small. Its lengths are the required ones, and those of the other
 * are 0.
 */
pigy_status pigy_verify(pigy_set issuer, pigy_set cert, pigy_present present, pigy_encoding encoding, pigy_mode mode,
                        pigy_buffers *out, pigy_buffers *excess) PIGY_NODISCARD PIGY_NONNULL(6, 7);

/**
 * Verifies the resources of certificates on a path, from a trust anchor down.
 *
 * The claim of the first certificate is compared with the anchor's set. The claim of each later certificate is compared
 * with the verified resources of the certificate before it. `out` receives the verified resources of the last
 * certificate, as a set. If there are no certificates, `out` receives the anchor's set.
 *
 * @param anchor        Trust anchor's set. Members may be NULL.
 * @param run           Octets of the extensions of all certificates: DER. May be NULL if the length is 0.
 * @param run_len       Length in octets.
 * @param certificates  The certificates, the anchor's child first; there may be none. May be NULL if the count is 0.
 * @param count         Number of certificates.
 * @param encoding      PIGY_LENIENT or PIGY_STRICT, for all certificates and for the anchor.
 * @param out           Buffers for the result, and the lengths that the call stores. Buffers in it may be NULL. Not
 *                      NULL.
 * @param excess        Buffers for overclaimed resources, and the lengths that the call stores. Buffers in it may be
 *                      NULL. Not NULL.
 * @param verified      Receives the number of verified certificates. Not NULL.
 *
 * @return the first of these that applies:
 *   1. PIGY_BAD_ENCODING. *verified is 0.
 *   2. PIGY_BAD_AS + n, PIGY_BAD_IP + n, PIGY_INHERITED: the anchor's set. *verified is 0.
 *   3. For each certificate in turn, the first of these. *verified is the index of this certificate, from 0.
 *      - PIGY_OUTSIDE, PIGY_BAD_PRESENT, PIGY_BAD_MODE.
 *      - PIGY_ABSENT.
 *      - PIGY_SECOND + PIGY_BAD_AS + n, PIGY_SECOND + PIGY_BAD_IP + n: the certificate's extensions.
 *      - PIGY_OVERCLAIM_AS, PIGY_OVERCLAIM_V4, PIGY_OVERCLAIM_V6, with PIGY_REFUSE only. `excess` receives exactly the
 *        overclaimed resources of that kind, as a set. If these do not fit, the status is PIGY_TOO_SMALL.
 *   4. PIGY_TOO_SMALL, then PIGY_OK. *verified is `count`.
 *
 * With PIGY_TOO_SMALL either `out` or `excess` is too small. Its lengths are the required ones, and those of the other
 * are 0.
 * With PIGY_MEMORY *verified is 0.
 */
pigy_status pigy_verify_path(pigy_set anchor, const uint8_t *run, size_t run_len, const pigy_certificate *certificates,
                             size_t count, pigy_encoding encoding, pigy_buffers *out, pigy_buffers *excess,
                             size_t *verified) PIGY_NODISCARD PIGY_NONNULL(7, 8, 9);

/**
 * Computes the union of two sets: the resources that the first or the second set has.
 *
 * @param a         First set: DER. Members may be NULL.
 * @param b         Second set: DER. Members may be NULL.
 * @param encoding  PIGY_LENIENT or PIGY_STRICT, for both sets.
 * @param out       Buffers for the result, and the lengths that the call stores. Buffers in it may be NULL. Not NULL.
 *
 * @return the first of these that applies:
 *   1. PIGY_BAD_ENCODING.
 *   2. PIGY_BAD_AS + n, PIGY_BAD_IP + n, PIGY_INHERITED: the first set.
 *   3. PIGY_SECOND + one of these: the second set.
 *   4. PIGY_TOO_SMALL, then PIGY_OK.
 */
pigy_status pigy_union(pigy_set a, pigy_set b, pigy_encoding encoding, pigy_buffers *out)
    PIGY_NODISCARD PIGY_NONNULL(4);

/**
 * Computes the intersection of two sets: the resources that both sets have.
 *
 * @param a         First set: DER. Members may be NULL.
 * @param b         Second set: DER. Members may be NULL.
 * @param encoding  PIGY_LENIENT or PIGY_STRICT, for both sets.
 * @param out       Buffers for the result, and the lengths that the call stores. Buffers in it may be NULL. Not NULL.
 *
 * @return the first of these that applies:
 *   1. PIGY_BAD_ENCODING.
 *   2. PIGY_BAD_AS + n, PIGY_BAD_IP + n, PIGY_INHERITED: the first set.
 *   3. PIGY_SECOND + one of these: the second set.
 *   4. PIGY_TOO_SMALL, then PIGY_OK.
 */
pigy_status pigy_intersection(pigy_set a, pigy_set b, pigy_encoding encoding, pigy_buffers *out)
    PIGY_NODISCARD PIGY_NONNULL(4);

/**
 * Computes the difference of two sets: the resources that the first set has and the second does not.
 *
 * @param a         First set: DER. Members may be NULL.
 * @param b         Second set: DER. Members may be NULL.
 * @param encoding  PIGY_LENIENT or PIGY_STRICT, for both sets.
 * @param out       Buffers for the result, and the lengths that the call stores. Buffers in it may be NULL. Not NULL.
 *
 * @return the first of these that applies:
 *   1. PIGY_BAD_ENCODING.
 *   2. PIGY_BAD_AS + n, PIGY_BAD_IP + n, PIGY_INHERITED: the first set.
 *   3. PIGY_SECOND + one of these: the second set.
 *   4. PIGY_TOO_SMALL, then PIGY_OK.
 */
pigy_status pigy_difference(pigy_set a, pigy_set b, pigy_encoding encoding, pigy_buffers *out)
    PIGY_NODISCARD PIGY_NONNULL(4);

/**
 * Tests whether the first set has each AS number and each address of the second.
 *
 * @param a         First set: DER. Members may be NULL.
 * @param b         Second set: DER. Members may be NULL.
 * @param encoding  PIGY_LENIENT or PIGY_STRICT, for both sets.
 * @param answer    Receives 1 for yes and 0 for no; 0 with an error. Not NULL.
 *
 * @return the first of these that applies:
 *   1. PIGY_BAD_ENCODING.
 *   2. PIGY_BAD_AS + n, PIGY_BAD_IP + n, PIGY_INHERITED: the first set.
 *   3. PIGY_SECOND + one of these: the second set.
 *   4. PIGY_OK.
 */
pigy_status pigy_contains(pigy_set a, pigy_set b, pigy_encoding encoding, uint8_t *answer)
    PIGY_NODISCARD PIGY_NONNULL(4);

/**
 * Tests whether both sets have the same AS numbers and the same addresses.
 *
 * @param a         First set: DER. Members may be NULL.
 * @param b         Second set: DER. Members may be NULL.
 * @param encoding  PIGY_LENIENT or PIGY_STRICT, for both sets.
 * @param answer    Receives 1 for yes and 0 for no; 0 with an error. Not NULL.
 *
 * @return the first of these that applies:
 *   1. PIGY_BAD_ENCODING.
 *   2. PIGY_BAD_AS + n, PIGY_BAD_IP + n, PIGY_INHERITED: the first set.
 *   3. PIGY_SECOND + one of these: the second set.
 *   4. PIGY_OK.
 */
pigy_status pigy_equal(pigy_set a, pigy_set b, pigy_encoding encoding, uint8_t *answer) PIGY_NODISCARD PIGY_NONNULL(4);

/**
 * Lists the fewest prefixes that have exactly the addresses of one family in IP address blocks, in ascending order.
 *
 * @param ip        IP address blocks: DER. May be NULL if the length is 0.
 * @param ip_len    Length in octets; may be 0.
 * @param encoding  PIGY_LENIENT or PIGY_STRICT.
 * @param family    PIGY_IPV4 or PIGY_IPV6.
 * @param out       Buffer for the prefixes. Owned by the caller. May be NULL if the capacity is 0.
 * @param capacity  Capacity of `out` in prefixes, not in octets; may be 0.
 * @param len       Receives the number of prefixes, written or required. Not NULL.
 *
 * @return the first of these that applies:
 *   1. PIGY_BAD_ENCODING.
 *   2. PIGY_BAD_FAMILY.
 *   3. PIGY_BAD_IP + n.
 *   4. PIGY_INHERITED: one of the two families has "inherit", also if it is not the requested one.
 *   5. PIGY_TOO_SMALL, then PIGY_OK.
 */
pigy_status pigy_prefixes(const uint8_t *ip, size_t ip_len, pigy_encoding encoding, pigy_family family,
                          pigy_prefix *out, size_t capacity, size_t *len) PIGY_NODISCARD PIGY_NONNULL(7);

/**
 * Lists the ranges of the AS numbers in AS identifiers, in ascending order. Ranges neither overlap nor touch, so the
 * list has as few ranges as possible.
 *
 * @param as        AS identifiers: DER. May be NULL if the length is 0.
 * @param as_len    Length in octets; may be 0.
 * @param encoding  PIGY_LENIENT or PIGY_STRICT.
 * @param out       Buffer for the ranges. Owned by the caller. May be NULL if the capacity is 0.
 * @param capacity  Capacity of `out` in ranges, not in octets; may be 0.
 * @param len       Receives the number of ranges, written or required. Not NULL.
 *
 * @return the first of these that applies:
 *   1. PIGY_BAD_ENCODING.
 *   2. PIGY_BAD_AS + n.
 *   3. PIGY_INHERITED.
 *   4. PIGY_TOO_SMALL, then PIGY_OK.
 */
pigy_status pigy_as_ranges(const uint8_t *as, size_t as_len, pigy_encoding encoding, pigy_as_range *out,
                           size_t capacity, size_t *len) PIGY_NODISCARD PIGY_NONNULL(6);

/**
 * Lists the ranges of the addresses of one family in IP address blocks, in ascending order. Ranges neither overlap nor
 * touch, so the list has as few ranges as possible. pigy_prefixes lists the prefixes.
 *
 * @param ip        IP address blocks: DER. May be NULL if the length is 0.
 * @param ip_len    Length in octets; may be 0.
 * @param encoding  PIGY_LENIENT or PIGY_STRICT.
 * @param family    PIGY_IPV4 or PIGY_IPV6.
 * @param out       Buffer for the ranges. Owned by the caller. May be NULL if the capacity is 0.
 * @param capacity  Capacity of `out` in ranges, not in octets; may be 0.
 * @param len       Receives the number of ranges, written or required. Not NULL.
 *
 * @return the first of these that applies:
 *   1. PIGY_BAD_ENCODING.
 *   2. PIGY_BAD_FAMILY.
 *   3. PIGY_BAD_IP + n.
 *   4. PIGY_INHERITED: one of the two families has "inherit", also if it is not the requested one.
 *   5. PIGY_TOO_SMALL, then PIGY_OK.
 */
pigy_status pigy_ip_ranges(const uint8_t *ip, size_t ip_len, pigy_encoding encoding, pigy_family family,
                           pigy_ip_range *out, size_t capacity, size_t *len) PIGY_NODISCARD PIGY_NONNULL(7);

/**
 * Makes a set from its text: a list of AS numbers, of IPv4 addresses or of IPv6 addresses.
 *
 * Commas separate the elements. White space at the ends of an element is ignored, and so are elements that are empty.
 * Elements may be in any order, overlap or touch. An element of PIGY_ASN is an AS number or a range of these: AS64496,
 * 64496, AS64496-AS64511. The letters AS may be capital or small letters. Any other element is an address, a prefix or
 * a range: 10.0.0.1, 10.0.0.0/8, 10.0.0.1-10.0.0.9. The bits of an address after the length of its prefix are ignored.
 * The program respath reads the same lists.
 *
 * The length of the output of the other kind is 0. pigy_union joins the sets of several texts. Buffers of 8 * text_len
 * + 64 octets always suffice.
 *
 * @param text      The list, in UTF-8. May be NULL if the length is 0.
 * @param text_len  Length in octets; may be 0.
 * @param kind      PIGY_ASN, PIGY_IPV4 or PIGY_IPV6.
 * @param out       Buffers for the result, and the lengths that the call stores. Buffers in it may be NULL. Not NULL.
 *
 * @return the first of these that applies:
 *   1. PIGY_BAD_KIND.
 *   2. PIGY_BAD_TEXT + 1: the text is not UTF-8.
 *   3. PIGY_BAD_TEXT + n: the first invalid element.
 *   4. PIGY_TOO_SMALL, then PIGY_OK.
 */
pigy_status pigy_set_from_text(const char *text, size_t text_len, pigy_kind kind, pigy_buffers *out)
    PIGY_NODISCARD PIGY_NONNULL(4);

/* ---- Route origins ---- */

/**
 * Validates routes by VRPs: one octet for each route, PIGY_VALID, PIGY_NOT_FOUND or PIGY_INVALID (RFC 6811, 2).
 *
 * Each call makes a table of the VRPs once. Pass many routes to one call, or use pigy_table_new.
 *
 * @param vrps       VRPs, in any order. May be NULL if the count is 0.
 * @param vrp_count  Number of VRPs.
 * @param routes     Routes. May be NULL if the count is 0.
 * @param count      Number of routes.
 * @param out        Buffer for one octet a route, in the order of the routes. Owned by the caller. May be NULL if the
 *                   capacity is 0.
 * @param capacity   Capacity of `out` in octets; may be 0. The count of the routes always suffices.
 * @param len        Receives the length in octets, written or required. Not NULL.
 * @param index      Receives the index of the first invalid VRP or route, from 0; else 0. Not NULL.
 *
 * @return the first of these that applies:
 *   1. PIGY_BAD_FAMILY, PIGY_BAD_PREFIX, PIGY_BAD_MAX_LEN: the first invalid VRP.
 *   2. PIGY_SECOND + PIGY_BAD_FAMILY, PIGY_SECOND + PIGY_BAD_PREFIX: the first invalid route.
 *   3. PIGY_TOO_SMALL, then PIGY_OK.
 */
pigy_status pigy_validate(const pigy_vrp *vrps, size_t vrp_count, const pigy_route *routes, size_t count, uint8_t *out,
                          size_t capacity, size_t *len, size_t *index) PIGY_NODISCARD PIGY_NONNULL(7, 8);

/**
 * Reads the VRPs of a validator's file, as rpki-client, FORT and Routinator write it. They are in the order of the
 * file.
 *
 * The first character that is not ASCII white space decides how the file is read. If it is {, the file is JSON (RFC
 * 8259). Its VRPs are the items of the member roas, an array. An item is an object with the members asn (a number or a
 * string), prefix (a string) and maxLength (a number), each exactly once. Other members are ignored.
 *
 * If this character is [, the file is invalid. Any other file is CSV:
 *
 * - A line is blank, names the columns, or is a VRP: an AS number, a prefix and a maximum length.
 * - The names of a line hold for the lines after it. Before any names, a VRP is the first three fields of its line.
 * - The names are ASN; IP Prefix or Prefix; Max Length or Max prefix length. Capital and small letters differ.
 * - White space around a field is ignored, and so are quotes around its text.
 * - Each comma ends a field, also a comma between quotes.
 * - An empty maximum length is the length of the prefix (RFC 9582, 4.3.2.2).
 *
 * A byte order mark at the beginning is ignored. No line and no item is skipped: one that is invalid makes the whole
 * file invalid. A VRP that the file repeats is listed again.
 *
 * @param file      The octets of the whole file. May be NULL if the length is 0.
 * @param file_len  Length in octets; may be 0.
 * @param out       Buffer for the VRPs. Owned by the caller. May be NULL if the capacity is 0.
 * @param capacity  Capacity of `out` in VRPs, not in octets; may be 0. file_len / 8 + 1 always suffices.
 * @param len       Receives the number of VRPs, written or required. Not NULL.
 * @param line      Receives the number of the first invalid line of CSV or item of JSON, from 1; else 0. Not NULL.
 *
 * @return the first of these that applies:
 *   1. PIGY_BAD_FILE + n with n from 1 to 5, or n = 7: the file as a whole. *line is 0.
 *   2. PIGY_BAD_LINE + n: the first invalid line. PIGY_BAD_ITEM + n: the first invalid item.
 *   3. PIGY_BAD_FILE + 6: the file has no VRP. *line is 0.
 *   4. PIGY_TOO_SMALL, then PIGY_OK.
 */
pigy_status pigy_vrps_read(const uint8_t *file, size_t file_len, pigy_vrp *out, size_t capacity, size_t *len,
                           size_t *line) PIGY_NODISCARD PIGY_NONNULL(5, 6);

/**
 * Reads the VRPs of a validator's file that have not expired. They are in the order of the file. pigy_vrps_read
 * describes the file.
 *
 * The expiry of a VRP is the last second at which it is valid: a whole number of seconds since 1970-01-01 UTC. In JSON
 * it is the member expires of the item, a number. In CSV it is the field in the column Expires. A VRP without this
 * member or field, or with an empty field, does not expire.
 *
 * @param file      The octets of the whole file. May be NULL if the length is 0.
 * @param file_len  Length in octets; may be 0.
 * @param time      Time in seconds since 1970-01-01 UTC. A VRP has expired if its expiry is before this time.
 * @param out       Buffer for the VRPs. Owned by the caller. May be NULL if the capacity is 0.
 * @param capacity  Capacity of `out` in VRPs, not in octets; may be 0. file_len / 8 + 1 always suffices.
 * @param len       Receives the number of VRPs that have not expired, written or required. It is 0 if all VRPs have
 *                  expired. Not NULL.
 * @param expired   Receives the number of VRPs that have expired; 0 with any error except PIGY_TOO_SMALL. Not NULL.
 * @param line      Receives the number of the first invalid line of CSV or item of JSON, from 1; else 0. Not NULL.
 *
 * @return the first of these that applies:
 *   1. The errors 1 to 3 of pigy_vrps_read.
 *   2. PIGY_BAD_LINE + 20, PIGY_BAD_ITEM + n with n from 18 to 20: the first line or item with an invalid expiry.
 *   3. PIGY_TOO_SMALL, then PIGY_OK.
 */
pigy_status pigy_vrps_read_unexpired(const uint8_t *file, size_t file_len, uint64_t time, pigy_vrp *out,
                                     size_t capacity, size_t *len, size_t *expired, size_t *line)
    PIGY_NODISCARD PIGY_NONNULL(6, 7, 8);

/**
 * Applies a SLURM file to VRPs (RFC 8416). The result is the VRPs that no filter matches, in their order, and then the
 * VRPs of the member prefixAssertions, in the order of the file.
 *
 * A filter of prefixFilters has a prefix, an AS number, or both. It matches a VRP if the VRP has this AS number, and if
 * the prefix of the VRP is this prefix or is inside it (RFC 8416, 3.3.1). No filter removes an assertion. An assertion
 * without maxPrefixLength has the prefix length as its maximum length. The call drops no duplicates. It compares each
 * VRP with each filter.
 *
 * The file is a JSON object (RFC 8259) of slurmVersion 1. Each of its objects has the members that RFC 8416 defines for
 * it, and no others. No member is repeated. The call also checks bgpsecFilters and bgpsecAssertions, which change no
 * VRP. Their members SKI and routerPublicKey may be any strings. A byte order mark at the beginning is ignored.
 *
 * @param file      The octets of the whole SLURM file. May be NULL if the length is 0.
 * @param file_len  Length in octets; may be 0.
 * @param vrps      VRPs, in any order. May be NULL if the count is 0.
 * @param count     Number of VRPs.
 * @param out       Buffer for the VRPs of the result. Owned by the caller. May be NULL if the capacity is 0.
 * @param capacity  Capacity of `out` in VRPs, not in octets; may be 0. count + file_len / 16 always suffices.
 * @param len       Receives the number of VRPs of the result, written or required. Not NULL.
 * @param index     Receives the index of the first invalid VRP, from 0; else 0. Not NULL.
 * @param item      Receives a number from 1: with PIGY_BAD_SLURM_ITEM that of the invalid item in its list, with
 *                  PIGY_BAD_SLURM + 2, 4 or 5 that of the unknown member in its object. Receives 0 with any other
 *                  status. Not NULL.
 *
 * @return the first of these that applies:
 *   1. PIGY_BAD_FAMILY, PIGY_BAD_PREFIX, PIGY_BAD_MAX_LEN: the first invalid VRP. *item is 0.
 *   2. PIGY_BAD_SLURM + n: the file. *item is the number of the unknown member if n is 2, 4 or 5, and 0 otherwise.
 *      PIGY_BAD_SLURM_ITEM + 64 * list + n: the first invalid item of this list. *item is its number. The call checks
 *      in this order, and returns the first error:
 *      - the file as a JSON object, and the unknown members of this object;
 *      - slurmVersion;
 *      - validationOutputFilters, its unknown members, prefixFilters, bgpsecFilters;
 *      - locallyAddedAssertions, its unknown members, prefixAssertions, bgpsecAssertions.
 *   3. PIGY_TOO_SMALL, then PIGY_OK.
 */
pigy_status pigy_slurm_apply(const uint8_t *file, size_t file_len, const pigy_vrp *vrps, size_t count, pigy_vrp *out,
                             size_t capacity, size_t *len, size_t *index, size_t *item)
    PIGY_NODISCARD PIGY_NONNULL(7, 8, 9);

/**
 * Reads the routes of lines, as the program origins reads them. They are in the order of the lines.
 *
 * A line has one of two forms:
 *
 * - A prefix, a space and an AS number, as pigy_route_from_text reads them.
 * - A line of bgpdump -m: a route of a table (TABLE_DUMP, TABLE_DUMP2), or an update (BGP4MP). The last word of the
 *   path is the AS. If it is an AS_SET or ends a confederation segment, or if the path is empty, the AS is AS 0. A line
 *   that withdraws a route, or that has the state of a session, has no route and is skipped.
 *
 * The octet 0a ends a line. The last line may lack it. A route that the lines repeat is listed again. One invalid line
 * makes the whole text invalid, also a blank line.
 *
 * @param text      The lines, in UTF-8. May be NULL if the length is 0.
 * @param text_len  Length in octets; may be 0. A text of length 0 has no routes.
 * @param out       Buffer for the routes. Owned by the caller. May be NULL if the capacity is 0.
 * @param capacity  Capacity of `out` in routes, not in octets; may be 0. text_len / 7 + 1 always suffices.
 * @param len       Receives the number of routes, written or required. Not NULL.
 * @param line      Receives the number of the first invalid line, from 1; else 0. Not NULL.
 *
 * @return the first of these that applies:
 *   1. PIGY_BAD_ROUTE + n: the first invalid line.
 *   2. PIGY_TOO_SMALL, then PIGY_OK.
 */
pigy_status pigy_routes_read(const char *text, size_t text_len, pigy_route *out, size_t capacity, size_t *len,
                             size_t *line) PIGY_NODISCARD PIGY_NONNULL(5, 6);

/**
 * Reads the text of a VRP: 10.0.0.0/8-16 AS64496.
 *
 * The first word is a prefix, a dash and a maximum length. Without a dash the maximum length is the prefix length (RFC
 * 9582, 4.3.2). The second word is an AS number. The letters AS may be absent, and may be small letters. A number may
 * have leading zeros, and a plus sign before it. White space around a word is ignored.
 *
 * @param text      The text, in UTF-8. May be NULL if the length is 0.
 * @param text_len  Length in octets; may be 0.
 * @param out       Receives the VRP; 0 in each member with an error. Not NULL.
 *
 * @return PIGY_BAD_LINE + n if the text is invalid, otherwise PIGY_OK. The AS number is checked before the prefix, and
 *   the prefix before the maximum length.
 */
pigy_status pigy_vrp_from_text(const char *text, size_t text_len, pigy_vrp *out) PIGY_NODISCARD PIGY_NONNULL(3);

/**
 * Writes the text of a VRP: 10.0.0.0/8-16 AS64496. It always has the maximum length. IPv6 addresses have the form of
 * RFC 5952. pigy_vrp_from_text reads this text as the same VRP.
 *
 * @param vrp       One VRP. Not NULL.
 * @param out       Buffer for the text. Owned by the caller. May be NULL if the capacity is 0.
 * @param capacity  Capacity of `out` in octets; may be 0. PIGY_VRP_TEXT_MAX always suffices.
 * @param len       Receives the length in octets, written or required. Not NULL.
 *
 * @return the first of these that applies:
 *   1. PIGY_BAD_FAMILY, PIGY_BAD_PREFIX, PIGY_BAD_MAX_LEN: the VRP is invalid.
 *   2. PIGY_TOO_SMALL, then PIGY_OK.
 */
pigy_status pigy_vrp_text(const pigy_vrp *vrp, char *out, size_t capacity, size_t *len)
    PIGY_NODISCARD PIGY_NONNULL(1, 4);

/**
 * Reads the text of a route: 10.0.0.0/8 AS64496. pigy_vrp_from_text describes the two words. pigy_routes_read reads
 * lines of bgpdump -m too.
 *
 * @param text      The text, in UTF-8. May be NULL if the length is 0.
 * @param text_len  Length in octets; may be 0.
 * @param out       Receives the route; 0 in each member with an error. Not NULL.
 *
 * @return PIGY_BAD_ROUTE + n if the text is invalid, otherwise PIGY_OK. The prefix is checked before the AS number.
 */
pigy_status pigy_route_from_text(const char *text, size_t text_len, pigy_route *out) PIGY_NODISCARD PIGY_NONNULL(3);

/**
 * Writes the text of a route: 10.0.0.0/8 AS64496. pigy_route_from_text reads this text as the same route.
 *
 * @param route     One route. Not NULL.
 * @param out       Buffer for the text. Owned by the caller. May be NULL if the capacity is 0.
 * @param capacity  Capacity of `out` in octets; may be 0. PIGY_ROUTE_TEXT_MAX always suffices.
 * @param len       Receives the length in octets, written or required. Not NULL.
 *
 * @return the first of these that applies:
 *   1. PIGY_BAD_FAMILY, PIGY_BAD_PREFIX: the route is invalid.
 *   2. PIGY_TOO_SMALL, then PIGY_OK.
 */
pigy_status pigy_route_text(const pigy_route *route, char *out, size_t capacity, size_t *len)
    PIGY_NODISCARD PIGY_NONNULL(1, 4);

/**
 * Makes a table of VRPs.
 *
 * Duplicates are kept: if a VRP comes twice, pigy_table_vrps and pigy_table_covering list it twice.
 *
 * @param vrps   VRPs, in any order. The table copies them. May be NULL if the count is 0.
 * @param count  Number of VRPs.
 * @param out    Receives the handle; NULL with an error. Its old value is not read. Not NULL.
 * @param index  Receives the index of the first invalid VRP, from 0; else 0. Not NULL.
 *
 * @return the first of these that applies:
 *   1. PIGY_BAD_FAMILY, PIGY_BAD_PREFIX, PIGY_BAD_MAX_LEN: the first invalid VRP.
 *   2. PIGY_OK.
 */
pigy_status pigy_table_new(const pigy_vrp *vrps, size_t count, pigy_table **out, size_t *index)
    PIGY_NODISCARD PIGY_NONNULL(3, 4);

/**
 * Makes the next table: `table` without the withdrawn VRPs, and then with the announced ones.
 *
 * - The next table has a handle of its own, and `table` does not change. Free the two tables in any order.
 * - A change makes a pass over the whole table, even for one VRP: some 15 ms for 500,000 VRPs. Make one call for all
 *   VRPs of a response, in a thread that does not route.
 * - The call applies all withdrawals before all announcements. In general, a response to a Serial Query has at most one
 *   withdrawal and then at most one announcement of each VRP (RFC 8210, 5.3). Pass such a response as one change.
 * - For the response to a Reset Query, pass an empty table as `table`. pigy_table_new with count 0 makes an empty
 *   table. Then this call returns an error if the response announces a VRP twice. pigy_table_new finds no such error.
 * - A withdrawal removes all copies of a VRP.
 * - Each array may list a VRP only once, even if the table lists it more than once.
 * - A VRP in both arrays has to be in the table. The next table lists it once.
 * - If an array has no VRPs, pass count 0. The array may be NULL then.
 *
 * @param table            The table, which is only read. The status is PIGY_NO_HANDLE if it is NULL.
 * @param announced        Announced VRPs. The next table copies them. May be NULL if the count is 0.
 * @param announced_count  Number of announced VRPs.
 * @param withdrawn        Withdrawn VRPs. May be NULL if the count is 0.
 * @param withdrawn_count  Number of withdrawn VRPs.
 * @param out              Receives the handle of the next table; NULL with an error. Its old value is not read. Not
 *                         NULL.
 * @param index            Receives the index of the VRP at fault, from 0; else 0. Not NULL.
 *
 * @return the first of these that applies:
 *   1. PIGY_NO_HANDLE.
 *   2. PIGY_BAD_FAMILY, PIGY_BAD_PREFIX, PIGY_BAD_MAX_LEN: the first invalid VRP in `announced`.
 *   3. PIGY_SECOND + one of these: the first invalid VRP in `withdrawn`.
 *   4. PIGY_UNKNOWN_WITHDRAWAL: the first VRP in `withdrawn` that is not in the table, or is a repetition in
 *      `withdrawn`.
 *   5. PIGY_DUPLICATE_ANNOUNCEMENT: the first VRP in `announced` that is in the table and not withdrawn, or is a
 *      repetition in `announced`.
 *   6. PIGY_OK.
 *
 * *index is an index of `withdrawn` with 3 and 4, and of `announced` with 2 and 5.
 */
pigy_status pigy_table_with_changes(const pigy_table *table, const pigy_vrp *announced, size_t announced_count,
                                    const pigy_vrp *withdrawn, size_t withdrawn_count, pigy_table **out, size_t *index)
    PIGY_NODISCARD PIGY_NONNULL(6, 7);

/**
 * Validates one route by a table (RFC 6811, 2). The call takes no memory, so it cannot fail for a table and a valid
 * route.
 *
 * @param table     The table, which is only read. The status is PIGY_NO_HANDLE if it is NULL.
 * @param route     One route. Not NULL.
 * @param validity  Receives PIGY_VALID, PIGY_NOT_FOUND or PIGY_INVALID; PIGY_NO_VALIDITY with an error. Not NULL.
 * @param reason    Receives PIGY_INVALID_AS or PIGY_INVALID_LENGTH if the validity is PIGY_INVALID, and otherwise 0.
 *                  Not NULL.
 *
 * @return the first of these that applies:
 *   1. PIGY_NO_HANDLE.
 *   2. PIGY_SECOND + PIGY_BAD_FAMILY, PIGY_SECOND + PIGY_BAD_PREFIX: the route is invalid.
 *   3. PIGY_OK.
 */
pigy_status pigy_table_validate(const pigy_table *table, const pigy_route *route, uint8_t *validity, uint8_t *reason)
    PIGY_NODISCARD PIGY_NONNULL(2, 3, 4);

/**
 * Validates routes by a table: one octet for each route, PIGY_VALID, PIGY_NOT_FOUND or PIGY_INVALID (RFC 6811, 2).
 *
 * Many routes in one call take less time each. The call takes no memory.
 *
 * @param table             The table, which is only read. The status is PIGY_NO_HANDLE if it is NULL.
 * @param routes            Routes. May be NULL if the count is 0.
 * @param count             Number of routes.
 * @param out               Buffer for one octet a route, in the order of the routes. Owned by the caller. May be NULL
 *                          if the capacity is 0.
 * @param capacity          Capacity of `out` in octets; may be 0. The count of the routes always suffices.
 * @param reasons           Buffer for the reason of each route, as pigy_table_validate stores it: one octet a route, in
 *                          the order of the routes. Owned by the caller. May be NULL if the capacity is 0.
 * @param reasons_capacity  Capacity of `reasons` in octets: at least the count of the routes, or 0 for no reasons.
 * @param len               Receives the length of both outputs in octets, written or required. Not NULL.
 * @param index             Receives the index of the first invalid route, from 0; else 0. Not NULL.
 *
 * @return the first of these that applies:
 *   1. PIGY_NO_HANDLE.
 *   2. PIGY_SECOND + PIGY_BAD_FAMILY, PIGY_SECOND + PIGY_BAD_PREFIX: the first invalid route.
 *   3. PIGY_TOO_SMALL: `capacity` is below the count, or `reasons_capacity` is below the count and is not 0.
 *   4. PIGY_OK.
 */
pigy_status pigy_table_validate_routes(const pigy_table *table, const pigy_route *routes, size_t count, uint8_t *out,
                                       size_t capacity, uint8_t *reasons, size_t reasons_capacity, size_t *len,
                                       size_t *index) PIGY_NODISCARD PIGY_NONNULL(8, 9);

/**
 * Validates routes by several tables at once: one octet for each route, PIGY_VALID, PIGY_NOT_FOUND or PIGY_INVALID (RFC
 * 6811, 2). A router that has several caches keeps a table for each of them (RFC 8210, 10).
 *
 * The validity of a route is that by the VRPs of all tables together. So a route is valid if it is valid by at least
 * one table. Otherwise it is invalid if it is invalid by at least one. Otherwise it is not found. Without a table no
 * route is found. The call takes no memory.
 *
 * @param tables            The tables, which are only read. The status is PIGY_NO_HANDLE if one of them is NULL. May be
 *                          NULL if the count is 0.
 * @param table_count       Number of tables; may be 0.
 * @param routes            Routes. May be NULL if the count is 0.
 * @param count             Number of routes.
 * @param out               Buffer for one octet a route, in the order of the routes. Owned by the caller. May be NULL
 *                          if the capacity is 0.
 * @param capacity          Capacity of `out` in octets; may be 0. The count of the routes always suffices.
 * @param reasons           Buffer for the reason of each route: PIGY_INVALID_LENGTH if a VRP of any table covers the
 *                          route and has its AS, PIGY_INVALID_AS if none has, and 0 for a route that is not invalid.
 *                          Owned by the caller. May be NULL if the capacity is 0.
 * @param reasons_capacity  Capacity of `reasons` in octets: at least the count of the routes, or 0 for no reasons.
 * @param len               Receives the length of both outputs in octets, written or required. Not NULL.
 * @param index             Receives the index of the first NULL handle with PIGY_NO_HANDLE, and of the first invalid
 *                          route with PIGY_SECOND, from 0; else 0. Not NULL.
 *
 * @return the first of these that applies:
 *   1. PIGY_NO_HANDLE: the first NULL handle.
 *   2. PIGY_SECOND + PIGY_BAD_FAMILY, PIGY_SECOND + PIGY_BAD_PREFIX: the first invalid route.
 *   3. PIGY_TOO_SMALL: `capacity` is below the count, or `reasons_capacity` is below the count and is not 0.
 *   4. PIGY_OK.
 */
pigy_status pigy_tables_validate_routes(const pigy_table *const *tables, size_t table_count, const pigy_route *routes,
                                        size_t count, uint8_t *out, size_t capacity, uint8_t *reasons,
                                        size_t reasons_capacity, size_t *len, size_t *index)
    PIGY_NODISCARD PIGY_NONNULL(9, 10);

/**
 * Compares the validity of each route by two tables (RFC 6811, 4). The octet of a route is 1 if its validity differs
 * between the tables, and otherwise 0.
 *
 * Exchange the handle first, so that each later lookup uses the next table. Then make this call with all routes that
 * you use, and validate each route again whose octet is 1. Free the old table last. If you compare first, a route that
 * the old table validates between comparison and exchange has a wrong validity.
 *
 * For the first table pass an empty table as `old`, or validate all routes instead of this call. docs/C.md, "Several
 * caches", says what to do with several tables.
 *
 * The call takes no memory.
 *
 * @param old       The one table, which is only read. The status is PIGY_NO_HANDLE if it is NULL.
 * @param next      The other table, which is only read. The status is PIGY_NO_HANDLE if it is NULL. May be `old`.
 * @param routes    Routes. May be NULL if the count is 0.
 * @param count     Number of routes.
 * @param out       Buffer for one octet a route, in the order of the routes. Owned by the caller. May be NULL if the
 *                  capacity is 0.
 * @param capacity  Capacity of `out` in octets; may be 0. The count of the routes always suffices.
 * @param len       Receives the length in octets, written or required. Not NULL.
 * @param index     Receives the index of the first invalid route, from 0; else 0. Not NULL.
 *
 * @return the first of these that applies:
 *   1. PIGY_NO_HANDLE.
 *   2. PIGY_SECOND + PIGY_BAD_FAMILY, PIGY_SECOND + PIGY_BAD_PREFIX: the first invalid route.
 *   3. PIGY_TOO_SMALL, then PIGY_OK.
 */
pigy_status pigy_table_revalidate(const pigy_table *old, const pigy_table *next, const pigy_route *routes, size_t count,
                                  uint8_t *out, size_t capacity, size_t *len, size_t *index)
    PIGY_NODISCARD PIGY_NONNULL(7, 8);

/**
 * Lists the VRPs in which two tables differ: those that a cache announces and withdraws from one table to the next (RFC
 * 8210, 5.6).
 *
 * Each VRP is listed once. A VRP that a table lists twice counts once. pigy_table_with_changes applies the changes: it
 * makes a table with the VRPs of `next` from `old`.
 *
 * Both lists have one order, which is not that of pigy_table_vrps. IPv4 comes before IPv6. Then the order is by the
 * last address of the prefix, and then by prefix length, the longer first. If two VRPs have the same prefix, the longer
 * maximum length comes first. If they also have the same maximum length, the lesser AS number comes first.
 *
 * @param old                 The old table, which is only read. The status is PIGY_NO_HANDLE if it is NULL.
 * @param next                The next table, which is only read. The status is PIGY_NO_HANDLE if it is NULL. May be
 *                            `old`.
 * @param announced           Buffer for the VRPs that are in `next` and not in `old`. Owned by the caller. May be NULL
 *                            if the capacity is 0.
 * @param announced_capacity  Capacity of `announced` in VRPs, not in octets; may be 0. The length of `next` always
 *                            suffices.
 * @param announced_len       Receives the number of these VRPs, written or required. Not NULL.
 * @param withdrawn           Buffer for the VRPs that are in `old` and not in `next`. Owned by the caller. May be NULL
 *                            if the capacity is 0.
 * @param withdrawn_capacity  Capacity of `withdrawn` in VRPs, not in octets; may be 0. The length of `old` always
 *                            suffices.
 * @param withdrawn_len       Receives the number of these VRPs, written or required. Not NULL.
 *
 * @return the first of these that applies:
 *   1. PIGY_NO_HANDLE.
 *   2. PIGY_TOO_SMALL, then PIGY_OK.
 */
pigy_status pigy_table_changes(const pigy_table *old, const pigy_table *next, pigy_vrp *announced,
                               size_t announced_capacity, size_t *announced_len, pigy_vrp *withdrawn,
                               size_t withdrawn_capacity, size_t *withdrawn_len) PIGY_NODISCARD PIGY_NONNULL(5, 8);

/**
 * Lists the VRPs of a table that cover a route, each with the reason why it does not match. If you keep several tables,
 * make the call with each of them.
 *
 * The longest prefix comes first. If two VRPs have the same prefix, the lesser AS number comes first. If they also have
 * the same AS, the longer maximum length comes first.
 *
 * @param table     The table, which is only read. The status is PIGY_NO_HANDLE if it is NULL.
 * @param route     One route. Not NULL.
 * @param out       Buffer for the VRPs. Owned by the caller. May be NULL if the capacity is 0.
 * @param capacity  Capacity of `out` in VRPs, not in octets; may be 0.
 * @param len       Receives the number of VRPs, written or required. Not NULL.
 *
 * @return the first of these that applies:
 *   1. PIGY_NO_HANDLE.
 *   2. PIGY_SECOND + PIGY_BAD_FAMILY, PIGY_SECOND + PIGY_BAD_PREFIX: the route is invalid.
 *   3. PIGY_TOO_SMALL, then PIGY_OK.
 */
pigy_status pigy_table_covering(const pigy_table *table, const pigy_route *route, pigy_covering *out, size_t capacity,
                                size_t *len) PIGY_NODISCARD PIGY_NONNULL(2, 5);

/**
 * Counts the VRPs of a table.
 *
 * @param table  The table, which is only read. The status is PIGY_NO_HANDLE if it is NULL.
 * @param len    Receives the number of VRPs; 0 with an error. Not NULL.
 *
 * @return PIGY_NO_HANDLE if the handle is NULL, otherwise PIGY_OK.
 */
pigy_status pigy_table_len(const pigy_table *table, size_t *len) PIGY_NONNULL(2);

/**
 * Lists all VRPs of a table.
 *
 * IPv4 comes before IPv6. Then the order is by address, and then by prefix length, the shorter first. If two VRPs have
 * the same prefix, the greater AS number comes first. If they also have the same AS, the shorter maximum length comes
 * first. pigy_table_covering has another order.
 *
 * @param table     The table, which is only read. The status is PIGY_NO_HANDLE if it is NULL.
 * @param out       Buffer for the VRPs. Owned by the caller. May be NULL if the capacity is 0.
 * @param capacity  Capacity of `out` in VRPs, not in octets; may be 0. pigy_table_len returns the number of VRPs.
 * @param len       Receives the number of VRPs, written or required. Not NULL.
 *
 * @return the first of these that applies:
 *   1. PIGY_NO_HANDLE.
 *   2. PIGY_TOO_SMALL, then PIGY_OK.
 */
pigy_status pigy_table_vrps(const pigy_table *table, pigy_vrp *out, size_t capacity, size_t *len)
    PIGY_NODISCARD PIGY_NONNULL(4);

/**
 * Frees a table. The handle is invalid afterwards.
 *
 * @param table  The table. All other calls with this handle have returned. If it is NULL, the call does nothing.
 */
void pigy_table_free(pigy_table *table);

/* ---- Lines of the program respath ---- */

/**
 * Returns the answer of the program respath to one line. Its manual page, respath(1), lists the commands.
 *
 * The line and the answer are UTF-8, without the end of a line. The program answers an invalid line by a text that
 * begins with "error: ". This call returns PIGY_BAD_QUERY then, and no text. Until version 1.0 answers can change.
 *
 * @param line      The line, for example "der v4 10.0.0.0/8". May be NULL if the length is 0.
 * @param line_len  Length in octets.
 * @param out       Buffer for the answer. Owned by the caller. May be NULL if the capacity is 0.
 * @param capacity  Capacity of `out` in octets; may be 0.
 * @param len       Receives the length in octets, written or required. Not NULL.
 *
 * @return the first of these that applies:
 *   1. PIGY_BAD_QUERY.
 *   2. PIGY_TOO_SMALL, then PIGY_OK.
 */
pigy_status pigy_answer(const char *line, size_t line_len, char *out, size_t capacity, size_t *len)
    PIGY_NODISCARD PIGY_NONNULL(5);

#ifdef __cplusplus
}
#endif
#endif
