/* The calls of pigyelund.h that take arrays or structs of arrays, for both libraries. This code is tested, and is not
 * proved.
 *
 * Each call passes its arguments on to a proved function. A proved function takes an array as a reference, which is
 * never null. If an array is NULL and its length is 0, the call passes the address of `nothing` instead of NULL. NULL
 * with another length stays NULL. The proved function takes the members of a struct as arguments of their own. All
 * other arguments stay as they are. A call that writes a text adds the NUL after it.
 *
 * In this file the proved function of pigy_union has the name proved_union. In the library that `rt lib` built, its
 * name is pigy_union. The Makefile renames each proved function that this file calls. */
#include "../pigyelund.h"

/* An object that is aligned for the elements of each array. No call reads or writes it, since an array of length 0 has
 * no elements. The object is constant, so a write would end the program. */
static const union {
  uint8_t octet;
  pigy_certificate certificate;
  pigy_vrp vrp;
  pigy_route route;
  pigy_covering covering;
  pigy_prefix prefix;
  pigy_as_range as_range;
  pigy_ip_range ip_range;
  const pigy_table *table;
} nothing = {0};

/* An array and its length, as two arguments of a call. */
#define ARRAY(array, length) (array) || (length) ? (array) : (__typeof__(array))(void *)&nothing, (length)

/* An array of octets that is a member of a struct, and its length. The length is not read if the array is NULL. */
#define MEMBER(array, length) (array) ? (array) : (__typeof__(array))(void *)&nothing, (array) ? (length) : 0

/* The arguments for a set: two arrays. */
#define SET(set) MEMBER((set).as, (set).as_len), MEMBER((set).ip, (set).ip_len)
#define SET_TYPES const uint8_t *, size_t, const uint8_t *, size_t

/* The arguments for the buffers of a set: two arrays, and the addresses of the lengths. */
#define BUFFERS(out) MEMBER((out)->as, (out)->as_capacity), MEMBER((out)->ip, (out)->ip_capacity), LENGTHS(out)
#define LENGTHS(out) &(out)->as_len, &(out)->ip_len
#define BUFFER_TYPES uint8_t *, size_t, uint8_t *, size_t, size_t *, size_t *

/* Returns the extensions of a certificate. No proved function gets a member of an absent extension. */
static pigy_set present_of(pigy_set cert, pigy_present present) {
  if (!(present & PIGY_HAS_AS)) cert.as = 0;
  if (!(present & PIGY_HAS_IP)) cert.ip = 0;
  return cert;
}

/* Writes a NUL after a text if the buffer has an octet for it. Returns the status of the call that wrote the text. */
static pigy_status ended(pigy_status status, char *out, size_t capacity, const size_t *len) {
  if (status == PIGY_OK && *len < capacity) out[*len] = 0;
  return status;
}

/* Declares the proved function of a call. It has the type of the call. */
#define PROVED(name) __typeof__(pigy_##name) proved_##name
PROVED(resources_from_text);
PROVED(resources_verify_path);
PROVED(resources_prefixes);
PROVED(resources_as_ranges);
PROVED(resources_ip_ranges);
PROVED(resources_text);
PROVED(prefixes);
PROVED(as_ranges);
PROVED(ip_ranges);
PROVED(validate);
PROVED(vrps_read);
PROVED(vrps_read_unexpired);
PROVED(slurm_apply);
PROVED(routes_read);
PROVED(vrp_from_text);
PROVED(vrp_text);
PROVED(route_from_text);
PROVED(route_text);
PROVED(table_new);
PROVED(table_with_changes);
PROVED(table_validate_routes);
PROVED(tables_validate_routes);
PROVED(table_revalidate);
PROVED(table_changes);
PROVED(table_covering);
PROVED(table_vrps);
PROVED(answer);

/* The proved functions of the calls that take structs. */
pigy_status proved_resources_read(SET_TYPES, pigy_encoding, pigy_resources **);
pigy_status proved_resources_verify(const pigy_resources *, SET_TYPES, pigy_present, pigy_encoding, pigy_mode,
                                    pigy_resources **, pigy_resources **);
pigy_status proved_resources_der(const pigy_resources *, BUFFER_TYPES);
pigy_status proved_verify(SET_TYPES, pigy_present, SET_TYPES, pigy_encoding, pigy_mode, BUFFER_TYPES, BUFFER_TYPES);
pigy_status proved_verify_path(SET_TYPES, const uint8_t *, size_t, const pigy_certificate *, size_t, pigy_encoding,
                               BUFFER_TYPES, BUFFER_TYPES, size_t *);
pigy_status proved_union(SET_TYPES, SET_TYPES, pigy_encoding, BUFFER_TYPES);
pigy_status proved_intersection(SET_TYPES, SET_TYPES, pigy_encoding, BUFFER_TYPES);
pigy_status proved_difference(SET_TYPES, SET_TYPES, pigy_encoding, BUFFER_TYPES);
pigy_status proved_contains(SET_TYPES, SET_TYPES, pigy_encoding, uint8_t *);
pigy_status proved_equal(SET_TYPES, SET_TYPES, pigy_encoding, uint8_t *);
pigy_status proved_set_from_text(const char *, size_t, pigy_kind, BUFFER_TYPES);

pigy_status pigy_resources_read(pigy_set set, pigy_encoding encoding, pigy_resources **out) {
  return proved_resources_read(SET(set), encoding, out);
}

pigy_status pigy_resources_from_text(const char *text, size_t text_len, pigy_kind kind, pigy_resources **out) {
  return proved_resources_from_text(ARRAY(text, text_len), kind, out);
}

pigy_status pigy_resources_verify(const pigy_resources *issuer, pigy_set cert, pigy_present present,
                                  pigy_encoding encoding, pigy_mode mode, pigy_resources **out,
                                  pigy_resources **excess) {
  cert = present_of(cert, present);
  return proved_resources_verify(issuer, SET(cert), present, encoding, mode, out, excess);
}

pigy_status pigy_resources_verify_path(const pigy_resources *anchor, const uint8_t *run, size_t run_len,
                                       const pigy_certificate *certificates, size_t count, pigy_encoding encoding,
                                       pigy_resources **out, pigy_resources **excess, size_t *verified) {
  return proved_resources_verify_path(anchor, ARRAY(run, run_len), ARRAY(certificates, count), encoding, out, excess,
                                      verified);
}

pigy_status pigy_resources_prefixes(const pigy_resources *resources, pigy_family family, pigy_prefix *out,
                                    size_t capacity, size_t *len) {
  return proved_resources_prefixes(resources, family, ARRAY(out, capacity), len);
}

pigy_status pigy_resources_as_ranges(const pigy_resources *resources, pigy_as_range *out, size_t capacity,
                                     size_t *len) {
  return proved_resources_as_ranges(resources, ARRAY(out, capacity), len);
}

pigy_status pigy_resources_ip_ranges(const pigy_resources *resources, pigy_family family, pigy_ip_range *out,
                                     size_t capacity, size_t *len) {
  return proved_resources_ip_ranges(resources, family, ARRAY(out, capacity), len);
}

pigy_status pigy_resources_der(const pigy_resources *resources, pigy_buffers *out) {
  return proved_resources_der(resources, BUFFERS(out));
}

pigy_status pigy_resources_text(const pigy_resources *resources, pigy_kind kind, char *out, size_t capacity,
                                size_t *len) {
  return ended(proved_resources_text(resources, kind, ARRAY(out, capacity), len), out, capacity, len);
}

pigy_status pigy_verify(pigy_set issuer, pigy_set cert, pigy_present present, pigy_encoding encoding, pigy_mode mode,
                        pigy_buffers *out, pigy_buffers *excess) {
  cert = present_of(cert, present);
  return proved_verify(SET(issuer), present, SET(cert), encoding, mode, BUFFERS(out), BUFFERS(excess));
}

pigy_status pigy_verify_path(pigy_set anchor, const uint8_t *run, size_t run_len, const pigy_certificate *certificates,
                             size_t count, pigy_encoding encoding, pigy_buffers *out, pigy_buffers *excess,
                             size_t *verified) {
  return proved_verify_path(SET(anchor), ARRAY(run, run_len), ARRAY(certificates, count), encoding, BUFFERS(out),
                            BUFFERS(excess), verified);
}

pigy_status pigy_union(pigy_set a, pigy_set b, pigy_encoding encoding, pigy_buffers *out) {
  return proved_union(SET(a), SET(b), encoding, BUFFERS(out));
}

pigy_status pigy_intersection(pigy_set a, pigy_set b, pigy_encoding encoding, pigy_buffers *out) {
  return proved_intersection(SET(a), SET(b), encoding, BUFFERS(out));
}

pigy_status pigy_difference(pigy_set a, pigy_set b, pigy_encoding encoding, pigy_buffers *out) {
  return proved_difference(SET(a), SET(b), encoding, BUFFERS(out));
}

pigy_status pigy_contains(pigy_set a, pigy_set b, pigy_encoding encoding, uint8_t *answer) {
  return proved_contains(SET(a), SET(b), encoding, answer);
}

pigy_status pigy_equal(pigy_set a, pigy_set b, pigy_encoding encoding, uint8_t *answer) {
  return proved_equal(SET(a), SET(b), encoding, answer);
}

pigy_status pigy_prefixes(const uint8_t *ip, size_t ip_len, pigy_encoding encoding, pigy_family family,
                          pigy_prefix *out, size_t capacity, size_t *len) {
  return proved_prefixes(ARRAY(ip, ip_len), encoding, family, ARRAY(out, capacity), len);
}

pigy_status pigy_as_ranges(const uint8_t *as, size_t as_len, pigy_encoding encoding, pigy_as_range *out,
                           size_t capacity, size_t *len) {
  return proved_as_ranges(ARRAY(as, as_len), encoding, ARRAY(out, capacity), len);
}

pigy_status pigy_ip_ranges(const uint8_t *ip, size_t ip_len, pigy_encoding encoding, pigy_family family,
                           pigy_ip_range *out, size_t capacity, size_t *len) {
  return proved_ip_ranges(ARRAY(ip, ip_len), encoding, family, ARRAY(out, capacity), len);
}

pigy_status pigy_set_from_text(const char *text, size_t text_len, pigy_kind kind, pigy_buffers *out) {
  return proved_set_from_text(ARRAY(text, text_len), kind, BUFFERS(out));
}

pigy_status pigy_validate(const pigy_vrp *vrps, size_t vrp_count, const pigy_route *routes, size_t count, uint8_t *out,
                          size_t capacity, size_t *len, size_t *index) {
  return proved_validate(ARRAY(vrps, vrp_count), ARRAY(routes, count), ARRAY(out, capacity), len, index);
}

pigy_status pigy_vrps_read(const uint8_t *file, size_t file_len, pigy_vrp *out, size_t capacity, size_t *len,
                           size_t *line) {
  return proved_vrps_read(ARRAY(file, file_len), ARRAY(out, capacity), len, line);
}

pigy_status pigy_vrps_read_unexpired(const uint8_t *file, size_t file_len, uint64_t time, pigy_vrp *out,
                                     size_t capacity, size_t *len, size_t *expired, size_t *line) {
  return proved_vrps_read_unexpired(ARRAY(file, file_len), time, ARRAY(out, capacity), len, expired, line);
}

pigy_status pigy_slurm_apply(const uint8_t *file, size_t file_len, const pigy_vrp *vrps, size_t count, pigy_vrp *out,
                             size_t capacity, size_t *len, size_t *index, size_t *item) {
  return proved_slurm_apply(ARRAY(file, file_len), ARRAY(vrps, count), ARRAY(out, capacity), len, index, item);
}

pigy_status pigy_routes_read(const char *text, size_t text_len, pigy_route *out, size_t capacity, size_t *len,
                             size_t *line) {
  return proved_routes_read(ARRAY(text, text_len), ARRAY(out, capacity), len, line);
}

pigy_status pigy_vrp_from_text(const char *text, size_t text_len, pigy_vrp *out) {
  return proved_vrp_from_text(ARRAY(text, text_len), out);
}

pigy_status pigy_vrp_text(const pigy_vrp *vrp, char *out, size_t capacity, size_t *len) {
  return ended(proved_vrp_text(vrp, ARRAY(out, capacity), len), out, capacity, len);
}

pigy_status pigy_route_from_text(const char *text, size_t text_len, pigy_route *out) {
  return proved_route_from_text(ARRAY(text, text_len), out);
}

pigy_status pigy_route_text(const pigy_route *route, char *out, size_t capacity, size_t *len) {
  return ended(proved_route_text(route, ARRAY(out, capacity), len), out, capacity, len);
}

pigy_status pigy_table_new(const pigy_vrp *vrps, size_t count, pigy_table **out, size_t *index) {
  return proved_table_new(ARRAY(vrps, count), out, index);
}

pigy_status pigy_table_with_changes(const pigy_table *table, const pigy_vrp *announced, size_t announced_count,
                                    const pigy_vrp *withdrawn, size_t withdrawn_count, pigy_table **out,
                                    size_t *index) {
  return proved_table_with_changes(table, ARRAY(announced, announced_count), ARRAY(withdrawn, withdrawn_count), out,
                                   index);
}

pigy_status pigy_table_validate_routes(const pigy_table *table, const pigy_route *routes, size_t count, uint8_t *out,
                                       size_t capacity, uint8_t *reasons, size_t reasons_capacity, size_t *len,
                                       size_t *index) {
  return proved_table_validate_routes(table, ARRAY(routes, count), ARRAY(out, capacity),
                                      ARRAY(reasons, reasons_capacity), len, index);
}

pigy_status pigy_tables_validate_routes(const pigy_table *const *tables, size_t table_count, const pigy_route *routes,
                                        size_t count, uint8_t *out, size_t capacity, uint8_t *reasons,
                                        size_t reasons_capacity, size_t *len, size_t *index) {
  return proved_tables_validate_routes(ARRAY(tables, table_count), ARRAY(routes, count), ARRAY(out, capacity),
                                       ARRAY(reasons, reasons_capacity), len, index);
}

pigy_status pigy_table_revalidate(const pigy_table *old, const pigy_table *next, const pigy_route *routes, size_t count,
                                  uint8_t *out, size_t capacity, size_t *len, size_t *index) {
  return proved_table_revalidate(old, next, ARRAY(routes, count), ARRAY(out, capacity), len, index);
}

pigy_status pigy_table_changes(const pigy_table *old, const pigy_table *next, pigy_vrp *announced,
                               size_t announced_capacity, size_t *announced_len, pigy_vrp *withdrawn,
                               size_t withdrawn_capacity, size_t *withdrawn_len) {
  return proved_table_changes(old, next, ARRAY(announced, announced_capacity), announced_len,
                              ARRAY(withdrawn, withdrawn_capacity), withdrawn_len);
}

pigy_status pigy_table_covering(const pigy_table *table, const pigy_route *route, pigy_covering *out, size_t capacity,
                                size_t *len) {
  return proved_table_covering(table, route, ARRAY(out, capacity), len);
}

pigy_status pigy_table_vrps(const pigy_table *table, pigy_vrp *out, size_t capacity, size_t *len) {
  return proved_table_vrps(table, ARRAY(out, capacity), len);
}

pigy_status pigy_answer(const char *line, size_t line_len, char *out, size_t capacity, size_t *len) {
  return ended(proved_answer(ARRAY(line, line_len), ARRAY(out, capacity), len), out, capacity, len);
}
