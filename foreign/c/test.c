/* Tests the C library by golden tests. Each line of rows.txt is a row: a call, its arguments and the expected outputs.
 *
 * test FOLDER: FOLDER has rows.txt and texts.txt. The program makes the call of each row, by DER and by handles:
 *
 * - with buffers of each capacity from 0 to the required one, and of one more. Rows with long outputs have fewer
 *   capacities. It checks the status and all that the call stores, and that nothing else is written.
 * - with each allocation of the call refused in turn. The call has to return PIGY_MEMORY, and to store no result. A
 *   call that takes no memory has to succeed.
 * - with NULL in place of each array of length 0 and of each buffer of capacity 0. The outputs have to be the same. In
 *   a struct the length beside NULL is another number then. The members of an absent extension are no addresses.
 * - on eight threads at the same time. Eight threads also share a set and a table, and verify certificates below the
 *   set.
 *
 * It also makes each call with NULL in place of all its arrays, and with NULL handles.
 *
 * test FOLDER stack: makes the call of each row on a thread with a marked stack. It fails if the calls use more of the
 * stack than pigyelund.h states.
 *
 * test FOLDER thread: makes the call of each row on a thread with the default stack of the C library, 128 KiB with musl.
 *
 * Each input and each buffer is an allocation of its own, so that valgrind reports an access after its end. The program
 * is linked with --wrap=malloc,--wrap=realloc: each allocation of the library calls a function of this file. */
#include "../pigyelund.h"
#include <pthread.h>
#include <stdatomic.h>
#include <stdio.h>
#include <stdlib.h>
#include <string.h>

/* Each name of the header has the number of numbers.txt. */
#define NUMBER(name, value) _Static_assert(PIGY_##name == value##u, #name);
#include "../numbers.txt"
_Static_assert(PIGY_VERSION_NUMBER == PIGY_VERSION_MAJOR * 1000000 + PIGY_VERSION_MINOR * 1000 + PIGY_VERSION_PATCH,
               "the version");

/* A kind is one bit. PIGY_KIND leaves out the number of an error and PIGY_SECOND. PIGY_FAULT leaves out the rest. */
#define IS_STATUS(status, kind, fault) \
  _Static_assert(PIGY_KIND(status) == kind && PIGY_FAULT(status) == fault && !(kind & (kind - 1u)), #status)
IS_STATUS(PIGY_OK, PIGY_OK, 0u);
IS_STATUS(PIGY_TOO_SMALL, PIGY_TOO_SMALL, 0u);
IS_STATUS(PIGY_MEMORY, PIGY_MEMORY, 0u);
IS_STATUS(PIGY_NO_HANDLE, PIGY_BAD_ARGUMENT, 9u);
IS_STATUS(PIGY_SECOND + PIGY_BAD_FAMILY, PIGY_BAD_ARGUMENT, 4u);
IS_STATUS(PIGY_BAD_AS + 1u, PIGY_BAD_AS, 1u);
IS_STATUS(PIGY_BAD_IP + 255u, PIGY_BAD_IP, 255u);
IS_STATUS(PIGY_SECOND + PIGY_BAD_IP + 14u, PIGY_BAD_IP, 14u);
IS_STATUS(PIGY_SECOND + PIGY_INHERITED, PIGY_INHERITED, 0u);
IS_STATUS(PIGY_ABSENT, PIGY_ABSENT, 0u);
IS_STATUS(PIGY_OVERCLAIM_AS, PIGY_OVERCLAIM, PIGY_ASN);
IS_STATUS(PIGY_OVERCLAIM_V4, PIGY_OVERCLAIM, PIGY_IPV4);
IS_STATUS(PIGY_OVERCLAIM_V6, PIGY_OVERCLAIM, PIGY_IPV6);
IS_STATUS(PIGY_UNKNOWN_WITHDRAWAL, PIGY_BAD_CHANGE, 6u);
IS_STATUS(PIGY_DUPLICATE_ANNOUNCEMENT, PIGY_BAD_CHANGE, 7u);
IS_STATUS(PIGY_BAD_LINE + 7u, PIGY_BAD_LINE, 7u);
IS_STATUS(PIGY_BAD_ITEM + 20u, PIGY_BAD_ITEM, 20u);
IS_STATUS(PIGY_BAD_FILE + 3u, PIGY_BAD_FILE, 3u);
IS_STATUS(PIGY_BAD_TEXT + 5u, PIGY_BAD_TEXT, 5u);
IS_STATUS(PIGY_BAD_QUERY, PIGY_BAD_QUERY, 0u);
IS_STATUS(PIGY_BAD_ROUTE + 6u, PIGY_BAD_ROUTE, 6u);
IS_STATUS(PIGY_BAD_SLURM + 26u, PIGY_BAD_SLURM, 26u);
IS_STATUS(PIGY_BAD_SLURM_ITEM + 64u * 3u + 25u, PIGY_BAD_SLURM_ITEM, 217u);

/* The layouts on x86-64 and ARM64. A change of one needs another number of the ABI. */
#define IS_SIZE(type, size) _Static_assert(sizeof(type) == size, #type)
#define IS_AT(type, member, offset) _Static_assert(offsetof(type, member) == offset, #type "." #member)
IS_SIZE(pigy_set, 32);
IS_AT(pigy_set, as, 0);
IS_AT(pigy_set, as_len, 8);
IS_AT(pigy_set, ip, 16);
IS_AT(pigy_set, ip_len, 24);
IS_SIZE(pigy_buffers, 48);
IS_AT(pigy_buffers, as, 0);
IS_AT(pigy_buffers, as_capacity, 8);
IS_AT(pigy_buffers, as_len, 16);
IS_AT(pigy_buffers, ip, 24);
IS_AT(pigy_buffers, ip_capacity, 32);
IS_AT(pigy_buffers, ip_len, 40);
IS_SIZE(pigy_certificate, 40);
IS_AT(pigy_certificate, as_start, 0);
IS_AT(pigy_certificate, as_len, 8);
IS_AT(pigy_certificate, ip_start, 16);
IS_AT(pigy_certificate, ip_len, 24);
IS_AT(pigy_certificate, present, 32);
IS_AT(pigy_certificate, mode, 36);
IS_SIZE(pigy_as_range, 8);
IS_AT(pigy_as_range, min, 0);
IS_AT(pigy_as_range, max, 4);
IS_SIZE(pigy_ip_range, 32);
IS_AT(pigy_ip_range, min, 0);
IS_AT(pigy_ip_range, max, 16);
IS_SIZE(pigy_prefix, 18);
IS_AT(pigy_prefix, address, 0);
IS_AT(pigy_prefix, family, 16);
IS_AT(pigy_prefix, len, 17);
IS_SIZE(pigy_vrp, 24);
IS_AT(pigy_vrp, address, 0);
IS_AT(pigy_vrp, asn, 16);
IS_AT(pigy_vrp, family, 20);
IS_AT(pigy_vrp, len, 21);
IS_AT(pigy_vrp, max_len, 22);
IS_SIZE(pigy_route, 24);
IS_AT(pigy_route, address, 0);
IS_AT(pigy_route, asn, 16);
IS_AT(pigy_route, family, 20);
IS_AT(pigy_route, len, 21);
IS_SIZE(pigy_covering, 28);
IS_AT(pigy_covering, vrp, 0);
IS_AT(pigy_covering, mismatch, 24);

enum { MARK = 0xa5, LENGTH = 1 << 16, SMALL = 40, WORDS = 10, LONGEST_PATH = 16, THREADS = 8, ANY = 0x5a5a5a,
       MANY = 1 << 17, ODD = 4096, BELOW = 4096 };

typedef struct {
  uint8_t *octets;
  size_t length;
} run;

typedef enum {
  VERIFY, PATH, MAKE, TEST, TEXT, COVER, AS_RANGES, IP_RANGES, HAS_ASN, HAS_PREFIX, PRINT, ANSWER, READ, UNEXPIRED,
  SLURM, ROUTES, READ_VRP, READ_ROUTE, PRINT_VRP, PRINT_ROUTE, ORIGINS, COVERING, VRPS, CHANGED, DIFFER, CHANGES
} kind;

/* The calls of an operation on two sets, or of a test of two sets: by DER, if there is such a call, and by handles. */
typedef struct {
  pigy_status (*make)(pigy_set, pigy_set, pigy_encoding, pigy_buffers *);
  pigy_status (*make_of_handles)(const pigy_resources *, const pigy_resources *, pigy_resources **);
  pigy_status (*test)(pigy_set, pigy_set, pigy_encoding, uint8_t *);
  pigy_status (*test_of_handles)(const pigy_resources *, const pigy_resources *, uint8_t *);
} pair;

/* One row: the call, its numbers (encoding, extensions or family or kind, mode), its inputs, and the expected outputs.
 * The member last is the expected number of verified certificates, the expected index of an error, the expected number
 * of a line or an item, or the expected answer. For DIFFER and CHANGES `announced` has the VRPs of the second table. If has_null
 * is 1, arrays of length 0 and buffers of capacity 0 are NULL. The member reason is that of a route. */
typedef struct {
  unsigned row;
  kind call;
  pair of;
  uint32_t numbers[3];
  pigy_status status;
  run in[4], expected[2];
  pigy_certificate *certificates;
  pigy_vrp *vrps, *announced, *withdrawn;
  pigy_route *routes;
  size_t count, route_count, announced_count, withdrawn_count, last;
  uint8_t reason;
  int has_null;
} question;

static atomic_uint calls, faults;

/* Returns a marked block of this length, or of one octet if the length is 0. */
static uint8_t *block(size_t length) {
  uint8_t *made = malloc(length ? length : 1);
  if (!made) exit(2);
  memset(made, MARK, length ? length : 1);
  return made;
}

static void expect(int is_so, unsigned row, const char *what) {
  if (is_so) return;
  if (faults++ < 20) printf("row %u: %s\n", row, what);
}

static int is_marked(const uint8_t *octets, size_t from, size_t to) {
  while (from < to)
    if (octets[from++] != MARK) return 0;
  return 1;
}

/* Returns a buffer for a call of the row. It is NULL if the capacity is 0 and has_null is 1. */
static uint8_t *buffer(const question *q, size_t capacity) { return capacity || !q->has_null ? block(capacity) : 0; }

/* Returns whether an output has the expected octets. */
static int is_same(const uint8_t *found, const run *expected) {
  return !expected->length || !memcmp(found, expected->octets, expected->length);
}

/* ---- rows */

static run read_run(const char *word) {
  run found = {0, strcmp(word, "-") ? strlen(word) / 2 : 0};
  found.octets = block(found.length);
  for (size_t i = 0; i < found.length; i++) {
    unsigned octet;
    if (sscanf(word + 2 * i, "%2x", &octet) != 1) exit(2);
    found.octets[i] = (uint8_t)octet;
  }
  return found;
}

static void read_numbers(question *q, const char *word) {
  for (int i = 0; i < 3 && strcmp(word, "-"); i++) {
    char *end;
    q->numbers[i] = (uint32_t)strtoul(word, &end, 10);
    if (!*end) return;
    word = end + 1;
  }
}

static void read_certificates(question *q, const char *word) {
  pigy_certificate found[LONGEST_PATH];
  while (strcmp(word, "-") && q->count < LONGEST_PATH) {
    unsigned long numbers[6];
    char *end = 0;
    for (int i = 0; i < 6; i++, word = end + 1) numbers[i] = strtoul(word, &end, 10);
    found[q->count++] = (pigy_certificate){numbers[0], numbers[1], numbers[2], numbers[3],
                                           (uint32_t)numbers[4], (uint32_t)numbers[5]};
    if (!*end) break;
  }
  q->certificates = (pigy_certificate *)(void *)block(q->count * sizeof *found);
  if (q->count) memcpy(q->certificates, found, q->count * sizeof *found);
}

static uint32_t read_asn(const uint8_t *octets) {
  return (uint32_t)octets[0] << 24 | (uint32_t)octets[1] << 16 | (uint32_t)octets[2] << 8 | octets[3];
}

/* Reads VRPs of 23 octets each: address, AS, family, length, maximum length. */
static pigy_vrp *read_vrps(const run *in, size_t *count) {
  pigy_vrp *found = (pigy_vrp *)(void *)block(in->length / 23 * sizeof *found);
  *count = in->length / 23;
  for (size_t i = 0; i < *count; i++) {
    const uint8_t *octets = in->octets + 23 * i;
    memcpy(found[i].address, octets, 16);
    found[i].asn = read_asn(octets + 16);
    found[i].family = octets[20];
    found[i].len = octets[21];
    found[i].max_len = octets[22];
  }
  return found;
}

/* Reads routes of 22 octets each: address, AS, family, length. */
static pigy_route *read_routes(const run *in, size_t *count) {
  pigy_route *found = (pigy_route *)(void *)block(in->length / 22 * sizeof *found);
  *count = in->length / 22;
  for (size_t i = 0; i < *count; i++) {
    const uint8_t *octets = in->octets + 22 * i;
    memcpy(found[i].address, octets, 16);
    found[i].asn = read_asn(octets + 16);
    found[i].family = octets[20];
    found[i].len = octets[21];
  }
  return found;
}

static void name_call(question *q, const char *call) {
  static const struct {
    const char *name;
    kind call;
    pair of;
  } names[] = {{"verify", VERIFY, {0}}, {"path", PATH, {0}}, {"cover", COVER, {0}}, {"answer", ANSWER, {0}},
               {"origins", ORIGINS, {0}}, {"covering", COVERING, {0}}, {"vrps", VRPS, {0}}, {"changed", CHANGED, {0}},
               {"differ", DIFFER, {0}}, {"changes", CHANGES, {0}}, {"read", READ, {0}}, {"text", TEXT, {0}},
               {"unexpired", UNEXPIRED, {0}}, {"slurm", SLURM, {0}},
               {"as_ranges", AS_RANGES, {0}}, {"ip_ranges", IP_RANGES, {0}}, {"contains_asn", HAS_ASN, {0}},
               {"contains_prefix", HAS_PREFIX, {0}}, {"print", PRINT, {0}},
               {"routes", ROUTES, {0}}, {"vrp_from_text", READ_VRP, {0}}, {"route_from_text", READ_ROUTE, {0}},
               {"vrp_text", PRINT_VRP, {0}}, {"route_text", PRINT_ROUTE, {0}},
               {"union", MAKE, {pigy_union, pigy_resources_union, 0, 0}},
               {"intersection", MAKE, {pigy_intersection, pigy_resources_intersection, 0, 0}},
               {"difference", MAKE, {pigy_difference, pigy_resources_difference, 0, 0}},
               {"symmetric_difference", MAKE, {0, pigy_resources_symmetric_difference, 0, 0}},
               {"contains", TEST, {0, 0, pigy_contains, pigy_resources_contains}},
               {"equal", TEST, {0, 0, pigy_equal, pigy_resources_equal}}};
  for (size_t i = 0; i < sizeof names / sizeof *names; i++)
    if (!strcmp(call, names[i].name)) {
      q->call = names[i].call;
      q->of = names[i].of;
      return;
    }
  exit(2);
}

/* ---- calls */

/* A call that is being made: the row with its arguments, the handles that it reads, and all that it stores. */
typedef struct {
  const question *q;
  const pigy_resources *a, *b;
  const pigy_table *table, *next, *const *tables;
  void *list, *second;
  size_t table_count, capacity, second_capacity, len, second_len, index, expired, item;
  uint8_t answer, reason;
  pigy_buffers out, excess;
  pigy_resources *set, *over;
  pigy_table *made;
} attempt;

/* What a call stores: a list and its length, a text and its length, an index, an answer, a reason, a set in buffers,
 * overclaimed resources in buffers, and handles. WITHDRAWN is a second list and its length. REASONS is a second list
 * of the same length, which the call does not store if its capacity is 0. EXPIRED is the number of expired VRPs, and
 * ITEM the number of an item or a member of a SLURM file. Or the call takes no memory. */
enum { LEN = 1, IS_TEXT = 2, INDEX = 4, ANSWERS = 8, REASON = 16, OUT = 32, EXCESS = 64, SET = 128, OVER = 256,
       TABLE = 512, NO_MEMORY = 1024, WITHDRAWN = 2048, REASONS = 4096, SECOND = WITHDRAWN | REASONS,
       EXPIRED = 8192, ITEM = 16384 };

typedef struct {
  pigy_status (*make)(attempt *);
  unsigned stores;
} form;

/* Returns the set of two runs. If has_null is 1, a run of length 0 is NULL with another length. */
static pigy_set set_of(const question *q, const run *as, const run *ip) {
  pigy_set set = {as->octets, as->length, ip->octets, ip->length};
  if (q->has_null && !as->length) set.as = 0, set.as_len = ANY;
  if (q->has_null && !ip->length) set.ip = 0, set.ip_len = ANY;
  return set;
}

static pigy_set first_of(const question *q) {
  static const run none = {0, 0};
  if (q->call == COVER || q->call == IP_RANGES) return set_of(q, &none, q->in);
  if (q->call == AS_RANGES) return set_of(q, q->in, &none);
  return set_of(q, q->in, q->in + 1);
}

static pigy_set second_of(const question *q) { return set_of(q, q->in + 2, q->in + 3); }

/* Returns the extensions of the certificate of a row. If has_null is 1, the members of an absent extension are
 * numbers that are no addresses. */
static pigy_set certificate_of(const question *q) {
  pigy_set set = second_of(q);
  if (q->has_null && !(q->numbers[1] & PIGY_HAS_AS)) set.as = (const uint8_t *)(uintptr_t)1, set.as_len = SIZE_MAX;
  if (q->has_null && !(q->numbers[1] & PIGY_HAS_IP)) set.ip = (const uint8_t *)(uintptr_t)1, set.ip_len = SIZE_MAX;
  return set;
}

static pigy_prefix prefix_of(const run *in) {
  pigy_prefix prefix;
  memcpy(prefix.address, in->octets, 16);
  prefix.family = in->octets[16];
  prefix.len = in->octets[17];
  return prefix;
}

static const char *text_in(const run *in) { return (const char *)in->octets; }

static pigy_status make_verify(attempt *a) {
  const uint32_t *n = a->q->numbers;
  return pigy_verify(first_of(a->q), certificate_of(a->q), n[1], n[0], n[2], &a->out, &a->excess);
}

static pigy_status make_path(attempt *a) {
  const question *q = a->q;
  return pigy_verify_path(first_of(q), q->in[2].octets, q->in[2].length, q->certificates, q->count, q->numbers[0],
                          &a->out, &a->excess, &a->index);
}

static pigy_status make_pair(attempt *a) {
  return a->q->of.make(first_of(a->q), second_of(a->q), a->q->numbers[0], &a->out);
}

static pigy_status make_test(attempt *a) {
  return a->q->of.test(first_of(a->q), second_of(a->q), a->q->numbers[0], &a->answer);
}

static pigy_status make_text(attempt *a) {
  return pigy_set_from_text(text_in(a->q->in), a->q->in[0].length, a->q->numbers[0], &a->out);
}

static pigy_status make_list(attempt *a) {
  const run *in = a->q->in;
  const uint32_t *n = a->q->numbers;
  if (a->q->call == COVER)
    return pigy_prefixes(in->octets, in->length, n[0], n[1], (pigy_prefix *)a->list, a->capacity, &a->len);
  if (a->q->call == AS_RANGES)
    return pigy_as_ranges(in->octets, in->length, n[0], (pigy_as_range *)a->list, a->capacity, &a->len);
  return pigy_ip_ranges(in->octets, in->length, n[0], n[1], (pigy_ip_range *)a->list, a->capacity, &a->len);
}

static pigy_status make_answer(attempt *a) {
  return pigy_answer(text_in(a->q->in), a->q->in[0].length, (char *)a->list, a->capacity, &a->len);
}

static pigy_status make_vrps_of_file(attempt *a) {
  return pigy_vrps_read(a->q->in[0].octets, a->q->in[0].length, (pigy_vrp *)a->list, a->capacity, &a->len, &a->index);
}

static pigy_status make_unexpired(attempt *a) {
  const question *q = a->q;
  uint64_t time = (uint64_t)q->numbers[0] << 32 | q->numbers[1];
  return pigy_vrps_read_unexpired(q->in[0].octets, q->in[0].length, time, (pigy_vrp *)a->list, a->capacity, &a->len,
                                  &a->expired, &a->index);
}

static pigy_status apply_slurm(attempt *a) {
  const question *q = a->q;
  return pigy_slurm_apply(q->in[0].octets, q->in[0].length, q->vrps, q->count, (pigy_vrp *)a->list, a->capacity,
                          &a->len, &a->index, &a->item);
}

static pigy_status make_routes_of_lines(attempt *a) {
  const run *in = a->q->in;
  return pigy_routes_read(text_in(in), in->length, (pigy_route *)a->list, a->capacity, &a->len, &a->index);
}

static pigy_status print_value(attempt *a) {
  const question *q = a->q;
  if (q->call == PRINT_VRP) return pigy_vrp_text(q->vrps, (char *)a->list, a->capacity, &a->len);
  return pigy_route_text(q->routes, (char *)a->list, a->capacity, &a->len);
}

static pigy_status make_origins(attempt *a) {
  const question *q = a->q;
  return pigy_validate(q->vrps, q->count, q->routes, q->route_count, (uint8_t *)a->list, a->capacity, &a->len,
                       &a->index);
}

/* Calls on handles of sets. */

static pigy_status read_first(attempt *a) { return pigy_resources_read(first_of(a->q), a->q->numbers[0], &a->set); }
static pigy_status read_second(attempt *a) { return pigy_resources_read(second_of(a->q), a->q->numbers[0], &a->set); }
static pigy_status write_der(attempt *a) { return pigy_resources_der(a->a, &a->out); }
static pigy_status combine(attempt *a) { return a->q->of.make_of_handles(a->a, a->b, &a->set); }
static pigy_status compare(attempt *a) { return a->q->of.test_of_handles(a->a, a->b, &a->answer); }
static pigy_status has_asn(attempt *a) { return pigy_resources_contains_asn(a->a, a->q->numbers[1], &a->answer); }

static pigy_status read_text(attempt *a) {
  return pigy_resources_from_text(text_in(a->q->in), a->q->in[0].length, a->q->numbers[0], &a->set);
}

static pigy_status verify_by(attempt *a) {
  const uint32_t *n = a->q->numbers;
  return pigy_resources_verify(a->a, certificate_of(a->q), n[1], n[0], n[2], &a->set, &a->over);
}

static pigy_status path_by(attempt *a) {
  const question *q = a->q;
  return pigy_resources_verify_path(a->a, q->in[2].octets, q->in[2].length, q->certificates, q->count, q->numbers[0],
                                    &a->set, &a->over, &a->index);
}

static pigy_status has_prefix(attempt *a) {
  pigy_prefix prefix = prefix_of(a->q->in + 2);
  return pigy_resources_contains_prefix(a->a, &prefix, &a->answer);
}

static pigy_status list_of_set(attempt *a) {
  uint32_t family = a->q->numbers[1];
  if (a->q->call == COVER)
    return pigy_resources_prefixes(a->a, family, (pigy_prefix *)a->list, a->capacity, &a->len);
  if (a->q->call == AS_RANGES)
    return pigy_resources_as_ranges(a->a, (pigy_as_range *)a->list, a->capacity, &a->len);
  return pigy_resources_ip_ranges(a->a, family, (pigy_ip_range *)a->list, a->capacity, &a->len);
}

static pigy_status print_set(attempt *a) {
  return pigy_resources_text(a->a, a->q->numbers[1], (char *)a->list, a->capacity, &a->len);
}

/* Calls on tables. */

static pigy_status make_table(attempt *a) { return pigy_table_new(a->q->vrps, a->q->count, &a->made, &a->index); }

static pigy_status change_table(attempt *a) {
  const question *q = a->q;
  return pigy_table_with_changes(a->table, q->announced, q->announced_count, q->withdrawn, q->withdrawn_count,
                                 &a->made, &a->index);
}

static pigy_status validate_one(attempt *a) {
  return pigy_table_validate(a->table, a->q->routes, &a->answer, &a->reason);
}

static pigy_status validate_all(attempt *a) {
  return pigy_table_validate_routes(a->table, a->q->routes, a->q->route_count, (uint8_t *)a->list, a->capacity,
                                    (uint8_t *)a->second, a->second_capacity, &a->len, &a->index);
}

static pigy_status validate_by_several(attempt *a) {
  return pigy_tables_validate_routes(a->tables, a->table_count, a->q->routes, a->q->route_count, (uint8_t *)a->list,
                                     a->capacity, (uint8_t *)a->second, a->second_capacity, &a->len, &a->index);
}

static pigy_status revalidate(attempt *a) {
  return pigy_table_revalidate(a->table, a->next, a->q->routes, a->q->route_count, (uint8_t *)a->list, a->capacity,
                               &a->len, &a->index);
}

static pigy_status list_changes(attempt *a) {
  return pigy_table_changes(a->table, a->next, (pigy_vrp *)a->list, a->capacity, &a->len, (pigy_vrp *)a->second,
                            a->second_capacity, &a->second_len);
}

static pigy_status list_covering(attempt *a) {
  return pigy_table_covering(a->table, a->q->routes, (pigy_covering *)a->list, a->capacity, &a->len);
}

static pigy_status list_vrps(attempt *a) {
  return pigy_table_vrps(a->table, (pigy_vrp *)a->list, a->capacity, &a->len);
}

static const form of_verify = {make_verify, OUT | EXCESS}, of_path = {make_path, OUT | EXCESS | INDEX},
                  of_pair = {make_pair, OUT}, of_test = {make_test, ANSWERS}, of_text = {make_text, OUT},
                  of_list = {make_list, LEN}, of_answer = {make_answer, LEN | IS_TEXT},
                  of_file = {make_vrps_of_file, LEN | INDEX}, of_origins = {make_origins, LEN | INDEX},
                  of_unexpired = {make_unexpired, LEN | EXPIRED | INDEX},
                  of_slurm = {apply_slurm, LEN | INDEX | ITEM},
                  of_lines = {make_routes_of_lines, LEN | INDEX}, of_value = {print_value, LEN | IS_TEXT | NO_MEMORY},
                  of_first = {read_first, SET}, of_second = {read_second, SET}, of_der = {write_der, OUT},
                  of_combine = {combine, SET}, of_compare = {compare, ANSWERS | NO_MEMORY},
                  of_asn = {has_asn, ANSWERS | NO_MEMORY}, of_prefix = {has_prefix, ANSWERS | NO_MEMORY},
                  of_read_text = {read_text, SET}, of_verify_by = {verify_by, SET | OVER},
                  of_path_by = {path_by, SET | OVER | INDEX}, of_list_by = {list_of_set, LEN},
                  of_print = {print_set, LEN | IS_TEXT}, of_table = {make_table, TABLE | INDEX},
                  of_change = {change_table, TABLE | INDEX}, of_one = {validate_one, ANSWERS | REASON | NO_MEMORY},
                  of_all = {validate_all, LEN | REASONS | INDEX | NO_MEMORY},
                  of_several = {validate_by_several, LEN | REASONS | INDEX | NO_MEMORY},
                  of_revalidate = {revalidate, LEN | INDEX | NO_MEMORY}, of_changes = {list_changes, LEN | WITHDRAWN},
                  of_covering = {list_covering, LEN}, of_vrps = {list_vrps, LEN};

/* ---- what a call stores */

/* The octets of an element of the lists that the call of a row stores. */
static size_t size_of(const question *q) {
  switch (q->call) {
    case COVER: return sizeof(pigy_prefix);
    case AS_RANGES: return sizeof(pigy_as_range);
    case IP_RANGES: return sizeof(pigy_ip_range);
    case READ: case UNEXPIRED: case SLURM: case VRPS: case CHANGES: return sizeof(pigy_vrp);
    case ROUTES: return sizeof(pigy_route);
    case COVERING: return sizeof(pigy_covering);
    default: return 1;
  }
}

/* The octets of the same element in a row. */
static size_t size_in_row(const question *q) {
  switch (q->call) {
    case COVER: return q->numbers[1] == PIGY_IPV4 ? 5 : 17;
    case READ: case UNEXPIRED: case SLURM: case VRPS: case CHANGES: return 23;
    case ROUTES: return 22;
    case COVERING: return 24;
    default: return size_of(q);
  }
}

static void put_asn(uint8_t *to, uint32_t asn) {
  for (int i = 0; i < 4; i++) to[i] = (uint8_t)(asn >> (24 - 8 * i));
}

static void put_vrp(uint8_t *to, const pigy_vrp *vrp) {
  memcpy(to, vrp->address, 16);
  put_asn(to + 16, vrp->asn);
  to[20] = vrp->family;
  to[21] = vrp->len;
  to[22] = vrp->max_len;
}

static void put_route(uint8_t *to, const pigy_route *route) {
  memcpy(to, route->address, 16);
  put_asn(to + 16, route->asn);
  to[20] = route->family;
  to[21] = route->len;
}

/* Writes an element of a list in the form of a row. */
static void put(const question *q, const void *list, size_t at, uint8_t *to) {
  static const uint8_t zeros[16];
  const pigy_prefix *prefix = (const pigy_prefix *)list + at;
  const pigy_as_range *range = (const pigy_as_range *)list + at;
  size_t octets = size_in_row(q);
  switch (q->call) {
    case COVER:
      memcpy(to, prefix->address, octets - 1);
      to[octets - 1] = prefix->len;
      expect(prefix->family == q->numbers[1], q->row, "another family of a prefix");
      expect(!memcmp(prefix->address + octets - 1, zeros, 17 - octets), q->row, "octets behind an address");
      return;
    case AS_RANGES:
      put_asn(to, range->min);
      put_asn(to + 4, range->max);
      return;
    case READ: case UNEXPIRED: case SLURM: case VRPS: case CHANGES: put_vrp(to, (const pigy_vrp *)list + at); return;
    case ROUTES: put_route(to, (const pigy_route *)list + at); return;
    case COVERING:
      put_vrp(to, &((const pigy_covering *)list)[at].vrp);
      to[23] = (uint8_t)((const pigy_covering *)list)[at].mismatch;
      return;
    default: memcpy(to, (const uint8_t *)list + octets * at, octets);
  }
}

/* Checks a list that a call stored. The call stored none if `expected` is null. A text has a NUL if `nul` is 1. */
static void expect_list(const question *q, const void *list, size_t capacity, const run *expected, size_t nul) {
  size_t octets = size_in_row(q), wanted = expected ? expected->length / octets : 0, end = wanted * size_of(q);
  uint8_t *found = block(wanted * octets);
  for (size_t i = 0; i < wanted; i++) put(q, list, i, found + i * octets);
  expect(!expected || is_same(found, expected), q->row, "another list");
  expect(!nul || !((const uint8_t *)list)[end], q->row, "no NUL behind a text");
  expect(is_marked((const uint8_t *)list, end + nul, capacity * size_of(q)), q->row, "octets behind a list");
  free(found);
}

/* Checks the lists and the lengths that a call stored. If `fits` is 0, a buffer was too small. */
static void expect_lists(const form *f, const attempt *a, int fits) {
  const question *q = a->q;
  const run *first = q->expected, *second = q->expected + 1;
  size_t octets = size_in_row(q), wanted = first->length / octets;
  size_t nul = fits && (f->stores & IS_TEXT) && q->status == PIGY_OK && a->capacity > wanted;
  expect(a->len == wanted, q->row, "another length");
  expect_list(q, a->list, a->capacity, fits ? first : 0, nul);
  expect(a->second_len == (f->stores & WITHDRAWN ? second->length / octets : ANY), q->row, "another second length");
  if (f->stores & SECOND) expect_list(q, a->second, a->second_capacity, fits && a->second_capacity ? second : 0, 0);
}

/* Checks buffers of a set. If `stores` is 0, the call stored no set in them. Frees them. */
static void end_buffers(const question *q, pigy_buffers *of, int stores, int fits) {
  const run *expected = q->expected;
  size_t as_len = stores ? expected[0].length : 0, ip_len = stores ? expected[1].length : 0;
  expect(of->as_len == as_len && of->ip_len == ip_len, q->row, "other lengths of a set");
  if (stores && fits)
    expect(is_same(of->as, expected) && is_same(of->ip, expected + 1), q->row, "other octets of a set");
  if (of->as) expect(is_marked(of->as, fits ? as_len : 0, of->as_capacity), q->row, "octets behind AS identifiers");
  if (of->ip) expect(is_marked(of->ip, fits ? ip_len : 0, of->ip_capacity), q->row, "octets behind address blocks");
  free(of->as);
  free(of->ip);
}

/* Returns buffers for a set. If has_null is 1, a buffer of capacity 0 is NULL with another capacity. */
static pigy_buffers buffers_of(const question *q, size_t as_capacity, size_t ip_capacity) {
  pigy_buffers made = {buffer(q, as_capacity), as_capacity, ANY, buffer(q, ip_capacity), ip_capacity, ANY};
  if (!made.as) made.as_capacity = ANY;
  if (!made.ip) made.ip_capacity = ANY;
  return made;
}

/* Prepares all that a call stores. The handles are addresses that the library did not make. */
static void prepare(const form *f, attempt *a, size_t first, size_t second) {
  a->list = f->stores & LEN ? buffer(a->q, first * size_of(a->q)) : 0;
  a->second = f->stores & SECOND ? buffer(a->q, second * size_of(a->q)) : 0;
  a->capacity = first;
  a->second_capacity = second;
  a->len = a->second_len = a->index = a->expired = a->item = ANY;
  a->answer = a->reason = MARK;
  if (f->stores & OUT) a->out = buffers_of(a->q, first, second);
  if (f->stores & EXCESS) a->excess = buffers_of(a->q, first, second);
  a->set = a->over = (pigy_resources *)(void *)&calls;
  a->made = (pigy_table *)(void *)&calls;
}

/* Checks an answer, a reason, an index and handles that a call stored. It stores no other. */
static void expect_stored(const form *f, const attempt *a, size_t last, uint8_t reason, int has_result, int is_over) {
  const question *q = a->q;
  const void *other = &calls;
  unsigned stores = f->stores;
  int is_of_item = stores & ITEM && PIGY_KIND(q->status) != PIGY_BAD_ARGUMENT;
  size_t index = is_of_item || (stores & EXPIRED && q->status == PIGY_OK) ? 0 : last;
  size_t expired = q->status == PIGY_OK ? last : 0, item = is_of_item ? last : 0;
  expect(a->index == (stores & INDEX ? index : ANY), q->row, "another index");
  expect(a->expired == (stores & EXPIRED ? expired : ANY), q->row, "another number of expired VRPs");
  expect(a->item == (stores & ITEM ? item : ANY), q->row, "another number of an item");
  expect(a->answer == (stores & ANSWERS ? last : MARK), q->row, "another answer");
  expect(a->reason == (stores & REASON ? reason : MARK), q->row, "another reason");
  expect(stores & SET ? a->set != other && (a->set != 0) == has_result : a->set == other, q->row, "another set");
  expect(stores & OVER ? a->over != other && (a->over != 0) == is_over : a->over == other, q->row, "another excess");
  expect(stores & TABLE ? a->made != other && (a->made != 0) == has_result : a->made == other, q->row,
         "another table");
}

/* Makes a call with buffers of these capacities, and checks all that it stores. The first list has the first capacity,
 * in elements, and a second list the second one. The caller frees the handles of the result. */
static attempt ask(const form *f, const attempt *base, size_t first, size_t second) {
  attempt a = *base;
  const question *q = a.q;
  int is_over = PIGY_KIND(q->status) == PIGY_OVERCLAIM, fits = 1;
  pigy_status found;
  prepare(f, &a, first, second);
  if (f->stores & LEN) fits = q->expected[0].length / size_in_row(q) <= first;
  if (f->stores & SECOND && (second || f->stores & WITHDRAWN))
    fits = fits && q->expected[1].length / size_in_row(q) <= second;
  if (f->stores & OUT) fits = q->expected[0].length <= first && q->expected[1].length <= second;
  found = f->make(&a);
  calls++;
  expect(found == (fits ? q->status : PIGY_TOO_SMALL), q->row, "another status");
  expect_stored(f, &a, q->last, q->reason, found == PIGY_OK, is_over);
  if (f->stores & LEN) expect_lists(f, &a, fits);
  if (f->stores & OUT) end_buffers(q, &a.out, !is_over, fits);
  if (f->stores & EXCESS) end_buffers(q, &a.excess, is_over, fits);
  free(a.list);
  free(a.second);
  a.list = a.second = 0;
  if (!(f->stores & SET)) a.set = 0;
  if (!(f->stores & OVER)) a.over = 0;
  if (!(f->stores & TABLE)) a.made = 0;
  return a;
}

/* ---- memory refused */

static _Thread_local int counts, was_refused; /* whether allocations are counted; whether one was refused */
static _Thread_local size_t granted;          /* how many allocations succeed before the next ones are refused */

void *__real_malloc(size_t length);
void *__wrap_malloc(size_t length);
void *__real_realloc(void *at, size_t length);
void *__wrap_realloc(void *at, size_t length);

static int is_refused(void) {
  if (!counts) return 0;
  if (granted) return granted--, 0;
  return was_refused = 1;
}

void *__wrap_malloc(size_t length) { return is_refused() ? 0 : __real_malloc(length); }
void *__wrap_realloc(void *at, size_t length) { return is_refused() ? 0 : __real_realloc(at, length); }

/* Checks that a call without memory stored no result. Frees the buffers of sets. */
static void expect_refused(const form *f, attempt *a) {
  const question *q = a->q;
  expect_stored(f, a, 0, 0, 0, 0);
  if (f->stores & LEN) {
    expect(!a->len && (!a->second_len || !(f->stores & WITHDRAWN)), q->row, "a length where memory is refused");
    expect_list(q, a->list, a->capacity, 0, 0);
  }
  if (f->stores & SECOND) expect_list(q, a->second, a->second_capacity, 0, 0);
  if (f->stores & OUT) end_buffers(q, &a->out, 0, 1);
  if (f->stores & EXCESS) end_buffers(q, &a->excess, 0, 1);
}

/* Repeats a call with the first n allocations granted and the others refused, for n from 0 until none is refused. If an
 * allocation is refused, the call has to return PIGY_MEMORY and to store no result. */
static void ask_refused(const form *f, const attempt *base, size_t first, size_t second) {
  int is_refused_now = 1;
  for (size_t n = 0; is_refused_now; n++) {
    attempt a = *base;
    pigy_status found;
    prepare(f, &a, first, second);
    was_refused = 0;
    granted = n;
    counts = 1;
    found = f->make(&a);
    counts = 0;
    calls++;
    is_refused_now = was_refused;
    expect(!is_refused_now || !(f->stores & NO_MEMORY), base->q->row, "memory by a call that takes none");
    expect((found == PIGY_MEMORY) == is_refused_now, base->q->row, "another status where memory is refused");
    if (is_refused_now) {
      expect_refused(f, &a);
    } else {
      if (f->stores & OUT) free(a.out.as), free(a.out.ip);
      if (f->stores & EXCESS) free(a.excess.as), free(a.excess.ip);
      if (f->stores & SET) pigy_resources_free(a.set);
      if (f->stores & OVER) pigy_resources_free(a.over);
      if (f->stores & TABLE) pigy_table_free(a.made);
    }
    free(a.list);
    free(a.second);
  }
}

/* ---- one row */

/* How much of a row a test asks: each capacity and each refused allocation, some capacities with NULL arrays, or the
 * required capacity alone. */
typedef enum { ALL, WITH_NULL, ONCE } extent;

/* Returns the least capacity, above 0, that a test asks for a list. If the list is long, only every eighth row has each
 * capacity. */
static size_t least_of(const question *q, size_t wanted) { return wanted > SMALL && q->row % 8 ? wanted - 1 : 1; }

/* Makes a call that stores one list or two, with buffers of several capacities. With an error of a route the buffers
 * are also large enough for all routes. */
static void ask_list(const form *f, const attempt *a, extent how) {
  const question *q = a->q;
  size_t has_second = f->stores & SECOND ? 1 : 0;
  size_t first = q->expected[0].length / size_in_row(q), second = has_second * q->expected[1].length / size_in_row(q);
  ask(f, a, first, second);
  if (how == ONCE) return;
  ask(f, a, 0, 0);
  ask(f, a, first + 1, second + has_second);
  if (q->status != PIGY_OK && q->route_count) ask(f, a, q->route_count, has_second * q->route_count);
  for (size_t n = least_of(q, first); n < first; n++) ask(f, a, n, second);
  if (has_second) {
    ask(f, a, first, 0);
    ask(f, a, 0, second);
    ask(f, a, first, second + 1);
    for (size_t n = least_of(q, second); n < second; n++) ask(f, a, first, n);
  }
  if (how == ALL) ask_refused(f, a, first, second);
}

/* Makes a call that stores a set in buffers, with buffers of several capacities. If the outputs are long, only every
 * eighth row has each capacity. */
static void ask_set(const form *f, const attempt *a, extent how) {
  const run *expected = a->q->expected;
  size_t as = expected[0].length, ip = expected[1].length;
  ask(f, a, as, ip);
  if (how == ONCE) return;
  ask(f, a, 0, 0);
  ask(f, a, as + 1, ip + 1);
  ask(f, a, as, 0);
  ask(f, a, 0, ip);
  if (how == WITH_NULL) return;
  if (as + ip <= SMALL || a->q->row % 8 == 0) {
    for (size_t capacity = 1; capacity < as; capacity++) ask(f, a, capacity, ip);
    for (size_t capacity = 1; capacity < ip; capacity++) ask(f, a, as, capacity);
  }
  ask_refused(f, a, as, ip);
}

/* Makes a call that stores handles of sets. The sets have to be those of the row. */
static void ask_made(const form *f, const attempt *base, extent how) {
  attempt made = ask(f, base, 0, 0), a = made;
  question q = *base->q;
  q.status = PIGY_OK;
  a.q = &q;
  a.a = made.set ? made.set : made.over;
  if (a.a) ask_set(&of_der, &a, how);
  pigy_resources_free(made.set);
  pigy_resources_free(made.over);
  if (how == ALL) ask_refused(f, base, 0, 0);
}

static void ask_answer(const form *f, const attempt *a, extent how) {
  ask(f, a, 0, 0);
  if (how == ALL) ask_refused(f, a, 0, 0);
}

/* Reads the text of a VRP or of a route, also while all memory is refused. With an error all members are 0. */
static void ask_value(const question *q) {
  static const uint8_t none[23];
  size_t octets = q->call == READ_VRP ? 23 : 22;
  for (int refuses = 0; refuses < 2; refuses++) {
    pigy_vrp *vrp = (pigy_vrp *)(void *)block(sizeof *vrp);
    pigy_route *route = (pigy_route *)(void *)block(sizeof *route);
    uint8_t found[23];
    pigy_status status;
    was_refused = 0;
    granted = 0;
    counts = refuses;
    status = q->call == READ_VRP ? pigy_vrp_from_text(text_in(q->in), q->in->length, vrp)
                                 : pigy_route_from_text(text_in(q->in), q->in->length, route);
    counts = 0;
    calls++;
    if (q->call == READ_VRP) put_vrp(found, vrp);
    if (q->call == READ_ROUTE) put_route(found, route);
    expect(!was_refused, q->row, "memory by a call that takes none");
    expect(status == q->status, q->row, "another status of a text");
    expect(!memcmp(found, status == PIGY_OK ? q->expected->octets : none, octets), q->row, "another value of a text");
    free(vrp);
    free(route);
  }
}

/* Checks that the capacities suffice of which the header says so. */
static void expect_capacities(const question *q) {
  size_t as = 3 * (q->in[0].length + q->in[2].length) + 64, ip = 3 * (q->in[1].length + q->in[3].length) + 64;
  const run *expected = q->expected;
  if (q->call == VERIFY || q->call == MAKE)
    expect(expected[0].length <= as && expected[1].length <= ip, q->row, "more than a capacity that suffices");
  if (q->call == TEXT)
    expect(expected[0].length + expected[1].length <= 8 * q->in[0].length + 64, q->row, "a longer set of a text");
  if (q->call == READ || q->call == UNEXPIRED)
    expect(expected[0].length / 23 <= q->in[0].length / 8 + 1, q->row, "more VRPs of a file");
  if (q->call == SLURM)
    expect(expected[0].length / 23 <= q->count + q->in[0].length / 16, q->row, "more VRPs after a SLURM file");
  if (q->call == ROUTES)
    expect(expected[0].length / 22 <= q->in[0].length / 7 + 1, q->row, "more routes of lines");
  if (q->call == PRINT_VRP) expect(expected[0].length < PIGY_VRP_TEXT_MAX, q->row, "a longer text of a VRP");
  if (q->call == PRINT_ROUTE) expect(expected[0].length < PIGY_ROUTE_TEXT_MAX, q->row, "a longer text of a route");
}

/* Makes the call of a row, which does not read handles. */
static void ask_by_der(const question *q, extent how) {
  attempt a = {.q = q};
  switch (q->call) {
    case VERIFY: ask_set(&of_verify, &a, how); return;
    case PATH: ask_set(&of_path, &a, how); return;
    case MAKE:
      if (q->of.make) ask_set(&of_pair, &a, how);
      return;
    case TEST: ask_answer(&of_test, &a, how); return;
    case TEXT: ask_set(&of_text, &a, how); return;
    case COVER: case AS_RANGES: case IP_RANGES: ask_list(&of_list, &a, how); return;
    case ANSWER: ask_list(&of_answer, &a, how); return;
    case READ: ask_list(&of_file, &a, how); return;
    case UNEXPIRED: ask_list(&of_unexpired, &a, how); return;
    case SLURM: ask_list(&of_slurm, &a, how); return;
    case ROUTES: ask_list(&of_lines, &a, how); return;
    case READ_VRP: case READ_ROUTE: ask_value(q); return;
    case PRINT_VRP: case PRINT_ROUTE: ask_list(&of_value, &a, how); return;
    case ORIGINS: ask_list(&of_origins, &a, how); return;
    default: return;
  }
}

/* Returns whether a status is an error of a set that is read. */
static int is_of_set(pigy_status status) {
  uint32_t of = PIGY_KIND(status);
  return of == PIGY_BAD_AS || of == PIGY_BAD_IP || of == PIGY_INHERITED || status == PIGY_BAD_ENCODING;
}

/* Reads a set of a row, and returns its handle. It is NULL with an error. The status has to be the expected one. */
static pigy_resources *read_set(const form *f, const question *q, pigy_status status, extent how) {
  question of = *q;
  attempt a = {.q = &of};
  of.status = status;
  if (how == ALL) ask_refused(f, &a, 0, 0);
  return ask(f, &a, 0, 0).set;
}

/* Makes the call on handles for a row whose sets were read. */
static void ask_with(const attempt *a, extent how) {
  switch (a->q->call) {
    case VERIFY: ask_made(&of_verify_by, a, how); return;
    case PATH: ask_made(&of_path_by, a, how); return;
    case MAKE: ask_made(&of_combine, a, how); return;
    case TEST: ask_answer(&of_compare, a, how); return;
    case HAS_ASN: ask_answer(&of_asn, a, how); return;
    case HAS_PREFIX: ask_answer(&of_prefix, a, how); return;
    case PRINT: ask_list(&of_print, a, how); return;
    default: ask_list(&of_list_by, a, how);
  }
}

/* Reads the sets of a row into handles, and makes the call on them. A call by DER checks an encoding, and `present` and
 * a mode, before it reads a set. So the row says nothing of the set then, and the call gets a set without resources. */
static void ask_by_handles(const question *q, extent how) {
  attempt a = {.q = q};
  pigy_status of_set = is_of_set(q->status) ? q->status & ~(uint32_t)PIGY_SECOND : PIGY_OK;
  int is_verified = q->call == VERIFY || q->call == PATH, is_second = q->status >= PIGY_SECOND;
  int is_early = is_verified && PIGY_KIND(q->status) == PIGY_BAD_ARGUMENT && (q->call == VERIFY || !q->last);
  pigy_resources *first = 0, *second = 0;
  if (q->call == TEXT) ask_made(&of_read_text, &a, how);
  if (q->call == TEXT || q->call > PRINT) return;
  if (is_early) {
    if (pigy_resources_from_text(0, 0, PIGY_ASN, &first) != PIGY_OK) exit(2);
  } else if (q->status == PIGY_BAD_FAMILY && pigy_resources_read(first_of(q), q->numbers[0], &first) != PIGY_OK) {
    return;
  } else if (!first) {
    first = read_set(&of_first, q, is_second ? PIGY_OK : of_set, how);
  }
  a.a = first;
  if (first && (q->call == MAKE || q->call == TEST)) {
    second = read_set(&of_second, q, is_second ? of_set : PIGY_OK, how);
    a.b = second;
  }
  if (first && (second || (q->call != MAKE && q->call != TEST))) ask_with(&a, how);
  pigy_resources_free(first);
  pigy_resources_free(second);
}

/* ---- tables */

/* Validates each route of a row in a call of its own. The second output of the row has the reasons. */
static void ask_each(const question *q, const attempt *table, extent how) {
  size_t count = q->status == PIGY_OK ? q->route_count : q->last + 1;
  for (size_t i = 0; i < count; i++) {
    question one = *q;
    attempt a = *table;
    uint8_t validity, reason;
    one.routes = q->routes + i;
    a.q = &one;
    if (q->status == PIGY_OK) {
      one.last = q->expected[0].octets[i];
      one.reason = q->expected[1].octets[i];
      ask_answer(&of_one, &a, how);
    } else if (i == q->last) {
      one.last = PIGY_NO_VALIDITY;
      one.reason = 0;
      ask_answer(&of_one, &a, how == ALL ? WITH_NULL : how);
    } else {
      expect(pigy_table_validate(table->table, one.routes, &validity, &reason) == PIGY_OK, q->row, "a route before");
    }
  }
}

/* Validates the routes of a row by several tables, which have its VRPs: the first half, no VRPs, and the other half. If
 * the row has no VRPs, it also validates them by no table. */
static void ask_several(const question *q, extent how) {
  enum { TABLES = 3 };
  attempt a = {.q = q, .table_count = TABLES};
  const size_t half = q->count / 2, from[TABLES] = {0, half, half}, to[TABLES] = {half, half, q->count};
  const pigy_table *tables[TABLES];
  pigy_table *made[TABLES];
  size_t index;
  for (int i = 0; i < TABLES; i++) {
    pigy_status found = pigy_table_new(q->vrps + from[i], to[i] - from[i], made + i, &index);
    expect(found == PIGY_OK, q->row, "one of several tables");
    tables[i] = made[i];
  }
  a.tables = tables;
  ask_list(&of_several, &a, how);
  if (!q->count) {
    a.table_count = 0;
    if (q->has_null) a.tables = 0;
    ask_list(&of_several, &a, how);
  }
  for (int i = 0; i < TABLES; i++) pigy_table_free(made[i]);
}

/* Compares each route of a row by two tables in a call of its own, also with the tables exchanged. Between a table and
 * itself no route has another validity. */
static void ask_each_twice(const question *q, const attempt *tables) {
  for (size_t i = 0; i < q->expected[0].length; i++) {
    question one = *q;
    run differs = {q->expected[0].octets + i, 1};
    uint8_t none = 0;
    attempt a = *tables, back = *tables, same = *tables;
    one.routes = q->routes + i;
    one.route_count = 1;
    one.expected[0] = differs;
    a.q = back.q = same.q = &one;
    back.table = tables->next;
    back.next = tables->table;
    same.next = tables->table;
    ask(&of_revalidate, &a, 1, 0);
    ask(&of_revalidate, &back, 1, 0);
    one.expected[0].octets = &none;
    ask(&of_revalidate, &same, 1, 0);
  }
}

/* Lists the VRPs of a table, which are those of the row. */
static void ask_vrps(const question *q, const pigy_table *table, extent how) {
  question of = *q;
  attempt a = {.q = &of, .table = table};
  size_t len = ANY;
  of.call = VRPS;
  expect(pigy_table_len(table, &len) == PIGY_OK && len == q->expected[0].length / 23, q->row, "another number of VRPs");
  ask_list(&of_vrps, &a, how);
}

/* Makes the next table of a row, and lists its VRPs. The first table has the same VRPs as before. */
static void ask_changed(const question *q, const pigy_table *table, extent how) {
  attempt a = {.q = q, .table = table}, made;
  size_t before = ANY, after = ANY;
  pigy_table_len(table, &before);
  made = ask(&of_change, &a, 0, 0);
  if (made.made) ask_vrps(q, made.made, how);
  if (how == ALL) ask_refused(&of_change, &a, 0, 0);
  pigy_table_len(table, &after);
  expect(before == after && before == q->count, q->row, "the table has changed");
  pigy_table_free(made.made);
}

/* Lists the VRPs in which the tables of a row differ, also with the tables exchanged, and with one table as both. The
 * VRPs of the row, as changes of the first table, make a table with the VRPs of the second one. */
static void ask_changes(const question *q, const attempt *tables, extent how) {
  question back = *q, none = *q;
  attempt a = {.q = &back, .table = tables->next, .next = tables->table};
  size_t announced_count, withdrawn_count, index;
  pigy_vrp *announced = read_vrps(q->expected, &announced_count);
  pigy_vrp *withdrawn = read_vrps(q->expected + 1, &withdrawn_count);
  pigy_table *made = 0;
  ask_list(&of_changes, tables, how);
  back.expected[0] = q->expected[1];
  back.expected[1] = q->expected[0];
  ask_list(&of_changes, &a, how);
  none.expected[0].length = none.expected[1].length = 0;
  a = (attempt){.q = &none, .table = tables->table, .next = tables->table};
  ask_list(&of_changes, &a, how);
  expect(pigy_table_with_changes(tables->table, announced, announced_count, withdrawn, withdrawn_count, &made,
                                 &index) == PIGY_OK, q->row, "changes that do not fit the table");
  a = (attempt){.q = &none, .table = made, .next = tables->next};
  if (made) ask_list(&of_changes, &a, how);
  pigy_table_free(made);
  free(announced);
  free(withdrawn);
}

/* Makes both tables of a row. Compares the validities of its routes, or the VRPs of the tables. */
static void ask_two(const question *q, attempt tables, extent how) {
  pigy_table *next = 0;
  size_t index;
  expect(pigy_table_new(q->announced, q->announced_count, &next, &index) == PIGY_OK, q->row, "no second table");
  tables.next = next;
  if (next && q->call == DIFFER) {
    ask_list(&of_revalidate, &tables, how);
    ask_each_twice(q, &tables);
  }
  if (next && q->call == CHANGES) ask_changes(q, &tables, how);
  pigy_table_free(next);
}

/* Makes a table of the VRPs of a row, and the calls on it. If a VRP is invalid, there has to be no table. */
static void ask_table(const question *q, extent how) {
  int is_of_vrps = q->status < PIGY_SECOND && q->call != CHANGED;
  question of = *q;
  attempt new = {.q = &of}, a = {.q = q}, made;
  if (q->call < ORIGINS) return;
  of.status = is_of_vrps ? q->status : PIGY_OK;
  of.last = is_of_vrps ? q->last : 0;
  made = ask(&of_table, &new, 0, 0);
  if (how == ALL) ask_refused(&of_table, &new, 0, 0);
  a.table = made.made;
  if (a.table && q->call == ORIGINS) {
    ask_list(&of_all, &a, how);
    ask_several(q, how);
    ask_each(q, &a, how);
  }
  if (a.table && q->call == COVERING) ask_list(&of_covering, &a, how);
  if (a.table && q->call == VRPS) ask_vrps(q, a.table, how);
  if (a.table && q->call == CHANGED) ask_changed(q, a.table, how);
  if (a.table && (q->call == DIFFER || q->call == CHANGES)) ask_two(q, a, how);
  pigy_table_free(made.made);
}

static void ask_row(const question *q, extent how) {
  ask_by_der(q, how);
  ask_by_handles(q, how);
  ask_table(q, how);
}

/* Makes the calls of a row with NULL in place of each array of length 0, and with NULL buffers of capacity 0. */
static void ask_with_null(const question *q) {
  question bare = *q;
  bare.has_null = 1;
  for (int i = 0; i < 4; i++)
    if (!bare.in[i].length) bare.in[i].octets = 0;
  if (!bare.count) bare.certificates = 0, bare.vrps = 0;
  if (!bare.route_count) bare.routes = 0;
  if (!bare.announced_count) bare.announced = 0;
  if (!bare.withdrawn_count) bare.withdrawn = 0;
  ask_row(&bare, WITH_NULL);
}

/* ---- NULL handles, and no arrays */

/* Makes a call. Then checks its status, and that two expressions on what it stored are 0. */
#define EXPECT_NONE(call, status, first, second, what) \
  do { \
    pigy_status found_status = (call); \
    expect(found_status == (status) && !(first) && !(second), 0, what); \
    calls++; \
  } while (0)

/* Passes NULL as each handle of a call on sets. The other handle is that of an empty set. */
static void ask_null_sets(void) {
  static pigy_status (*const made[])(const pigy_resources *, const pigy_resources *, pigy_resources **) = {
      pigy_resources_union, pigy_resources_intersection, pigy_resources_difference,
      pigy_resources_symmetric_difference};
  static pigy_status (*const tested[])(const pigy_resources *, const pigy_resources *, uint8_t *) = {
      pigy_resources_contains, pigy_resources_equal};
  const pigy_status none = PIGY_NO_HANDLE;
  uint8_t octets[2] = {MARK, MARK}, answer;
  pigy_set empty = {0, 0, 0, 0};
  pigy_buffers out = {octets, 1, ANY, octets + 1, 1, ANY};
  pigy_resources *there = 0, *set, *over;
  pigy_prefix prefix = {{10}, PIGY_IPV4, 8};
  pigy_as_range as_range;
  pigy_ip_range ip_range;
  size_t len, index;
  pigy_resources_free(0);
  expect(pigy_resources_read(empty, PIGY_STRICT, &there) == PIGY_OK && there, 0, "an empty set");
  for (int i = 0; i < 3; i++) {
    const pigy_resources *a = i == 1 ? there : 0, *b = i == 2 ? there : 0;
    for (int j = 0; j < 4; j++) {
      set = (pigy_resources *)(void *)octets;
      EXPECT_NONE(made[j](a, b, &set), none, set != 0, 0, "an operation on null");
    }
    for (int j = 0; j < 2; j++) {
      answer = MARK;
      EXPECT_NONE(tested[j](a, b, &answer), none, answer, 0, "a test of null");
    }
  }
  set = over = (pigy_resources *)(void *)octets;
  EXPECT_NONE(pigy_resources_verify(0, empty, 4, 0, 0, &set, &over), none, set != 0, over != 0, "an issuer of null");
  set = over = (pigy_resources *)(void *)octets;
  index = ANY;
  expect(pigy_resources_verify_path(0, 0, 0, 0, 0, 0, &set, &over, &index) == none, 0, "an anchor of null");
  expect(!set && !over && !index, 0, "what an anchor of null stores");
  answer = MARK;
  EXPECT_NONE(pigy_resources_contains_asn(0, 1, &answer), none, answer, 0, "an AS number of null");
  answer = MARK;
  EXPECT_NONE(pigy_resources_contains_prefix(0, &prefix, &answer), none, answer, 0, "a prefix of null");
  len = ANY;
  EXPECT_NONE(pigy_resources_prefixes(0, 0, &prefix, 1, &len), none, len, 0, "prefixes of null");
  len = ANY;
  EXPECT_NONE(pigy_resources_as_ranges(0, &as_range, 1, &len), none, len, 0, "AS ranges of null");
  len = ANY;
  EXPECT_NONE(pigy_resources_ip_ranges(0, 0, &ip_range, 1, &len), none, len, 0, "IP ranges of null");
  EXPECT_NONE(pigy_resources_der(0, &out), none, out.as_len, out.ip_len, "DER of null");
  len = ANY;
  EXPECT_NONE(pigy_resources_text(0, 0, (char *)octets, 1, &len), none, len, 0, "a text of null");
  expect(octets[0] == MARK && octets[1] == MARK, 0, "an octet of null");
  pigy_resources_free(there);
}

/* Passes NULL as each handle of a call on tables. */
static void ask_null_tables(void) {
  const pigy_status none = PIGY_NO_HANDLE;
  uint8_t octet = MARK, validity = MARK, reason = MARK;
  pigy_vrp vrp = {{10}, 1, PIGY_IPV4, 8, 8}, marked;
  pigy_covering covering;
  pigy_route route = {{0}, 0, 0, 0};
  pigy_table *table = 0, *next = (pigy_table *)(void *)&octet;
  size_t len = ANY, index = ANY;
  memset(&marked, MARK, sizeof marked);
  pigy_table_free(0);
  EXPECT_NONE(pigy_table_validate_routes(0, &route, 1, &octet, 1, &reason, 1, &len, &index), none, len, index,
              "routes of null");
  expect(reason == MARK, 0, "reasons of null");
  expect(pigy_table_validate(0, &route, &validity, &reason) == none, 0, "a route of null");
  expect(validity == PIGY_NO_VALIDITY && !reason, 0, "a validity of null");
  len = ANY;
  EXPECT_NONE(pigy_table_covering(0, &route, &covering, 1, &len), none, len, 0, "what covers by null");
  len = ANY;
  EXPECT_NONE(pigy_table_len(0, &len), none, len, 0, "the length of null");
  len = ANY;
  EXPECT_NONE(pigy_table_vrps(0, &vrp, 1, &len), none, len, 0, "VRPs of null");
  index = ANY;
  EXPECT_NONE(pigy_table_with_changes(0, &vrp, 1, &vrp, 1, &next, &index), none, index, next != 0, "null is changed");
  expect(pigy_table_new(&vrp, 1, &table, &index) == PIGY_OK, 0, "a table beside null");
  for (int i = 0; i < 3; i++) {
    const pigy_table *old = i == 1 ? table : 0, *other = i == 2 ? table : 0;
    len = index = ANY;
    EXPECT_NONE(pigy_table_revalidate(old, other, &route, 1, &octet, 1, &len, &index), none, len, index,
                "changed routes of null");
    len = index = ANY;
    EXPECT_NONE(pigy_table_changes(old, other, &marked, 1, &len, &marked, 1, &index), none, len, index,
                "changes of null");
  }
  for (size_t i = 0; i < 3; i++) {
    const pigy_table *tables[3] = {i ? table : 0, i > 1 ? table : 0, 0};
    len = index = ANY;
    reason = MARK;
    EXPECT_NONE(pigy_tables_validate_routes(tables, 3, &route, 1, &octet, 1, &reason, 1, &len, &index), none, len,
                index != i, "routes of several with null");
    expect(reason == MARK, 0, "reasons of several with null");
  }
  expect(octet == MARK && is_marked((const uint8_t *)&marked, 0, sizeof marked), 0, "an octet of null");
  pigy_table_free(table);
}

static void ask_null(void) {
  ask_null_sets();
  ask_null_tables();
}

/* Makes each call on a table with NULL in place of all its arrays. The table has no VRPs. */
static void ask_empty_table(void) {
  static const pigy_route route = {{10}, 1, PIGY_IPV4, 8};
  pigy_table *table = 0, *next = 0;
  uint8_t validity = MARK, reason = MARK;
  size_t len = ANY, index = ANY;
  EXPECT_NONE(pigy_table_new(0, 0, &table, &index), PIGY_OK, index, !table, "an empty table");
  index = ANY;
  EXPECT_NONE(pigy_table_with_changes(table, 0, 0, 0, 0, &next, &index), PIGY_OK, index, !next, "no changes");
  index = ANY;
  EXPECT_NONE(pigy_table_validate_routes(table, 0, 0, 0, 0, 0, 0, &len, &index), PIGY_OK, len, index, "no routes");
  expect(pigy_table_validate(table, &route, &validity, &reason) == PIGY_OK, 0, "a route by no VRPs");
  expect(validity == PIGY_NOT_FOUND && !reason, 0, "a validity by no VRPs");
  len = index = ANY;
  EXPECT_NONE(pigy_tables_validate_routes(0, 0, 0, 0, 0, 0, 0, 0, &len, &index), PIGY_OK, len, index, "no tables");
  len = index = ANY;
  EXPECT_NONE(pigy_table_revalidate(table, next, 0, 0, 0, 0, &len, &index), PIGY_OK, len, index, "no changed routes");
  len = index = ANY;
  EXPECT_NONE(pigy_table_changes(table, next, 0, 0, &len, 0, 0, &index), PIGY_OK, len, index, "no changed VRPs");
  len = ANY;
  EXPECT_NONE(pigy_table_covering(table, &route, 0, 0, &len), PIGY_OK, len, 0, "no VRPs that cover a route");
  len = ANY;
  EXPECT_NONE(pigy_table_vrps(table, 0, 0, &len), PIGY_OK, len, 0, "no VRPs of a table");
  pigy_table_free(next);
  pigy_table_free(table);
}

/* Makes each call on a handle with NULL in place of all its arrays. The set has no resources. */
static void ask_empty_set(pigy_set empty, pigy_buffers *out) {
  pigy_resources *set = 0, *over = 0, *other = 0;
  size_t len = ANY, index = ANY;
  EXPECT_NONE(pigy_resources_from_text(0, 0, PIGY_IPV6, &set), PIGY_OK, !set, 0, "an empty text");
  EXPECT_NONE(pigy_resources_verify_path(set, 0, 0, 0, 0, PIGY_STRICT, &other, &over, &index), PIGY_OK, index,
              !other || over, "an empty path by a handle");
  pigy_resources_free(other);
  EXPECT_NONE(pigy_resources_verify(set, empty, 0, PIGY_STRICT, PIGY_TRIM, &other, &over), PIGY_ABSENT, other != 0,
              over != 0, "no extension by a handle");
  EXPECT_NONE(pigy_resources_prefixes(set, PIGY_IPV6, 0, 0, &len), PIGY_OK, len, 0, "no prefixes of a handle");
  len = ANY;
  EXPECT_NONE(pigy_resources_as_ranges(set, 0, 0, &len), PIGY_OK, len, 0, "no AS ranges of a handle");
  len = ANY;
  EXPECT_NONE(pigy_resources_ip_ranges(set, PIGY_IPV4, 0, 0, &len), PIGY_OK, len, 0, "no IP ranges of a handle");
  len = ANY;
  EXPECT_NONE(pigy_resources_text(set, PIGY_ASN, 0, 0, &len), PIGY_OK, len, 0, "no text of a handle");
  out->as_len = out->ip_len = ANY;
  EXPECT_NONE(pigy_resources_der(set, out), PIGY_OK, out->as_len, out->ip_len, "no DER of a handle");
  pigy_resources_free(set);
}

/* Reads empty files. An empty SLURM file is read as JSON. */
static void ask_empty_files(void) {
  size_t len = ANY, index = ANY, expired = ANY;
  EXPECT_NONE(pigy_vrps_read(0, 0, 0, 0, &len, &index), PIGY_BAD_FILE + 6u, len, index, "an empty file");
  len = expired = index = ANY;
  EXPECT_NONE(pigy_vrps_read_unexpired(0, 0, 0, 0, 0, &len, &expired, &index), PIGY_BAD_FILE + 6u, len || expired,
              index, "an empty file with expiries");
  len = index = expired = ANY;
  EXPECT_NONE(pigy_slurm_apply(0, 0, 0, 0, 0, 0, &len, &index, &expired), PIGY_BAD_SLURM + 1u, len || expired, index,
              "an empty SLURM file");
}

/* Makes each other call with NULL in place of all its arrays. The expected status of each call is that of a row whose
 * arrays have length 0. */
static void ask_empty(void) {
  static pigy_status (*const made[])(pigy_set, pigy_set, pigy_encoding, pigy_buffers *) = {
      pigy_union, pigy_intersection, pigy_difference};
  static pigy_status (*const tested[])(pigy_set, pigy_set, pigy_encoding, uint8_t *) = {pigy_contains, pigy_equal};
  const pigy_set empty = {0, ANY, 0, ANY};
  const pigy_buffers none = {0, ANY, ANY, 0, ANY, ANY};
  pigy_buffers out = none, excess = none;
  pigy_vrp vrp = {{1}, 1, 1, 1, 1};
  pigy_route route = {{1}, 1, 1, 1};
  size_t len = ANY, index = ANY;
  for (pigy_present present = 0; present <= PIGY_HAS_BOTH; present++) {
    uint32_t status = !present ? PIGY_ABSENT : PIGY_SECOND + (present == PIGY_HAS_IP ? PIGY_BAD_IP : PIGY_BAD_AS) + 1u;
    out = excess = none;
    EXPECT_NONE(pigy_verify(empty, empty, present, PIGY_STRICT, PIGY_REFUSE, &out, &excess), status,
                out.as_len + out.ip_len, excess.as_len + excess.ip_len, "an empty certificate");
  }
  out = excess = none;
  expect(pigy_verify_path(empty, 0, 0, 0, 0, PIGY_STRICT, &out, &excess, &index) == PIGY_OK && !index, 0,
         "an empty path");
  expect(!out.as_len && !out.ip_len && !excess.as_len && !excess.ip_len, 0, "lengths of an empty path");
  for (int i = 0; i < 3; i++) {
    out = none;
    EXPECT_NONE(made[i](empty, empty, PIGY_STRICT, &out), PIGY_OK, out.as_len, out.ip_len, "a set of empty sets");
  }
  for (int i = 0; i < 2; i++) {
    uint8_t answer = MARK;
    EXPECT_NONE(tested[i](empty, empty, PIGY_STRICT, &answer), PIGY_OK, answer != 1, 0, "empty sets are compared");
  }
  out = none;
  EXPECT_NONE(pigy_set_from_text(0, 0, PIGY_ASN, &out), PIGY_OK, out.as_len, out.ip_len, "an empty list");
  EXPECT_NONE(pigy_prefixes(0, 0, PIGY_STRICT, PIGY_IPV4, 0, 0, &len), PIGY_OK, len, 0, "prefixes of no addresses");
  len = ANY;
  EXPECT_NONE(pigy_as_ranges(0, 0, PIGY_STRICT, 0, 0, &len), PIGY_OK, len, 0, "ranges of no AS numbers");
  len = ANY;
  EXPECT_NONE(pigy_ip_ranges(0, 0, PIGY_STRICT, PIGY_IPV4, 0, 0, &len), PIGY_OK, len, 0, "ranges of no addresses");
  len = index = ANY;
  EXPECT_NONE(pigy_validate(0, 0, 0, 0, 0, 0, &len, &index), PIGY_OK, len, index, "no VRPs and no routes");
  len = index = ANY;
  EXPECT_NONE(pigy_routes_read(0, 0, 0, 0, &len, &index), PIGY_OK, len, index, "no lines");
  EXPECT_NONE(pigy_vrp_from_text(0, 0, &vrp), PIGY_BAD_LINE + 4u, vrp.family, vrp.asn, "an empty VRP");
  EXPECT_NONE(pigy_route_from_text(0, 0, &route), PIGY_BAD_ROUTE + 5u, route.family, route.asn, "an empty route");
  len = ANY;
  EXPECT_NONE(pigy_vrp_text(&vrp, 0, 0, &len), PIGY_BAD_FAMILY, len, 0, "the text of no VRP");
  len = ANY;
  EXPECT_NONE(pigy_route_text(&route, 0, 0, &len), PIGY_BAD_FAMILY, len, 0, "the text of no route");
  len = ANY;
  EXPECT_NONE(pigy_answer(0, 0, 0, 0, &len), PIGY_BAD_QUERY, len, 0, "an empty line");
  ask_empty_set(empty, &out);
  ask_empty_table();
}

/* ---- large inputs */

/* Validates each route by a table in a call of its own. Returns whether the call returns the expected validity and the
 * expected reason. */
static int is_each(const pigy_table *table, const pigy_route *routes, const uint8_t *out, const uint8_t *reasons) {
  int is_so = 1;
  for (uint32_t i = 0; i < MANY; i++) {
    uint8_t validity = MARK, reason = MARK;
    is_so = is_so && pigy_table_validate(table, routes + i, &validity, &reason) == PIGY_OK && validity == out[i] &&
            reason == reasons[i];
  }
  return is_so;
}

/* Lists the VRPs in which a table of many VRPs and one of no VRPs differ. `vrps` has them in the order of a list. */
static void ask_many_changes(const pigy_table *table, const pigy_vrp *vrps) {
  pigy_vrp *list = (pigy_vrp *)(void *)block(MANY * sizeof *list);
  pigy_table *none = 0;
  size_t len = ANY, other = ANY;
  int is_so = 1;
  expect(pigy_table_new(0, 0, &none, &other) == PIGY_OK, 0, "a table of no VRPs");
  EXPECT_NONE(pigy_table_changes(table, none, 0, 0, &other, list, MANY, &len), PIGY_OK, other, len != MANY,
              "many withdrawn VRPs");
  for (uint32_t i = 0; i < MANY; i++)
    is_so = is_so && !memcmp(list[i].address, vrps[i].address, 16) && list[i].asn == vrps[i].asn;
  expect(is_so, 0, "another list of many VRPs");
  EXPECT_NONE(pigy_table_changes(none, table, list, MANY - 1, &len, 0, 0, &other), PIGY_TOO_SMALL, other, len != MANY,
              "many announced VRPs");
  pigy_table_free(none);
  free(list);
}

/* Validates many routes by VRPs, by a table, and one by one. Each route has the prefix of a VRP or a prefix of 32 bits
 * in it. Every second route has the AS of that VRP. */
static void ask_many(void) {
  pigy_vrp *vrps = (pigy_vrp *)(void *)block(MANY * sizeof *vrps);
  pigy_route *routes = (pigy_route *)(void *)block(MANY * sizeof *routes);
  uint8_t *out = block(MANY), *by_table = block(MANY), *reasons = block(MANY);
  pigy_table *table = 0;
  size_t len = ANY, index = ANY;
  int is_so = 1;
  for (uint32_t i = 0; i < MANY; i++) {
    uint8_t length = i % 3 ? 31 : 32, last = (uint8_t)(i << 1);
    pigy_vrp vrp = {{10, (uint8_t)(i >> 15), (uint8_t)(i >> 7), last}, i + 1, PIGY_IPV4, 31, 31};
    pigy_route route = {{10, (uint8_t)(i >> 15), (uint8_t)(i >> 7), last}, i % 2 ? i + 1 : i + 2, PIGY_IPV4, length};
    vrps[i] = vrp;
    routes[i] = route;
  }
  expect(pigy_validate(vrps, MANY, routes, MANY, out, MANY, &len, &index) == PIGY_OK, 0, "many routes");
  for (uint32_t i = 0; i < MANY; i++) is_so = is_so && out[i] == (i % 2 && i % 3 ? PIGY_VALID : PIGY_INVALID);
  expect(is_so && len == MANY && index == 0, 0, "validities of many routes");
  len = index = ANY;
  expect(pigy_table_new(vrps, MANY, &table, &index) == PIGY_OK, 0, "a table of many VRPs");
  expect(pigy_table_validate_routes(table, routes, MANY, by_table, MANY, reasons, MANY, &len, &index) == PIGY_OK, 0,
         "many routes by a table");
  for (uint32_t i = 0; i < MANY; i++)
    is_so = is_so && reasons[i] == (i % 2 == 0 ? PIGY_INVALID_AS : i % 3 ? 0 : PIGY_INVALID_LENGTH);
  expect(is_so && len == MANY && index == 0 && !memcmp(out, by_table, MANY), 0, "reasons of many routes");
  expect(is_each(table, routes, out, reasons), 0, "validities and reasons one by one");
  ask_many_changes(table, vrps);
  calls += MANY + 3;
  pigy_table_free(table);
  free(vrps), free(routes), free(out), free(by_table), free(reasons);
}

/* Returns a set of the odd AS numbers below 2 * ODD. */
static pigy_resources *odd_numbers(void) {
  char *text = (char *)block(ODD * 8), *end = text;
  pigy_resources *made = 0;
  for (unsigned i = 0; i < ODD; i++) end += sprintf(end, "%u,", 2 * i + 1);
  expect(pigy_resources_from_text(text, (size_t)(end - text), PIGY_ASN, &made) == PIGY_OK, 0, "many AS numbers");
  free(text);
  return made;
}

/* Asks for each number whether a set has it. Writes the set, and reads it again. */
static void ask_odd(const pigy_resources *odd) {
  pigy_as_range *ranges = (pigy_as_range *)(void *)block(ODD * sizeof *ranges);
  pigy_buffers out = {0, 0, 0, 0, 0, 0};
  pigy_resources *again = 0;
  uint8_t answer = MARK;
  size_t len = ANY;
  int is_so = 1;
  for (uint32_t i = 0; i < 2 * ODD; i++)
    is_so = is_so && pigy_resources_contains_asn(odd, i, &answer) == PIGY_OK && answer == i % 2;
  expect(is_so, 0, "odd AS numbers");
  expect(pigy_resources_as_ranges(odd, ranges, ODD, &len) == PIGY_OK && len == ODD, 0, "odd ranges");
  for (uint32_t i = 0; i < ODD; i++) is_so = is_so && ranges[i].min == 2 * i + 1 && ranges[i].max == 2 * i + 1;
  expect(is_so, 0, "bounds of odd ranges");
  expect(pigy_resources_der(odd, &out) == PIGY_TOO_SMALL && out.as_len && !out.ip_len, 0, "the length of odd numbers");
  out.as = block(out.as_capacity = out.as_len);
  expect(pigy_resources_der(odd, &out) == PIGY_OK, 0, "DER of odd numbers");
  expect(pigy_resources_read((pigy_set){out.as, out.as_len, 0, 0}, PIGY_STRICT, &again) == PIGY_OK, 0, "odd DER");
  expect(pigy_resources_equal(odd, again, &answer) == PIGY_OK && answer == 1, 0, "odd numbers are equal");
  calls += 2 * ODD + 5;
  pigy_resources_free(again);
  free(out.as);
  free(ranges);
}

/* ---- all rows */

typedef struct {
  question *all;
  unsigned count, first;
} questions;

static question question_of(unsigned row, char **words) {
  question q = {0};
  q.row = row;
  name_call(&q, words[0]);
  read_numbers(&q, words[1]);
  for (int i = 0; i < 4; i++) q.in[i] = read_run(q.call == PATH && i == 3 ? "-" : words[2 + i]);
  read_certificates(&q, q.call == PATH ? words[5] : "-");
  if (q.call == PRINT_VRP) q.vrps = read_vrps(q.in, &q.count);
  if (q.call == SLURM) q.vrps = read_vrps(q.in + 1, &q.count);
  if (q.call == PRINT_ROUTE) q.routes = read_routes(q.in, &q.route_count);
  if (q.call >= ORIGINS) {
    q.vrps = read_vrps(q.in, &q.count);
    if (q.call == CHANGED) q.announced = read_vrps(q.in + 2, &q.announced_count);
    if (q.call == DIFFER || q.call == CHANGES) q.announced = read_vrps(q.in + 1, &q.announced_count);
    if (q.call == CHANGED) q.withdrawn = read_vrps(q.in + 3, &q.withdrawn_count);
    if (q.call != CHANGED) q.routes = read_routes(q.in + 2, &q.route_count);
  }
  q.status = (uint32_t)strtoul(words[6], 0, 10);
  for (int i = 0; i < 2; i++) q.expected[i] = read_run(words[7 + i]);
  q.last = strtoul(words[9], 0, 10);
  return q;
}

static void end_question(question *q) {
  for (int i = 0; i < 4; i++) free(q->in[i].octets);
  for (int i = 0; i < 2; i++) free(q->expected[i].octets);
  free(q->certificates);
  free(q->vrps);
  free(q->announced);
  free(q->withdrawn);
  free(q->routes);
}

static FILE *open_file(const char *folder, const char *name) {
  char path[LENGTH];
  FILE *file;
  snprintf(path, sizeof path, "%s/%s", folder, name);
  file = fopen(path, "r");
  if (!file) exit(2);
  return file;
}

static questions read_rows(const char *folder) {
  static char line[LENGTH];
  FILE *file = open_file(folder, "rows.txt");
  questions found = {0, 0, 0};
  while (fgets(line, LENGTH, file)) {
    char *words[WORDS];
    int n = 0;
    for (char *word = strtok(line, " \n"); word && n < WORDS; word = strtok(0, " \n")) words[n++] = word;
    found.all = (question *)realloc(found.all, (found.count + 1) * sizeof *found.all);
    if (n != WORDS || !found.all) exit(2);
    found.all[found.count] = question_of(found.count + 1, words);
    found.count++;
  }
  fclose(file);
  return found;
}

/* ---- threads */

/* The rows that a thread asks, the handles that all threads share, and a set that the thread makes. */
typedef struct {
  questions rows;
  const pigy_resources *odd;
  const pigy_table *table;
  uint32_t number;
  pigy_resources *kept;
} shared;

/* Uses a set and a table that other threads use at the same time, also to make other handles from them. */
static void use_shared(const shared *of) {
  pigy_resources *one = 0, *joined = 0;
  pigy_table *next = 0;
  pigy_vrp fresh = {{11}, of->number, PIGY_IPV4, 8, 8}, announced;
  pigy_route ten = {{10}, 1, PIGY_IPV4, 8}, eleven = {{11}, of->number, PIGY_IPV4, 8};
  uint8_t answer = MARK, reason = MARK;
  size_t index, len, withdrawn_len;
  ask_odd(of->odd);
  expect(pigy_resources_from_text("AS2", 3, PIGY_ASN, &one) == PIGY_OK, 0, "a set of a thread");
  expect(pigy_resources_union(of->odd, one, &joined) == PIGY_OK, 0, "a union of a thread");
  expect(pigy_resources_contains(joined, of->odd, &answer) == PIGY_OK && answer == 1, 0, "a union contains");
  expect(pigy_resources_contains(of->odd, joined, &answer) == PIGY_OK && answer == 0, 0, "a part contains no union");
  pigy_resources_free(joined);
  pigy_resources_free(one);
  expect(pigy_table_validate(of->table, &ten, &answer, &reason) == PIGY_OK && answer == PIGY_VALID, 0, "one table");
  expect(pigy_table_with_changes(of->table, &fresh, 1, 0, 0, &next, &index) == PIGY_OK, 0, "a table of a thread");
  expect(pigy_table_validate(next, &eleven, &answer, &reason) == PIGY_OK && answer == PIGY_VALID, 0, "its own VRP");
  expect(pigy_table_validate(of->table, &eleven, &answer, &reason) == PIGY_OK && answer == PIGY_NOT_FOUND, 0,
         "no VRP of another thread");
  expect(pigy_table_changes(of->table, next, &announced, 1, &len, 0, 0, &withdrawn_len) == PIGY_OK && len == 1 &&
         withdrawn_len == 0 && announced.asn == of->number, 0, "the changes of a thread");
  pigy_table_free(next);
}

/* Verifies certificates and paths below a set that other threads use at the same time. Certificates inherit the AS
 * numbers, so their sets share the list of the issuer's set, and each call counts the sets that share it. The last
 * certificate of every second path claims AS1. Returns the set of one certificate. */
static pigy_resources *verify_below(const pigy_resources *issuer) {
  static const uint8_t run[] = {0x30, 4, 0xa0, 2, 5, 0, 0x30, 7, 0xa0, 5, 0x30, 3, 2, 1, 1};
  static const pigy_certificate path[] = {{0, 6, 0, 0, PIGY_HAS_AS, PIGY_REFUSE},
                                          {0, 6, 0, 0, PIGY_HAS_AS, PIGY_TRIM},
                                          {6, 9, 0, 0, PIGY_HAS_AS, PIGY_REFUSE}};
  const pigy_set inherit = {run, 6, 0, 0};
  pigy_resources *kept = 0;
  for (unsigned i = 0; i < BELOW; i++) {
    pigy_resources *last = 0, *over = 0;
    uint8_t answer = MARK;
    size_t verified = ANY, count = 2 + i % 2;
    pigy_resources_free(kept);
    expect(pigy_resources_verify(issuer, inherit, PIGY_HAS_AS, PIGY_STRICT, PIGY_REFUSE, &kept, &over) == PIGY_OK &&
           !over, 0, "a certificate below a shared set");
    expect(pigy_resources_verify_path(issuer, run, sizeof run, path, count, PIGY_STRICT, &last, &over, &verified) ==
           PIGY_OK && !over && verified == count, 0, "a path below a shared set");
    expect(pigy_resources_contains_asn(last, 1, &answer) == PIGY_OK && answer == 1, 0, "AS1 of a path");
    expect(pigy_resources_contains_asn(last, 3, &answer) == PIGY_OK && answer == (count == 2), 0, "AS3 of a path");
    pigy_resources_free(last);
  }
  calls += 4 * BELOW;
  return kept;
}

/* Makes the call of each row once. Begins at the row first, and wraps around. */
static void *ask_round(void *of) {
  shared *s = (shared *)of;
  use_shared(s);
  s->kept = verify_below(s->odd);
  for (unsigned i = 0; i < s->rows.count; i++) ask_row(s->rows.all + (s->rows.first + i) % s->rows.count, ONCE);
  return 0;
}

/* Runs ask_round on all threads at the same time. They share the inputs and two handles, and each begins at another
 * row. */
static void ask_on_threads(questions rows) {
  static const pigy_vrp vrp = {{10}, 1, PIGY_IPV4, 8, 8};
  pthread_t threads[THREADS];
  shared of[THREADS];
  pigy_resources *odd = odd_numbers();
  pigy_table *table = 0;
  size_t index;
  expect(pigy_table_new(&vrp, 1, &table, &index) == PIGY_OK, 0, "a table for all threads");
  for (unsigned i = 0; i < THREADS; i++) {
    of[i] = (shared){rows, odd, table, i + 1, 0};
    of[i].rows.first = rows.count * i / THREADS;
    if (pthread_create(threads + i, 0, ask_round, of + i)) exit(2);
  }
  for (unsigned i = 0; i < THREADS; i++) pthread_join(threads[i], 0);
  pigy_resources_free(odd);
  for (unsigned i = 0; i < THREADS; i++) {
    ask_odd(of[i].kept); /* the set outlives the one that it shares a list with */
    pigy_resources_free(of[i].kept);
  }
  pigy_table_free(table);
}

/* ---- the stack */

/* The header requires STACK for each call that reads JSON, and STACK_OF_OTHERS for each other call. It says that a call
 * that reads JSON uses less than USED_TO_READ of it, and that each other call uses less than USED. The stack of the
 * thread is much larger. */
enum { STACK = 128 << 10, STACK_OF_OTHERS = 16 << 10, USED = 8 << 10, USED_TO_READ = 64 << 10,
       STACK_OF_THREAD = 8 << 20, ALIGNED = 4096 };

/* The rows, whether their files are read or all other calls are made, and an address in the frame of the first function
 * on the thread. */
typedef struct {
  questions rows;
  int reads;
  uintptr_t frame;
} on_stack;

static int reads_json(kind call) { return call == READ || call == UNEXPIRED || call == SLURM; }

static void *ask_on_stack(void *of) {
  on_stack *one = (on_stack *)of;
  uint8_t here = 0;
  one->frame = (uintptr_t)&here;
  if (one->reads)
    ask_empty_files();
  else {
    ask_null();
    ask_empty();
    ask_many();
  }
  for (unsigned i = 0; i < one->rows.count; i++)
    if (reads_json(one->rows.all[i].call) == one->reads) ask_row(one->rows.all + i, ONCE);
  return 0;
}

/* Makes calls on a stack that is marked before, and returns how much of it they use. They used the octets from the
 * first frame down to the deepest octet that has changed. */
static size_t used_stack(questions rows, int reads) {
  on_stack one = {rows, reads, 0};
  pthread_attr_t how;
  pthread_t thread;
  void *made = 0;
  const uint8_t *stack;
  size_t unused = 0, used;
  if (posix_memalign(&made, ALIGNED, STACK_OF_THREAD)) exit(2);
  stack = memset(made, MARK, STACK_OF_THREAD);
  if (pthread_attr_init(&how) || pthread_attr_setstack(&how, made, STACK_OF_THREAD)) exit(2);
  if (pthread_create(&thread, &how, ask_on_stack, &one) || pthread_join(thread, 0)) exit(2);
  while (unused < STACK_OF_THREAD && stack[unused] == MARK) unused++;
  used = (size_t)(one.frame - (uintptr_t)stack) - unused;
  pthread_attr_destroy(&how);
  free(made);
  return used;
}

static void ask_stack(questions rows) {
  size_t to_read = used_stack(rows, 1), used = used_stack(rows, 0);
  expect(used < USED && to_read < USED_TO_READ, 0, "more of the stack than the header says");
  expect(USED < STACK_OF_OTHERS && USED_TO_READ < STACK, 0, "less of the stack is required than is used");
  expect(calls > rows.count && used > 0 && to_read > 0, 0, "no calls on the stack");
  printf("C: %u calls use %zu octets of the stack, and %zu to read files, of %u that are stated\n", calls, used,
         to_read, (unsigned)STACK);
}

/* Makes all calls on a thread with the default stack. */
static void ask_default_stack(questions rows) {
  on_stack one = {rows, 0, 0};
  pthread_attr_t how;
  pthread_t thread;
  size_t size = 0;
  if (pthread_attr_init(&how) || pthread_attr_getstacksize(&how, &size)) exit(2);
  for (one.reads = 0; one.reads < 2; one.reads++)
    if (pthread_create(&thread, 0, ask_on_stack, &one) || pthread_join(thread, 0)) exit(2);
  pthread_attr_destroy(&how);
  expect(calls > rows.count, 0, "no calls on a thread");
  printf("C: %u calls on a thread with a stack of %zu octets\n", calls, size);
}

/* ---- texts of statuses */

/* Returns whether a status has a text. */
static int has_text(pigy_status status) { return strcmp(pigy_status_text(status), "unknown status") != 0; }

/* Checks the texts of statuses. Each line of texts.txt is a status and its text. No other number has a text, and each
 * status has one kind. */
static void ask_texts(const char *folder) {
  static char line[LENGTH];
  FILE *file = open_file(folder, "texts.txt");
  unsigned count = 0, found = 0;
  while (fgets(line, LENGTH, file)) {
    char *text;
    pigy_status status = (pigy_status)strtoul(line, &text, 10);
    uint32_t of = PIGY_KIND(status);
    text[strcspn(text, "\n")] = 0;
    expect(*text == ' ' && !strcmp(pigy_status_text(status), text + 1), 0, "another text of a status");
    expect(!(of & (of - 1)) && (of == PIGY_OK) == (status == PIGY_OK), 0, "a status of two kinds");
    expect((of | PIGY_FAULT(status) | (status & PIGY_SECOND)) == status, 0, "a status of other parts");
    count++;
  }
  for (uint32_t fault = 0; fault < 256; fault++)
    for (int second = 0; second < 2; second++)
      for (int bit = 7; bit < 32; bit++) {
        pigy_status status = (bit < 8 ? 0u : 1u << bit) + fault + (second ? (uint32_t)PIGY_SECOND : 0u);
        if (bit != 24) found += has_text(status);
      }
  expect(count > 0 && found == count, 0, "a text of a number that is no status");
  expect(!has_text(UINT32_MAX) && !has_text(PIGY_BAD_LINE + PIGY_BAD_ITEM + 4u), 0, "a text of several kinds");
  fclose(file);
}

static void ask_all(questions rows) {
  pigy_resources *odd = odd_numbers();
  ask_odd(odd);
  pigy_resources_free(odd);
  for (unsigned i = 0; i < rows.count; i++) {
    expect_capacities(rows.all + i);
    ask_row(rows.all + i, ALL);
    ask_with_null(rows.all + i);
  }
  if (rows.count) ask_on_threads(rows);
}

int main(int count, char **words) {
  questions rows;
  int is_of_stack = count == 3 && !strcmp(words[2], "stack"), is_of_thread = count == 3 && !strcmp(words[2], "thread");
  if (count != 2 && !is_of_stack && !is_of_thread) return 2;
  rows = read_rows(words[1]);
  if (is_of_stack) {
    ask_stack(rows);
  } else if (is_of_thread) {
    ask_default_stack(rows);
  } else {
    expect(pigy_version() == PIGY_VERSION_NUMBER, 0, "another version");
    ask_texts(words[1]);
    ask_null();
    ask_empty();
    ask_empty_files();
    ask_many();
    ask_all(rows);
  }
  for (unsigned i = 0; i < rows.count; i++) end_question(rows.all + i);
  free(rows.all);
  printf("C: %u rows, %u calls, %u faults\n", rows.count, calls, faults);
  return faults || !rows.count;
}
