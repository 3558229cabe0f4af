/* From a BGP UPDATE to a validity. Reads a prefix and an AS_PATH of an UPDATE, and validates the route. Then uses
 * another table, and validates each route again whose validity changes. Prints the validity before and after. The
 * program has the lock of a daemon, and starts no thread. In a daemon any thread may call `validate`, and one thread
 * `replace`. */
#include <pigyelund.h>
#include <pthread.h>
#include <stdio.h>
#include <string.h>

/* The lock for `current`. With glibc this kind of lock prefers readers. If readers leave `replace` no time, choose
 * PTHREAD_RWLOCK_PREFER_WRITER_NONRECURSIVE_NP by pthread_rwlockattr_setkind_np. */
static pthread_rwlock_t lock = PTHREAD_RWLOCK_INITIALIZER;
static pigy_table *current; /* an empty table until the first VRPs are there, so it is never NULL */

/* The routes that the router uses. A daemon has a list that grows, with locks of its own. It puts a route into the list
 * before it validates the route. Otherwise `replace` can miss the route. A validity is atomic, since several threads
 * with a read lock may store that of one route at the same time. */
enum { COUNT = 1 };
static pigy_route routes[COUNT];
static _Atomic uint8_t validity[COUNT];

/* Reads the first prefix of an NLRI (RFC 4271, 4.3). With ADD-PATH (RFC 7911) pass the octets after the path
 * identifier, which has 4 octets. Returns the number of octets of the prefix, or 0 if it is malformed. */
static size_t read_prefix(const uint8_t *nlri, size_t len, uint8_t family, pigy_route *route) {
  if (len == 0 || nlri[0] > (family == PIGY_IPV4 ? 32 : 128)) return 0;
  size_t octets = (nlri[0] + 7u) / 8;
  if (octets >= len) return 0;
  memset(route, 0, sizeof *route);
  memcpy(route->address, nlri + 1, octets);
  if (nlri[0] % 8) route->address[octets - 1] &= (uint8_t)(0xff << (8 - nlri[0] % 8)); /* host bits are 0 */
  route->family = family;
  route->len = nlri[0];
  return 1 + octets;
}

/* Finds the origin AS of an AS_PATH with AS numbers of 4 octets. If the neighbor sends 2 octets, pass the path that you
 * made of AS_PATH and AS4_PATH (RFC 6793, 4.2.3). `own` is the router's AS. Returns 0 if the path is malformed (RFC
 * 7606, 7.2): a segment has an unknown type, is empty, or is truncated. */
static int read_origin(const uint8_t *path, size_t len, uint32_t own, uint32_t *asn) {
  const uint8_t *last = NULL;
  for (size_t at = 0, octets; at < len; at += octets) {
    last = path + at;
    if (len - at < 2 || last[0] < 1 || last[0] > 4 || last[1] == 0) return 0;
    octets = 2 + 4 * (size_t)last[1];
    if (octets > len - at) return 0;
  }
  if (last == NULL || last[0] >= 3) { /* an empty path, or a segment of a confederation */
    *asn = own;
  } else if (last[0] == 1) { /* an AS_SET: no VRP matches AS 0 */
    *asn = 0;
  } else {
    last = path + len - 4;
    *asn = (uint32_t)last[0] << 24 | (uint32_t)last[1] << 16 | (uint32_t)last[2] << 8 | last[3];
  }
  return 1;
}

/* Validates a route. It stores the validity before it releases the lock. So each validity by the old table is stored
 * when `replace` compares the tables. Threads that use the same table store the same validity. */
static void validate(size_t at) {
  uint8_t found, reason;
  pthread_rwlock_rdlock(&lock);
  /* It takes no memory. It can fail only for a NULL table or an invalid route, which `read_prefix` does not make. */
  pigy_status status = pigy_table_validate(current, &routes[at], &found, &reason);
  validity[at] = status == PIGY_OK ? found : PIGY_NOT_FOUND;
  pthread_rwlock_unlock(&lock);
}

/* Uses the next table from now on. Validates each route again whose validity differs, and frees the old table. The
 * exchange comes first. Otherwise a route that is validated between comparison and exchange would stay wrong. */
static void replace(pigy_table *next) {
  uint8_t differs[COUNT];
  size_t len, index;
  pthread_rwlock_wrlock(&lock); /* all calls with the old table have returned */
  pigy_table *old = current;
  current = next;
  pthread_rwlock_unlock(&lock);
  /* It takes no memory, and `differs` is large enough. It can fail only for a NULL table or an invalid route. */
  pigy_status status = pigy_table_revalidate(old, next, routes, COUNT, differs, COUNT, &len, &index);
  for (size_t at = 0; at < COUNT; at++)
    if (status != PIGY_OK || differs[at]) validate(at);
  pigy_table_free(old);
}

int main(void) {
  /* An UPDATE: 192.0.2.0/24, and the path 64500 64496. A VRP: 192.0.2.0/23 up to /24 for AS64496. */
  static const uint8_t nlri[] = {24, 192, 0, 2}, path[] = {2, 2, 0, 0, 0xfb, 0xf4, 0, 0, 0xfb, 0xf0};
  static const pigy_vrp vrp = {.address = {192, 0, 2}, .asn = 64496, .family = PIGY_IPV4, .len = 23, .max_len = 24};
  static const char *const names[] = {[PIGY_VALID] = "valid", [PIGY_NOT_FOUND] = "not found",
                                      [PIGY_INVALID] = "invalid"};
  pigy_table *next;
  size_t index;
  if (pigy_table_new(NULL, 0, &current, &index) != PIGY_OK) return 1;
  if (read_prefix(nlri, sizeof nlri, PIGY_IPV4, &routes[0]) == 0) return 1;
  if (!read_origin(path, sizeof path, 64511, &routes[0].asn)) return 1;
  validate(0);
  puts(names[validity[0]]);
  if (pigy_table_new(&vrp, 1, &next, &index) != PIGY_OK) return 1;
  replace(next);
  puts(names[validity[0]]);
  pigy_table_free(current);
  return 0;
}
