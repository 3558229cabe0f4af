/* tables [VRPS ROUTES]: measures a table of VRPs of Pigyelund and one of rtrlib in one run.
 *
 * The program prints how long these take: making the table, all routes in one call, one route a call, and making the
 * table after 300 changes. It also prints the octets that glibc has allocated for each VRP of both tables, and how many
 * answers differ. Most VRPs have 24 bits, and half of the routes are VRPs. Times are the least of ROUNDS. */
#include "../foreign/pigyelund.h"
#include <arpa/inet.h>
#include <malloc.h>
#include <rtrlib/rtrlib.h>
#include <stdio.h>
#include <stdlib.h>
#include <string.h>
#include <time.h>

enum { ROUNDS = 3, CHANGES = 300 };

static uint64_t state = 6811;

static uint32_t next_number(void) { /* xorshift64* */
  state ^= state >> 12;
  state ^= state << 25;
  state ^= state >> 27;
  return (uint32_t)((state * 0x2545f4914f6cdd1dull) >> 32);
}

static double now(void) {
  struct timespec t;
  clock_gettime(CLOCK_MONOTONIC, &t);
  return (double)t.tv_sec * 1e3 + (double)t.tv_nsec / 1e6;
}

/* Returns how many octets glibc has allocated. */
static double allocated(void) {
  struct mallinfo2 all = mallinfo2();
  return (double)(all.uordblks + all.hblkhd);
}

static pigy_vrp made_vrp(void) {
  pigy_vrp vrp = {{0}, 1 + next_number() % 60000, PIGY_IPV4, 24, 24};
  uint32_t address = next_number();
  if (next_number() % 4 == 0) vrp.len = (uint8_t)(12 + next_number() % 12);
  address = address >> (32 - vrp.len) << (32 - vrp.len);
  for (int i = 0; i < 4; i++) vrp.address[i] = (uint8_t)(address >> (24 - 8 * i));
  return vrp;
}

static struct lrtr_ip_addr address_of(const uint8_t *octets) {
  struct lrtr_ip_addr address = {.ver = LRTR_IPV4};
  for (int i = 0; i < 4; i++) address.u.addr4.addr = address.u.addr4.addr << 8 | octets[i];
  return address;
}

static struct pfx_record record_of(const pigy_vrp *vrp) {
  struct pfx_record record = {.asn = vrp->asn, .min_len = vrp->len, .max_len = vrp->max_len};
  record.prefix = address_of(vrp->address);
  return record;
}

/* Returns the same validity by the number that Pigyelund gives it. */
static uint8_t number_of(enum pfxv_state found) {
  return found == BGP_PFXV_STATE_VALID ? PIGY_VALID : found == BGP_PFXV_STATE_INVALID ? PIGY_INVALID : PIGY_NOT_FOUND;
}

static void *allocate(size_t size) {
  void *made = malloc(size);
  if (!made) exit(2);
  return made;
}

static void row(const char *what, double ours, double theirs) {
  printf("%-22s %10.1f %10.1f %8.3f\n", what, ours, theirs, theirs > 0 ? ours / theirs : 0);
}

int main(int count, char **words) {
  size_t vrps = count > 1 ? strtoul(words[1], 0, 10) : 500000;
  size_t routes = count > 2 ? strtoul(words[2], 0, 10) : 1000000;
  pigy_vrp *all = allocate(vrps * sizeof *all), *fresh = allocate(CHANGES * sizeof *fresh);
  pigy_route *asked = allocate(routes * sizeof *asked);
  uint8_t *ours = allocate(routes), *theirs = allocate(routes), *alone = allocate(routes), reason;
  pigy_table *table = 0, *next = 0;
  struct pfx_table peer;
  size_t len, index, differing = 0;
  double least[6] = {1e18, 1e18, 1e18, 1e18, 1e18, 1e18}, octets[2] = {0, 0};
  for (size_t i = 0; i < vrps; i++) all[i] = made_vrp();
  for (size_t i = 0; i < CHANGES; i++) {
    fresh[i] = made_vrp();
    fresh[i].asn += 1000000; /* so that the table has none of them */
  }
  for (size_t i = 0; i < routes; i++) {
    pigy_vrp one = i % 2 ? all[next_number() % vrps] : made_vrp();
    pigy_route route = {{0}, one.asn, one.family, one.len};
    memcpy(route.address, one.address, 16);
    asked[i] = route;
  }
  for (int round = 0; round < ROUNDS; round++) {
    double before = allocated(), at = now(), times[6];
    if (pigy_table_new(all, vrps, &table, &index) != PIGY_OK) return 2;
    times[0] = now() - at;
    octets[0] = (allocated() - before) / (double)vrps;
    before = allocated();
    at = now();
    pfx_table_init(&peer, 0);
    for (size_t i = 0; i < vrps; i++) {
      struct pfx_record record = record_of(all + i);
      pfx_table_add(&peer, &record);
    }
    times[1] = now() - at;
    octets[1] = (allocated() - before) / (double)vrps;
    at = now();
    if (pigy_table_validate_routes(table, asked, routes, ours, routes, 0, 0, &len, &index) != PIGY_OK) return 2;
    times[2] = now() - at;
    at = now();
    for (size_t i = 0; i < routes; i++) {
      struct lrtr_ip_addr address = address_of(asked[i].address);
      enum pfxv_state found;
      pfx_table_validate(&peer, asked[i].asn, &address, asked[i].len, &found);
      theirs[i] = number_of(found);
    }
    times[3] = now() - at;
    at = now();
    for (size_t i = 0; i < routes; i++)
      if (pigy_table_validate(table, asked + i, alone + i, &reason) != PIGY_OK) return 2;
    times[4] = now() - at;
    at = now();
    if (pigy_table_with_changes(table, fresh, CHANGES, all, 0, &next, &index) != PIGY_OK) return 2;
    times[5] = now() - at;
    for (int i = 0; i < 6; i++) least[i] = times[i] < least[i] ? times[i] : least[i];
    for (size_t i = 0; i < routes; i++) differing += ours[i] != theirs[i] || ours[i] != alone[i];
    pigy_table_free(next);
    pigy_table_free(table);
    pfx_table_free(&peer);
  }
  printf("%zu VRPs, %zu routes, milliseconds\n", vrps, routes);
  printf("%-22s %10s %10s %8s\n", "", "pigyelund", "rtrlib", "ratio");
  row("made", least[0], least[1]);
  row("all routes, one call", least[2], least[3]);
  row("one route a call", least[4], least[3]);
  row("300 changes", least[5], 0);
  row("octets a VRP", octets[0], octets[1]);
  printf("%zu answers differ\n", differing);
  free(all), free(fresh), free(asked), free(ours), free(theirs), free(alone);
  return differing != 0;
}
