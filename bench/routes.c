/* routes HOW VRPS ROUTES: makes a table of VRPS VRPs, and validates ROUTES routes by it.
 *
 * HOW is `together` (all routes in one call), `alone` (one route a call) or `changed` (all routes in one call, by a
 * table after changes). The program prints the number of valid routes. Most VRPs have 24 bits, and half of the routes
 * are VRPs. The status is 0 if each call succeeded. */
#include "../foreign/pigyelund.h"
#include <stdio.h>
#include <stdlib.h>
#include <string.h>

enum { CHANGES = 300 };

static uint64_t state = 6811;

static uint32_t next_number(void) { /* xorshift64* */
  state ^= state >> 12;
  state ^= state << 25;
  state ^= state >> 27;
  return (uint32_t)((state * 0x2545f4914f6cdd1dull) >> 32);
}

static pigy_vrp made_vrp(uint32_t least_as) {
  pigy_vrp vrp = {{0}, least_as + next_number() % 60000, PIGY_IPV4, 24, 24};
  uint32_t address = next_number();
  if (next_number() % 4 == 0) vrp.len = (uint8_t)(12 + next_number() % 12);
  address = address >> (32 - vrp.len) << (32 - vrp.len);
  for (int i = 0; i < 4; i++) vrp.address[i] = (uint8_t)(address >> (24 - 8 * i));
  return vrp;
}

static void *allocate(size_t count, size_t size) {
  void *made = calloc(count + 1, size);
  if (!made) exit(2);
  return made;
}

/* Returns the table after changes: 300 VRPs are announced, whose AS numbers it does not have, and its first 300 VRPs
 * are withdrawn. */
static pigy_table *changed(pigy_table *table, const pigy_vrp *vrps) {
  pigy_vrp fresh[CHANGES];
  pigy_table *next = 0;
  size_t index;
  for (size_t i = 0; i < CHANGES; i++) fresh[i] = made_vrp(1000000 + 100000 * (uint32_t)i);
  if (pigy_table_with_changes(table, fresh, CHANGES, vrps, CHANGES, &next, &index) != PIGY_OK) exit(4);
  pigy_table_free(table);
  return next;
}

int main(int count, char **words) {
  if (count != 4) return 2;
  size_t vrp_count = strtoul(words[2], 0, 10), route_count = strtoul(words[3], 0, 10), index, len, valid = 0;
  uint8_t reason;
  pigy_vrp *vrps = allocate(vrp_count, sizeof *vrps);
  pigy_route *routes = allocate(route_count, sizeof *routes);
  uint8_t *out = allocate(route_count, 1);
  pigy_table *table = 0;
  for (size_t i = 0; i < vrp_count; i++) vrps[i] = made_vrp(1);
  for (size_t i = 0; i < route_count; i++) {
    pigy_vrp one = i % 2 ? vrps[next_number() % vrp_count] : made_vrp(1);
    pigy_route route = {{0}, one.asn, one.family, one.len};
    memcpy(route.address, one.address, 16);
    routes[i] = route;
  }
  if (pigy_table_new(vrps, vrp_count, &table, &index) != PIGY_OK) return 3;
  if (!strcmp(words[1], "changed")) table = changed(table, vrps);
  if (!strcmp(words[1], "alone")) {
    for (size_t i = 0; i < route_count; i++)
      if (pigy_table_validate(table, routes + i, out + i, &reason) != PIGY_OK) return 5;
  } else if (pigy_table_validate_routes(table, routes, route_count, out, route_count, 0, 0, &len, &index) != PIGY_OK) {
    return 5;
  }
  for (size_t i = 0; i < route_count; i++) valid += out[i] == PIGY_VALID;
  printf("%zu\n", valid);
  pigy_table_free(table);
  free(vrps), free(routes), free(out);
  return 0;
}
