/* refused at run: a buffer is too small */
#include "certificates.h"

int main(void) {
  /* There is one octet for the reasons of two routes. */
  static const pigy_vrp vrp = {{10}, 64496, PIGY_IPV4, 8, 8};
  static const pigy_route routes[] = {{{10}, 64496, PIGY_IPV4, 8}, {{10}, 64497, PIGY_IPV4, 8}};
  pigy_table *table;
  uint8_t found[2], reason;
  size_t len, index;
  if (pigy_table_new(&vrp, 1, &table, &index) != PIGY_OK) return 1;
  pigy_status status = pigy_table_validate_routes(table, routes, 2, found, 2, &reason, 1, &len, &index);
  pigy_table_free(table);
  return accept_if(status == PIGY_OK, status);
}
