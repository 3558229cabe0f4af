/* refused at run: no handle */
#include "certificates.h"

int main(void) {
  /* One of two caches has no table yet. The octet of the route is 0 before, which is PIGY_VALID. */
  static const pigy_route route = {{10}, 64497, PIGY_IPV4, 8};
  pigy_table *table;
  uint8_t found = 0;
  size_t len, index;
  if (pigy_table_new(0, 0, &table, &index) != PIGY_OK) return 1;
  const pigy_table *tables[] = {table, 0};
  pigy_status status = pigy_tables_validate_routes(tables, 2, &route, 1, &found, 1, 0, 0, &len, &index);
  pigy_table_free(table);
  return accept_if(len == 1 && found == PIGY_VALID, status);
}
