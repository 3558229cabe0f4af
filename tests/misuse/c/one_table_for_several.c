/* refused at compile: incompatible-pointer-types */
#include "certificates.h"

int main(void) {
  /* The call takes an array of handles. */
  static const pigy_route route = {{10}, 64497, PIGY_IPV4, 8};
  pigy_table *table;
  uint8_t found = PIGY_INVALID;
  size_t len, index;
  if (pigy_table_new(0, 0, &table, &index) != PIGY_OK) return 1;
  pigy_status status = pigy_tables_validate_routes(table, 1, &route, 1, &found, 1, 0, 0, &len, &index);
  pigy_table_free(table);
  return accept_if(found != PIGY_INVALID, status);
}
