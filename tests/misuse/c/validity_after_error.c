/* refused at run: unknown family of a route or of a withdrawn VRP */
#include "certificates.h"

int main(void) {
  /* The validity is read although the call failed. The family is AF_INET, which is 2. */
  static const pigy_vrp vrp = {{10}, 64496, PIGY_IPV4, 8, 8};
  static const pigy_route route = {{10}, 64496, 2, 8};
  pigy_table *table;
  uint8_t validity = PIGY_VALID, reason;
  size_t index;
  if (pigy_table_new(&vrp, 1, &table, &index) != PIGY_OK) return 1;
  pigy_status status = pigy_table_validate(table, &route, &validity, &reason);
  pigy_table_free(table);
  return accept_if(validity == PIGY_VALID || validity == PIGY_NOT_FOUND, status);
}
