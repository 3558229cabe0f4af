/* refused at run: no handle */
#include "certificates.h"

int main(void) {
  /* A daemon validates before it has a table. */
  static const pigy_route route = {{10}, 64497, PIGY_IPV4, 8};
  uint8_t validity = PIGY_VALID, reason;
  pigy_status status = pigy_table_validate(0, &route, &validity, &reason);
  return accept_if(validity == PIGY_VALID || validity == PIGY_NOT_FOUND, status);
}
