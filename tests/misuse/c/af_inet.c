/* refused at run: unknown family of a route or of a withdrawn VRP */
#include "certificates.h"

int main(void) {
  /* AF_INET was the number of IPv6 addresses. The route was a00::/8, which no VRP covers. */
  static const pigy_vrp vrp = {{10}, 64496, PIGY_IPV4, 8, 8};
  static const pigy_route route = {{10}, 64497, 2, 8};
  uint8_t validity = PIGY_INVALID;
  size_t len, index;
  pigy_status status = pigy_validate(&vrp, 1, &route, 1, &validity, 1, &len, &index);
  return accept_if(status == PIGY_OK && validity != PIGY_INVALID, status);
}
