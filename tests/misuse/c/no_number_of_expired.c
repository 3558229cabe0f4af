/* refused at compile: nonnull */
#include "certificates.h"

int main(void) {
  static const uint8_t file[] = "AS64496,10.0.0.0/8,8\n";
  pigy_vrp vrp;
  size_t len, line;
  return accept_if(pigy_vrps_read_unexpired(file, sizeof file - 1, 0, &vrp, 1, &len, 0, &line) == PIGY_OK, PIGY_OK);
}
