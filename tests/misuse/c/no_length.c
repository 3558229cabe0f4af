/* refused at compile: nonnull */
#include "certificates.h"

int main(void) {
  pigy_vrp vrp;
  return accept_if(pigy_table_vrps(0, &vrp, 1, 0) == PIGY_OK, PIGY_OK);
}
