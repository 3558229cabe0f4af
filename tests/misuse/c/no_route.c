/* refused at compile: nonnull */
#include "certificates.h"

int main(void) {
  pigy_covering covering;
  size_t len;
  return accept_if(pigy_table_covering(0, 0, &covering, 1, &len) == PIGY_OK, PIGY_OK);
}
