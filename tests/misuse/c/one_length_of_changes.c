/* refused at compile: nonnull */
#include "certificates.h"

int main(void) {
  pigy_vrp announced;
  size_t len;
  return accept_if(pigy_table_changes(0, 0, &announced, 1, &len, 0, 0, 0) == PIGY_OK, PIGY_OK);
}
