/* refused at run: withdrawal of an unknown VRP */
#include "certificates.h"

int main(void) {
  /* The announced VRPs are passed as the withdrawn ones. */
  static const pigy_vrp before = {{10}, 64496, PIGY_IPV4, 8, 8}, after = {{10}, 64497, PIGY_IPV4, 8, 8};
  pigy_table *old, *next, *made;
  pigy_vrp announced, withdrawn;
  size_t len, other, index;
  if (pigy_table_new(&before, 1, &old, &index) != PIGY_OK) return 1;
  if (pigy_table_new(&after, 1, &next, &index) != PIGY_OK) return 1;
  if (pigy_table_changes(old, next, &announced, 1, &len, &withdrawn, 1, &other) != PIGY_OK) return 1;
  pigy_status status = pigy_table_with_changes(old, &withdrawn, 1, &announced, 1, &made, &index);
  pigy_table_free(made);
  pigy_table_free(next);
  pigy_table_free(old);
  return accept_if(status == PIGY_OK, status);
}
