/* refused at run: bad maximum length of a VRP */
#include "certificates.h"

int main(void) {
  /* The maximum length is the number of further bits, as in 10.0.0.0/8 with 3 more. */
  static const pigy_vrp vrp = {{10}, 64496, PIGY_IPV4, 8, 3};
  pigy_table *table;
  size_t index;
  pigy_status status = pigy_table_new(&vrp, 1, &table, &index);
  pigy_table_free(table);
  return accept_if(status == PIGY_OK, status);
}
