/* refused at run: unknown family */
#include "certificates.h"

int main(void) {
  /* The VRP is used although its text was refused: it has host bits. */
  pigy_vrp vrp = {{10}, 64496, PIGY_IPV4, 8, 8};
  pigy_table *table = 0;
  size_t index;
  pigy_status status = pigy_vrp_from_text("10.0.0.1/8 AS64496", 18, &vrp);
  if (status == PIGY_OK) return accept_if(1, status);
  status = pigy_table_new(&vrp, 1, &table, &index);
  return accept_if(status == PIGY_OK, status);
}
