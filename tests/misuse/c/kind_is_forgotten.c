/* refused at run: unknown kind of resources */
#include "certificates.h"

int main(void) {
  /* The kind is 0, which was the number of AS numbers. */
  pigy_resources *set;
  pigy_status status = pigy_resources_from_text("AS1", 3, 0, &set);
  return accept_if(status == PIGY_OK, status);
}
