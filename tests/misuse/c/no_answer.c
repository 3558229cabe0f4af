/* refused at compile: nonnull */
#include "certificates.h"

int main(void) {
  return accept_if(pigy_resources_contains_asn(0, 1, 0) == PIGY_OK, PIGY_OK);
}
