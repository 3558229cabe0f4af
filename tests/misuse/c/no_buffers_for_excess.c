/* refused at compile: nonnull */
#include "certificates.h"

int main(void) {
  pigy_buffers out = {0, 0, 0, 0, 0, 0};
  return accept_if(pigy_verify(issuer, claim, PIGY_HAS_IP, PIGY_STRICT, PIGY_REFUSE, &out, 0) == PIGY_OK, PIGY_OK);
}
