/* refused at run: unknown bit mask of extensions */
#include "certificates.h"

int main(void) {
  /* The last two members are exchanged. */
  pigy_certificate cert = {0, 0, 0, sizeof both, PIGY_TRIM, PIGY_HAS_IP};
  uint8_t ip[256], over[256];
  pigy_buffers out = {0, 0, 0, ip, sizeof ip, 0}, excess = {0, 0, 0, over, sizeof over, 0};
  size_t verified;
  pigy_status status = pigy_verify_path(issuer, both, sizeof both, &cert, 1, PIGY_STRICT, &out, &excess, &verified);
  return accept_if(status == PIGY_OK, status);
}
