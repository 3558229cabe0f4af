/* refused at run: unknown mode */
#include "certificates.h"

int main(void) {
  /* The mode of the certificate is not set. */
  pigy_certificate cert = {.ip_len = sizeof both, .present = PIGY_HAS_IP};
  uint8_t ip[256], over[256];
  pigy_buffers out = {0, 0, 0, ip, sizeof ip, 0}, excess = {0, 0, 0, over, sizeof over, 0};
  size_t verified;
  pigy_status status = pigy_verify_path(issuer, both, sizeof both, &cert, 1, PIGY_STRICT, &out, &excess, &verified);
  return accept_if(status == PIGY_OK, status);
}
