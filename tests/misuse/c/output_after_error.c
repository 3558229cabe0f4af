/* refused at run: overclaimed IPv4 resources */
#include "certificates.h"

int main(void) {
  /* The output is used although the certificate was refused. It has 12.0.0.0/8 if it has the overclaimed resources. */
  uint8_t verified[256], over[256], answer = 0;
  pigy_buffers out = {0, 0, 0, verified, sizeof verified, 0}, excess = {0, 0, 0, over, sizeof over, 0};
  static const uint8_t twelve[] = {0x30, 12, 0x30, 10, 4, 2, 0, 1, 0x30, 4, 3, 2, 0, 12};
  pigy_set next, wanted = {0, 0, twelve, sizeof twelve};
  pigy_status status = pigy_verify(issuer, claim, PIGY_HAS_IP, PIGY_STRICT, PIGY_REFUSE, &out, &excess);
  next = (pigy_set){0, 0, out.ip, out.ip_len};
  if (pigy_contains(next, wanted, PIGY_STRICT, &answer) != PIGY_OK) return 1;
  return accept_if(answer, status);
}
