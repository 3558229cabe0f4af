/* refused at run: IP address blocks of the certificate or of the second set: wrong tag */
#include "certificates.h"

int main(void) {
  /* The answer is read although the call failed. */
  uint8_t answer = 1;
  pigy_status status = pigy_contains(issuer, invalid, PIGY_STRICT, &answer);
  return accept_if(answer, status);
}
