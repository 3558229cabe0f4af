/* refused at compile: unused-result */
#include "certificates.h"

int main(void) {
  uint8_t answer = 1;
  pigy_contains(issuer, claim, PIGY_STRICT, &answer);
  return accept_if(answer, PIGY_OK);
}
