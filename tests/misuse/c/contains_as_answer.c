/* refused at run: done */
#include "certificates.h"

int main(void) {
  /* The status is taken for the answer. The issuer does not have the claim. */
  uint8_t answer;
  return accept_if(pigy_contains(issuer, claim, PIGY_STRICT, &answer) != PIGY_OK, PIGY_OK);
}
