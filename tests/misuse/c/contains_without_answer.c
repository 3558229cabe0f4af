/* refused at compile: too few arguments */
#include "certificates.h"

int main(void) {
  /* The result of a question is not its answer. */
  return accept_if(pigy_contains(issuer, claim, PIGY_STRICT), PIGY_OK);
}
