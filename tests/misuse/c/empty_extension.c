/* refused at run: AS identifiers of the certificate or of the second set: truncated */
#include "certificates.h"

int main(void) {
  /* The certificate has no AS identifiers, and is said to have both extensions. */
  static const pigy_set cert = {0, 0, ten, sizeof ten};
  return verify(cert, PIGY_HAS_BOTH, PIGY_STRICT, PIGY_REFUSE);
}
