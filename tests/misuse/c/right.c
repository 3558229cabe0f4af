/* accepted: the right call of this folder */
#include "certificates.h"

int main(void) {
  return verify(issuer, PIGY_HAS_IP, PIGY_STRICT, PIGY_REFUSE);
}
