/* refused at run: unknown encoding */
#include "certificates.h"

int main(void) {
  /* The extensions and the encoding are exchanged. */
  return verify(claim, PIGY_STRICT, PIGY_HAS_IP, PIGY_TRIM);
}
