/* refused at run: unknown bit mask of extensions */
#include "certificates.h"

int main(void) {
  /* The extensions and the mode are exchanged. */
  return verify(claim, PIGY_TRIM, PIGY_STRICT, PIGY_HAS_IP);
}
